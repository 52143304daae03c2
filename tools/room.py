"""Finds room for labels among lines, marks and other labels."""
from collections import defaultdict
from dataclasses import dataclass
from math import dist

CELL = 24


@dataclass(frozen=True)
class Box:
    left: float
    top: float
    right: float
    bottom: float

    @staticmethod
    def around(x, y, wide, tall):
        return Box(x - wide / 2, y - tall / 2, x + wide / 2, y + tall / 2)

    def middle(self):
        return (self.left + self.right) / 2, (self.top + self.bottom) / 2

    def nearest(self, x, y):
        """The point of the box that is nearest to x, y."""
        return min(max(x, self.left), self.right), min(max(y, self.top), self.bottom)

    def distance(self, x, y):
        return dist(self.nearest(x, y), (x, y))

    def shared(self, other):
        """The area that both cover."""
        wide = min(self.right, other.right) - max(self.left, other.left)
        tall = min(self.bottom, other.bottom) - max(self.top, other.top)
        return max(wide, 0) * max(tall, 0)

    def outside(self, other):
        return (self.right - self.left) * (self.bottom - self.top) - self.shared(other)

    def meets(self, line):
        """Whether a line from x1, y1 to x2, y2 passes through the box: the part within its two bands is not empty."""
        x1, y1, x2, y2 = line
        low, high = 0.0, 1.0
        for start, step, least, most in ((x1, x2 - x1, self.left, self.right), (y1, y2 - y1, self.top, self.bottom)):
            if step == 0:
                if not least <= start <= most:
                    return False
                continue
            first, last = sorted(((least - start) / step, (most - start) / step))
            low, high = max(low, first), min(high, last)
        return low <= high


class Room:
    """What is taken of a picture: lines, which a label had better not cover, and boxes, which it must not."""

    def __init__(self, whole, lines):
        self.whole, self.lines, self.taken = whole, lines, defaultdict(list)

    def take(self, box):
        for cell in cells(box):
            self.taken[cell].append(box)

    def cost(self, box, own, enough):
        """What the box costs; from `enough` on, no matter how much more."""
        cost, seen = 3 * box.outside(self.whole), set()
        for other in (other for cell in cells(box) for other in self.taken.get(cell, ())):
            if cost >= enough:
                return cost
            if id(other) not in seen:
                seen.add(id(other))
                cost += 3 * box.shared(other)
        return cost + 12 * sum(box.meets(line) for i, line in enumerate(self.lines) if i != own)

    def best(self, boxes, own=None):
        """Takes and returns the box that costs least, of equal ones the first. It is free to lie on the line `own`."""
        best, least = None, float("inf")
        for box in boxes:
            cost = self.cost(box, own, least)
            if cost < least:
                best, least = box, cost
            if cost == 0:
                break
        self.take(best)
        return best


def cells(box):
    for across in range(int(box.left // CELL), int(box.right // CELL) + 1):
        for up in range(int(box.top // CELL), int(box.bottom // CELL) + 1):
            yield across, up
