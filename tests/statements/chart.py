"""A chart in exact numbers, from the scope: pieces, the segment test, the order of the active list."""
from fractions import Fraction
from functools import lru_cache


class Piece:
    """Two ends in the order of points, each with its mark."""

    def __init__(self, kind, x1, y1, x2, y2):
        first, second = ((x1, y1), kind & 1), ((x2, y2), kind >> 1)
        (self.min, self.min_in), (self.max, self.max_in) = sorted((first, second))
        self.run, self.rise = self.max[0] - self.min[0], self.max[1] - self.min[1]
        self.upright = self.run == 0

    def side(self, p):
        """0 on the line through the ends."""
        return self.run * (p[1] - self.min[1]) - self.rise * (p[0] - self.min[0])

    def on(self, p):
        """p lies on the piece with its ends added."""
        return self.min <= p <= self.max and self.side(p) == 0

    def contains(self, p):
        return self.on(p) and (p != self.min or self.min_in) and (p != self.max or self.max_in)


def aligned(a, b):
    return a.side(b.min) == 0 and a.side(b.max) == 0


def test(a, b):
    """'overlap', 'crossing' or None; and the first common point of a pair that meets."""
    if aligned(a, b):
        low, high = max(a.min, b.min), min(a.max, b.max)
        meets = low < high or low == high and a.contains(low) and b.contains(low)
        return ("overlap", low) if meets else (None, None)
    d = a.run * b.rise - a.rise * b.run
    if d == 0:
        return None, None
    t = Fraction((b.min[0] - a.min[0]) * b.rise - (b.min[1] - a.min[1]) * b.run, d)
    c = (a.min[0] + t * a.run, a.min[1] + t * a.rise)
    return ("crossing", c) if a.contains(c) and b.contains(c) else (None, None)


class Chart:
    """Numbered pieces. `full`: an upright piece has the height of the point visited, and not its smaller y."""

    def __init__(self, pieces, full=False):
        self.pieces, self.full, self.n = pieces, full, len(pieces)
        self.test = lru_cache(None)(lambda i, j: test(pieces[i], pieces[j]))
        self.pairs = [(i, j) for i in range(self.n) for j in range(i + 1, self.n)]

    def rank(self, p, i):
        """By height at p's x, then slope (upright last), then number."""
        s = self.pieces[i]
        if s.upright:
            return (p[1] if self.full else s.min[1], 1, 0, i)
        slope = Fraction(s.rise, s.run)
        return (s.min[1] + slope * (p[0] - s.min[0]), 0, slope, i)

    def points(self):
        """All ends and crossings in order, each once."""
        ends = [e for s in self.pieces for e in (s.min, s.max)]
        return sorted(set(ends + [c for k, c in (self.test(*q) for q in self.pairs) if k == "crossing"]))
