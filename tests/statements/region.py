#!/usr/bin/env python3
"""region.py: tries what is said of regions on random outlines, before and beside the proofs.

The half-line is written out by the cases of the Rust's line.rs; against it stand the half-open even-odd rule, the winding number
(odd where the even-odd rule says inside), On by exact geometry, the outline turned round and begun at another corner, and the
two senses exchanged. Usage: region.py [outlines] [seed]."""
import random
import sys

CCW, CW, CO = "CounterClockWise", "ClockWise", "CoLinear"


def orient(p, q, r):
    d = (q[0] - p[0]) * (r[1] - p[1]) - (q[1] - p[1]) * (r[0] - p[0])
    return CCW if d > 0 else CW if d < 0 else CO


def reverse(o):
    return {CCW: CW, CW: CCW, CO: CO}[o]


def half_line(start, through, a, b):
    """As HalfLineSoS has it: None, or the turn that Crossing carries."""
    b1, b2 = min(a, b), max(a, b)
    to1, to2 = orient(start, through, b1), orient(start, through, b2)
    if to1 == to2 == CO:
        return None
    if to1 == CO:
        return to2 if to2 == orient(b1, b2, start) else None
    if to2 == CO:
        return to1 if to1 == orient(b2, b1, start) else None
    if to1 == reverse(to2) and to1 == reverse(orient(b1, b2, start)):
        return CO
    return None


def sides(outline):
    return list(zip(outline, outline[1:] + outline[:1]))


def on(p, a, b):
    return orient(a, b, p) == CO and min(a, b) <= p <= max(a, b)


def answer(outline, p, counted=(CO, CCW)):
    if any(on(p, a, b) for a, b in sides(outline)):
        return "On"
    met = sum(half_line(p, (p[0] + 1, p[1]), a, b) in counted for a, b in sides(outline))
    return "Inside" if met % 2 else "Outside"


def half_open(p, a, b):
    low, high = (a, b) if b[1] > a[1] else (b, a)
    return low[1] <= p[1] < high[1] and orient(low, high, p) == CCW


def winding(outline, p):
    """Whole turns of the way round the peak, by quarters: shares no test with the half-line."""
    def quarter(q):
        x, y = q[0] - p[0], q[1] - p[1]
        return 0 if x > 0 and y >= 0 else 1 if x <= 0 and y > 0 else 2 if x < 0 and y <= 0 else 3
    total = 0
    for a, b in sides(outline):
        step = (quarter(b) - quarter(a)) % 4
        total += {0: 0, 1: 1, 3: -1}[step] if step != 2 else (2 if orient(p, a, b) == CCW else -2)
    return total // 4


def try_one(chance):
    reach = chance.choice((2, 3, 5, 20, 32767))
    count = chance.choice((3, 3, 4, 5, 8, 20, 64))
    outline = []
    while len(outline) < count or outline[0] == outline[-1]:
        corner = (chance.randint(-reach, reach), chance.randint(-reach, reach))
        if len(outline) == count:
            outline.pop()
        if not outline or outline[-1] != corner:
            outline.append(corner)
    peaks = [(chance.randint(-reach, min(reach, 32766)), chance.randint(-reach, reach)) for _ in range(3)]
    x, y = chance.choice(outline)
    peaks += [(chance.randint(-reach, min(reach, 32766)), y), (min(x, 32766), y)]
    for p in peaks:
        told = answer(outline, p)
        for a, b in sides(outline):
            assert (half_line(p, (p[0] + 1, p[1]), a, b) in (CO, CCW)) == half_open(p, a, b), (p, a, b)
        if told != "On":
            assert (told == "Inside") == (winding(outline, p) % 2 == 1), (outline, p)
        k = chance.randrange(count)
        for other in (outline[::-1], outline[k:] + outline[:k]):
            assert answer(other, p) == told, (outline, p)
        assert answer(outline, p, (CO, CW)) == told, (outline, p)


def main():
    count = int(sys.argv[1]) if len(sys.argv) > 1 else 20000
    chance = random.Random(int(sys.argv[2]) if len(sys.argv) > 2 else 9)
    for _ in range(count):
        try_one(chance)
    print(f"region: {count} outlines, 5 peaks each, as said")


if __name__ == "__main__":
    main()
