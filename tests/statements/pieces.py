#!/usr/bin/env python3
"""Tries every statement of line_segment's specs/Demand on random pairs of pieces.

usage: pieces.py [pairs [seed]]    Prints how often each answer came, and stops at the first statement that fails.
The definitions are specs/Piece, Geometry and Segment read once more, over (x, y, included) and (x, y, d). Common points
are looked for among the ends, the middles of any two, and the lines' crossing as python's fractions solve it."""
import random
import sys
from collections import Counter
from fractions import Fraction
from math import gcd


def order(a, b):
    return (a > b) - (a < b)


def point_order(p, q):
    return order(p[0] * q[2], q[0] * p[2]) or order(p[1] * q[2], q[1] * p[2])


def point(e):
    return e[0], e[1], 1


def end_order(e, f):
    return point_order(point(e), point(f))


def join(e, f):
    return (e, f) if end_order(e, f) < 0 else (f, e)


def run(s):
    return s[1][0] - s[0][0]


def rise(s):
    return s[1][1] - s[0][1]


def side(s, p):
    return run(s) * (p[1] - s[0][1] * p[2]) - rise(s) * (p[0] - s[0][0] * p[2])


def admits(o, included):
    return o < 0 or o == 0 and included


def between(s, p):
    return admits(point_order(point(s[0]), p), s[0][2]) and admits(point_order(p, point(s[1])), s[1][2])


def lies_on(s, p):
    return side(s, p) == 0 and between(s, p)


def closed(s):
    return tuple((x, y, True) for x, y, _ in s)


def exclusive(e, f):
    return f if e[2] else e


def leftmost(e, f):
    return (e, exclusive(e, f), f)[end_order(e, f) + 1]


def rightmost(e, f):
    return (f, exclusive(e, f), e)[end_order(e, f) + 1]


def stretch(a, b):
    s = rightmost(a[0], b[0]), leftmost(a[1], b[1])
    o = end_order(*s)
    return ("Overlap", s) if o < 0 or o == 0 and s[0][2] and s[1][2] else ("Nothing",)


def touch(e, s):
    return ("Crossing",) if e[2] and between(join(*s), point(e)) else ("Nothing",)


def turn(s, e):
    return order(side(s, point(e)), 0)


def intersect(a, b):
    b_min, b_max, a_min, a_max = turn(a, b[0]), turn(a, b[1]), turn(b, a[0]), turn(b, a[1])
    if b_min == 0 and b_max == 0:
        return stretch(a, b)
    for t, e, s in ((b_min, b[0], a), (b_max, b[1], a), (a_min, a[0], b), (a_max, a[1], b)):
        if t == 0:
            return touch(e, s)
    return ("Crossing",) if b_min == -b_max and a_min == -a_max else ("Nothing",)


def moment(s):
    return s[0][0] * s[1][1] - s[1][0] * s[0][1]


def crossing(a, b):
    x = run(a) * moment(b) - run(b) * moment(a)
    y = rise(a) * moment(b) - rise(b) * moment(a)
    d = run(a) * rise(b) - rise(a) * run(b)
    g = gcd(gcd(x, y), d) * (-1 if d < 0 else 1)
    return (x // g, y // g, d // g) if g else (0, 0, 0)


def one_line(a, b):
    return side(a, point(b[0])) == 0 and side(a, point(b[1])) == 0


def candidates(a, b):
    ends = [point(e) for e in a + b]
    points = ends + [(p[0] + q[0], p[1] + q[1], 2) for p in ends for q in ends]
    (x1, y1, _), (x2, y2, _), (x3, y3, _), (x4, y4, _) = a + b
    d = Fraction((x1 - x2) * (y3 - y4) - (y1 - y2) * (x3 - x4))
    if d:
        x = ((x1 * y2 - y1 * x2) * (x3 - x4) - (x1 - x2) * (x3 * y4 - y3 * x4)) / d
        y = ((x1 * y2 - y1 * x2) * (y3 - y4) - (y1 - y2) * (x3 * y4 - y3 * x4)) / d
        n = x.denominator * y.denominator // gcd(x.denominator, y.denominator)
        points.append((int(x * n), int(y * n), n))
    return points


def lowest(p):
    g = gcd(gcd(p[0], p[1]), p[2])
    return p[0] // g, p[1] // g, p[2] // g


def try_pair(a, b):
    answer, points = intersect(a, b), candidates(a, b)
    meet = [p for p in points if lies_on(a, p) and lies_on(b, p)]
    assert (answer[0] != "Nothing") == bool(meet), ("SaysYesExactly", a, b)
    assert (answer[0] == "Overlap") == (one_line(a, b) and bool(meet)), ("OverlapExactly", a, b)
    assert answer == intersect(b, a), ("SameWhicheverAsks", a, b)
    if answer[0] == "Crossing":
        c = crossing(a, b)
        assert c == crossing(b, a), ("SameWhicheverAsks", a, b)
        assert not one_line(a, b) and c[2] > 0 and lies_on(a, c) and lies_on(b, c), ("CrossingIsCramers", a, b)
        assert all(lowest(p) == c for p in points if side(a, p) == side(b, p) == 0), ("CrossingIsCramers", a, b)
    if answer[0] == "Overlap":
        s = answer[1]
        for p in points:
            assert (lies_on(a, p) and lies_on(b, p)) == lies_on(s, p), ("OverlapEnds", a, b, p)
            if lies_on(closed(a), p) and lies_on(closed(b), p):
                assert lies_on(closed(s), p), ("OverlapEnds", a, b, p)
        assert all(lies_on(closed(t), point(e)) for t in (a, b) for e in s), ("OverlapEnds", a, b)
    return answer[0]


def random_piece(rnd, grid):
    while True:
        e, f = ((rnd.randint(-grid, grid), rnd.randint(-grid, grid), rnd.random() < 0.5) for _ in range(2))
        if e[:2] != f[:2]:
            return join(e, f)


def main(pairs=200000, seed=1):
    rnd, answers = random.Random(seed), Counter()
    for _ in range(pairs):
        grid = rnd.choice((1, 2, 3, 4, 6))
        answers[try_pair(random_piece(rnd, grid), random_piece(rnd, grid))] += 1
    print(pairs, "pairs, none failed:", ", ".join(f"{n} {a}" for a, n in answers.most_common()))


if __name__ == "__main__":
    main(*map(int, sys.argv[1:]))
