#!/usr/bin/env python3
"""Tries what is said of the plain order (crate plain_order) and of a piece taken out on random degenerate charts.

usage: plain.py [charts [seed]]    Prints how many charts were tried and every statement that failed, then exits 1 if any did.
The statements: put by first common point, then lesser number, then greater, the meeting pairs are the list of a full sweep
in the new mode on every chart, and of the ported sweep where no piece is upright; and of either list, and of all pairs, a
piece taken out leaves the list without its pairs, the numbers above it lowered by one. On a chart with upright pieces the
ported sweep has to break the last of these somewhere: the smallest chart found is printed."""
import random
import sys
from fractions import Fraction
from importlib import import_module

from chart import Chart
from sweep import Sweep

tries, full = import_module("try"), import_module("full")


def first(a, b):
    """As the definition has it: where the stretch begins, or Cramer's point; None where they do not meet."""
    kind = Chart([a, b], True).test(0, 1)[0]
    if kind == "overlap":
        return max(a.min, b.min)
    if kind != "crossing":
        return None
    moment = [s.min[0] * s.max[1] - s.max[0] * s.min[1] for s in (a, b)]
    d = a.run * b.rise - a.rise * b.run
    return Fraction(a.run * moment[1] - b.run * moment[0], d), Fraction(a.rise * moment[1] - b.rise * moment[0], d)


def place(before, x, l):
    """In front of the first member that it comes before."""
    at = next((i for i, y in enumerate(l) if before(x, y)), len(l))
    return l[:at] + [x] + l[at:]


def plain(pieces):
    points = {(b, a): first(pieces[b], pieces[a]) for a in range(len(pieces)) for b in range(a)}
    done = []
    for pair, p in points.items():
        if p is not None:
            done = place(lambda q, s: (points[q], q) < (points[s], s), pair, done)
    return done


def swept(pieces):
    run = Sweep(Chart(pieces, False))
    while run.queue:
        run.step()
    return run.listed


def swept_anew(pieces):
    chart = full.Fine(pieces)
    run = full.Full(chart)
    while run.queue():
        run.step(min(run.queue()))
    return run.listed


def all_pairs(pieces):
    return [(a, b) for a in range(len(pieces)) for b in range(a) if first(pieces[a], pieces[b]) is not None]


def without(i, pairs):
    return [tuple(j - (j > i) for j in q) for q in pairs if i not in q]


def shown(pieces):
    return [(s.min, s.max, s.min_in, s.max_in) for s in pieces]


def main():
    charts, seed = (int(v) for v in (sys.argv[1:] + ["4000", "1"][len(sys.argv) - 1:]))
    rnd, failed, lost = random.Random(seed), 0, None
    for _ in range(charts):
        pieces = tries.random_chart(rnd).pieces
        ways = {"new mode": swept_anew, "all pairs": all_pairs}
        upright = any(s.upright for s in pieces)
        if not upright:
            ways["ported mode"] = swept
        for name, way in ways.items():
            if name != "all pairs" and way(pieces) != plain(pieces):
                failed += 1
                print(f"{name} and plain order differ on {shown(pieces)}")
            for i in range(len(pieces)):
                if way(pieces[:i] + pieces[i + 1:]) != without(i, way(pieces)):
                    failed += 1
                    print(f"{name} without piece {i} of {shown(pieces)}")
        if upright and (lost is None or len(pieces) < len(lost[1])):
            for i in range(len(pieces)):
                if swept(pieces[:i] + pieces[i + 1:]) != without(i, swept(pieces)):
                    lost = i, pieces
    if lost is None:
        failed += 1
        print("no chart found on which the ported mode needs the premise")
    else:
        print(f"the ported mode with upright pieces fails without piece {lost[0]} of {shown(lost[1])}")
    print(f"{charts} charts, {failed} failures")
    sys.exit(failed > 0)


if __name__ == "__main__":
    main()
