#!/usr/bin/env python3
"""Tries every statement of the sweep's specs on random degenerate charts, at every budget.

usage: try.py [charts [seed]]    Prints how many charts were tried and every statement that failed, then exits 1 if any did.
The statements: Geometry's facts (on one chart in ten), SweepsAlways and what follows from it under the full order and,
without upright pieces, under the ported one; under the ported one with upright pieces too, AlwaysPromises; and that the
queue is always the ends beyond the last point with the crossings of waiting pairs."""
import random
import sys
from collections import Counter
from itertools import permutations

from chart import Chart, Piece, aligned
from sweep import Sweep


def random_chart(rnd):
    """Few pieces on a small grid, so that ends meet, pieces overlap and many pass through one point."""
    full, upright, pieces = rnd.random() < 0.4, rnd.random() < 0.4, []
    n, grid = rnd.choice((0, 1, 2, 3, 3, 4, 4, 5, 6)), rnd.choice((2, 3, 4, 6))
    while len(pieces) < n:
        x1, y1, x2, y2 = (rnd.randint(-grid, grid) // rnd.choice((1, 1, 2)) for _ in range(4))
        if (x1, y1) != (x2, y2) and (full or upright or x1 != x2):
            pieces.append(Piece(rnd.choice((3, 3, 3, 0, 1, 2)), x1, y1, x2, y2))
    return Chart(pieces, full)


def sought(chart, points):
    """Point by point, the pairs that meet first there, in number order."""
    return [q for p in points for q in chart.pairs if chart.test(*q)[0] and chart.test(*q)[1] == p]


def try_always(chart, fail):
    """What holds with upright pieces too."""
    points, run = set(chart.points()), Sweep(chart)
    while run.queue:
        run.step()
        last = run.visited[-1]
        queue = {e for s in chart.pieces for e in (s.min, s.max) if last < e}
        if set(run.queue) != queue | {chart.test(*q)[1] for q in run.waiting}:
            fail("queue")
        if len(run.visited) > len(points):
            break
    if run.visited != sorted(set(run.visited)) or not points.issuperset(run.visited):
        fail("visits-up, visits-only")
    if len(run.listed) != len(set(run.listed)) or not all(chart.test(*q)[0] for q in run.listed):
        fail("lists-once, lists-only")
    keys = [(chart.test(*q)[1], q) for q in run.listed]
    if keys != sorted(keys) or run.listed_by_examining:
        fail("in order, examining lists nothing: not promised with upright pieces")
    if run.queue or len(run.visited) > 2 * chart.n + sum(chart.test(*q)[0] is not None for q in chart.pairs):
        fail("steps-bounded, ends-soon")
    return len(run.visited)


def try_sweep(chart, fail):
    points, run = chart.points(), Sweep(chart)
    meeting = [q for q in chart.pairs if chart.test(*q)[0]]
    want, steps = [], 0
    while True:
        last = run.visited[-1] if run.visited else None
        if run.visited != points[:steps]:
            fail("visits")
        if run.listed != want:
            fail("lists")
        behind = {q for q in meeting if last is not None and chart.test(*q)[1] <= last}
        if len(run.listed) != len(set(run.listed)) or set(run.listed) != behind:
            fail("lists-exactly, lists-once")
        queue = {e for s in chart.pieces for e in (s.min, s.max) if last is None or last < e}
        if set(run.queue) != queue | {chart.test(*q)[1] for q in run.waiting}:
            fail("queue")
        if (not run.queue) != (steps >= len(points)):
            fail("ends_exactly")
        if not run.queue or steps > len(points):
            break
        want, steps = want + sought(chart, points[steps:steps + 1]), steps + 1
        run.step()
    if steps > 2 * chart.n + len(meeting):
        fail("steps_bounded")
    if set(run.listed) != set(meeting):
        fail("lists_all")
    if run.listed_by_examining:
        fail("examining lists nothing")
    return steps


def try_geometry(chart, fail):
    s, points, numbers = chart.pieces, chart.points(), range(chart.n)
    for i, j in permutations(numbers, 2):
        kind, c = chart.test(i, j)
        if (kind, c) != chart.test(j, i):
            fail("test-sym, crossing-sym")
        common = [p for p in points if s[i].on(p) and s[j].on(p)]
        if kind == "crossing" and (common != [c] or aligned(s[i], s[j])):
            fail("crossing-on, crossing-only, crossing-not-aligned")
        if kind == "overlap" and common[0] != c:
            fail("overlap_on")
        if kind != "crossing" and not aligned(s[i], s[j]) and any(s[i].contains(p) and s[j].contains(p) for p in common):
            fail("contains_crosses")
    for p in points:
        through = [i for i in numbers if s[i].on(p)]
        for i, j, k in permutations(through, 3):
            if aligned(s[i], s[j]) and aligned(s[j], s[k]) and not aligned(s[i], s[k]):
                fail("aligned_trans")
        under = [i for i in numbers if s[i].min <= p < s[i].max]
        for c in (c for c in points if p < c):
            reach = [i for i in under if c < s[i].max]
            for i, k, j in permutations(reach, 3):
                if chart.rank(p, i) < chart.rank(p, k) < chart.rank(p, j) and s[i].on(c) and s[j].on(c):
                    crosses = [chart.test(*q) for q in ((i, k), (k, j))]
                    if not s[k].on(c) and not any(kind == "crossing" and p < x < c for kind, x in crosses):
                        fail("squeeze")


def main():
    charts = int(sys.argv[1]) if len(sys.argv) > 1 else 100_000
    rnd = random.Random(int(sys.argv[2]) if len(sys.argv) > 2 else 1)
    failed, budgets = Counter(), 0
    for number in range(charts):
        chart = random_chart(rnd)
        whole = chart.full or not any(s.upright for s in chart.pieces)
        budgets += 1 + (try_sweep if whole else try_always)(chart, lambda name: failed.update([name]))
        if whole and number % 10 == 0:
            try_geometry(chart, lambda name: failed.update([name]))
    print(f"{charts} charts, {budgets} budgets")
    for name, times in failed.items():
        print(f"failed {times} times: {name}")
    sys.exit(1 if failed else 0)


if __name__ == "__main__":
    main()
