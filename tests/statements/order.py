#!/usr/bin/env python3
"""Tries what is said of the finer order of the active list (crate full_order) on random degenerate charts.

usage: order.py [charts [seed]]    Prints how often each fact was asked, and every one that failed; then, for every must-fail
edit of the order, the smallest chart found on which a fact fails with it. Exits 1 where a fact fails without an edit, or
an edit fails no chart or is not known here.
The definitions are full_order's specs/Finer read once more, over whole numbers; points l before p are any two that occur.
The edits are made by hand below: that they are those of the crate is held to their names alone. `one_mode_with_uprights`
is about the two modes: the upright gap of docs/CHART.md is its chart."""
import random
import sys
from collections import Counter
from fractions import Fraction
from importlib import import_module
from itertools import permutations
from pathlib import Path

random_chart = import_module("try").random_chart
MUST_FAIL = Path(__file__).resolve().parents[2] / "crates/full_order/must-fail"
EDITS = "falling_and_rising_exchanged rising_slope_overhead upright_at_its_min sides_exchanged number_before_slope".split()


def order(a, b):
    return (a > b) - (a < b)


def whole(p):
    """X, Y over D."""
    d = Fraction(p[0]).denominator * Fraction(p[1]).denominator
    return int(p[0] * d), int(p[1] * d), d


def side(s, p):
    x, y, d = whole(p)
    return s.run * (y - s.min[1] * d) - s.rise * (x - s.min[0] * d)


class Finer:
    def __init__(self, chart, edit=None):
        self.chart, self.piece, self.n, self.edit = chart, chart.pieces, chart.n, edit

    def above(self, s, p):
        x, y, d = whole(p)
        if s.upright:
            return s.min[1] if self.edit == "upright_at_its_min" else y
        return s.min[1] * (s.max[0] * d - x) + s.max[1] * (x - s.min[0] * d)

    def below(self, s, p):
        d = whole(p)[2]
        if s.upright:
            return 1 if self.edit == "upright_at_its_min" else d
        return s.run * d

    def aside(self, p, i):
        at = order(side(self.piece[i], p), 0)
        return -at if self.edit == "sides_exchanged" else at

    def overhead(self, p, s):
        _, y, d = whole(p)
        return y * self.below(s, p) < self.above(s, p) * d

    def slant(self, p, s):
        falls = self.overhead(p, s)
        if self.edit == "falling_and_rising_exchanged":
            falls = not falls
        if self.edit == "rising_slope_overhead":
            falls = False
        return -s.rise if falls else s.rise

    def order(self, p, i, j):
        a, b = self.piece[i], self.piece[j]
        return (order(self.above(a, p) * self.below(b, p), self.above(b, p) * self.below(a, p))
                or order(self.slant(p, a) * b.run, self.slant(p, b) * a.run) or order(i, j))

    def before(self, p, i, j):
        return self.order(p, i, j) < 0

    def through(self, i, j):
        a, b = self.piece[i], self.piece[j]
        by_slope, by_number = order(a.rise * b.run, b.rise * a.run), order(i, j)
        return by_number or by_slope if self.edit == "number_before_slope" else by_slope or by_number

    def under(self, p, i):
        return self.piece[i].min <= p < self.piece[i].max

    def between(self, l, p, i, j):
        kind, c = self.chart.test(i, j)
        return kind == "crossing" and l < c < p


def try_orders(f, points, say):
    for p in points:
        here = [i for i in range(f.n) if f.under(p, i)]
        for i in here:
            say("before_irr", not f.before(p, i, i))
            say("aside_on", (f.aside(p, i) == 0) == f.piece[i].on(p))
        for i, j in permutations(here, 2):
            say("before_total", f.before(p, i, j) or f.before(p, j, i))
            if f.piece[i].on(p) and f.piece[j].on(p):
                say("on_rises", f.before(p, i, j) == (f.through(i, j) < 0))
            if f.aside(p, i) > 0 and f.piece[j].on(p):
                say("below_first", f.before(p, i, j))
            if f.piece[i].on(p) and f.aside(p, j) < 0:
                say("above_last", f.before(p, i, j))
            kind, c = f.chart.test(i, j)
            if kind == "crossing" and p < c and f.before(p, i, j):
                a, b = f.piece[i], f.piece[j]
                say("ahead_steeper", a.rise * b.run > b.rise * a.run)
        for i, j, k in permutations(here, 3):
            if f.before(p, i, j) and f.before(p, j, k):
                say("before_trans", f.before(p, i, k))


def try_between(f, l, p, say):
    here = [i for i in range(f.n) if f.under(l, i)]
    for i, j in permutations(here, 2):
        a, b = f.aside(p, i), f.aside(p, j)
        if f.before(l, i, j) and p <= f.piece[i].max and p <= f.piece[j].max and not f.between(l, p, i, j):
            say("below_stays, above_stays", a >= b)
            if f.under(p, i) and f.under(p, j) and not a == 0 == b:
                say("persists", f.before(p, i, j))
    for i, k, j in permutations(here, 3):
        a, m, b = (f.piece[x] for x in (i, k, j))
        if p < a.max and p < m.max and p < b.max and f.before(l, i, k) and f.before(l, k, j) and a.on(p) and b.on(p):
            say("squeeze", m.on(p) or f.between(l, p, i, k) or f.between(l, p, k, j))


def try_chart(f, rnd, say):
    points = f.chart.points()
    try_orders(f, points, say)
    for l, p in zip(points, points[1:]):
        try_between(f, l, p, say)
    for _ in range(min(6, len(points) // 2)):
        try_between(f, *sorted(rnd.sample(points, 2)), say)


def try_edit(edit, charts, rnd):
    """The smallest of some charts on which a fact fails with the edit, and those facts."""
    best = None
    for _ in range(charts):
        chart, failed = random_chart(rnd), []
        if best is None or chart.n < best[0].n:
            try_chart(Finer(chart, edit), rnd, lambda name, holds: holds or failed.append(name))
            if failed:
                best = chart, sorted(set(failed))
    return best


def main(charts=20000, seed=1):
    rnd, asked, failed = random.Random(seed), Counter(), Counter()

    def say(name, holds):
        asked[name] += 1
        failed[name] += not holds

    for _ in range(charts):
        try_chart(Finer(random_chart(rnd)), rnd, say)
    print(charts, "charts:", ", ".join(f"{name} {times}" for name, times in asked.most_common()))
    bad = [f"failed {times} times: {name}" for name, times in failed.items() if times]
    unknown = {e.stem for e in MUST_FAIL.glob("*.edit")} - {*EDITS, "one_mode_with_uprights"}
    bad += [f"edit not known here: {name}" for name in sorted(unknown)]
    for edit in EDITS:
        found = try_edit(edit, 2000, rnd)
        if found:
            pieces = " ".join(f"{s.min}-{s.max}" for s in found[0].pieces)
            print(f"{edit}: {', '.join(found[1])} fails on {pieces}")
        else:
            bad.append(f"edit fails no chart: {edit}")
    print(*bad, sep="\n", end="\n" if bad else "")
    sys.exit(1 if bad else 0)


if __name__ == "__main__":
    main(*map(int, sys.argv[1:]))
