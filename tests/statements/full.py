#!/usr/bin/env python3
"""Tries the new mode's definitions (crate full_steps) on random degenerate charts, at every budget.

usage: full.py [charts [seed]]          The statements; prints how many charts and steps were tried and what failed.
       full.py edits [charts [seed]]    For every must-fail edit of the crate, made by hand in the model below, the smallest
                                        chart found on which a statement is false with it.
Exits 1 if a statement failed, or where an edit fails no chart or is not known here. The statements: after each step the
points visited, the list and the count are the sought ones, and the answer is complete (Promised, SaysComplete); the step
done in place leaves the same active list, the same list, and the lanes of the queue (InPlace)."""
import random
import sys
from collections import Counter
from fractions import Fraction
from importlib import import_module
from itertools import combinations

from chart import Chart
from smallest import try_edits

tries = import_module("try")
random_chart, sought = tries.random_chart, tries.sought

NAMES = (
    "active_left_out block_by_falling_slope closing_pair_forgotten complete_by_uprights counts_twice crossings_not_queued "
    "finished_pieces_in_the_block finishing_pieces_stay fresh_overlap_again idles_after_one_step "
    "lanes_above_slip lists_in_front lists_without_test lower_outer_pair_stays outer_pair_not_examined "
    "overlap_listed_again stands_still starters_left_out"
).split()


class Fine(Chart):
    """The finer order: of one height above p's y by falling slope, else by rising; an upright piece has p's y."""

    def rank(self, p, i):
        s = self.pieces[i]
        if s.upright:
            return (p[1], 1, 0, i)
        slope = Fraction(s.rise, s.run)
        height = s.min[1] + slope * (p[0] - s.min[0])
        return (height, 0, -slope if height > p[1] else slope, i)

    def aside(self, p, i):
        """Where p lies of piece i: -1 below it, 0 on it, 1 above it."""
        s = self.pieces[i]
        side = 0 if s.upright else s.side(p)
        return (side > 0) - (side < 0)

    def slope(self, i):
        s = self.pieces[i]
        return (1, 0, i) if s.upright else (0, Fraction(s.rise, s.run), i)


def adjacent(active):
    return [(min(a, b), max(a, b)) for a, b in zip(active, active[1:])]


class Full:
    """specs/Steps."""

    def __init__(self, chart, edit=None):
        self.chart, self.edit = chart, edit
        self.active, self.listed, self.last, self.steps = [], [], None, 0

    def queue(self):
        ends = [e for s in self.chart.pieces for e in (s.min, s.max)]
        tests = [self.chart.test(*q) for q in adjacent([] if self.edit == "crossings_not_queued" else self.active)]
        points = ends + [c for kind, c in tests if kind == "crossing"]
        return [p for p in points if self.last is None or self.last < p]

    def report(self, here):
        for pair in combinations(here, 2):
            new = pair not in self.listed or self.edit == "overlap_listed_again"
            if new and (self.chart.test(*pair)[0] or self.edit == "lists_without_test"):
                self.listed = [pair] + self.listed if self.edit == "lists_in_front" else self.listed + [pair]

    def step(self, p):
        chart, s, edit = self.chart, self.chart.pieces, self.edit
        starts = [i for i in range(chart.n) if s[i].min == p]
        finishes = [i for i in range(chart.n) if s[i].max == p]
        inside = [i for i in self.active if s[i].contains(p) and edit != "active_left_out"]
        self.report(sorted({*starts, *finishes, *inside}))
        leave, enter = starts if edit == "finishing_pieces_stay" else finishes, finishes if edit == "starters_left_out" else starts
        self.active = sorted([i for i in self.active if i not in leave] + enter, key=lambda i: chart.rank(p, i))
        self.last, self.steps = None if edit == "stands_still" else p, self.steps + (2 if edit == "counts_twice" else 1)

    def complete(self):
        return self.edit != "complete_by_uprights" or not any(s.upright for s in self.chart.pieces)


class InPlace:
    """specs/InPlace: the step from the sides alone, and the lanes."""

    def __init__(self, chart, edit=None):
        self.chart, self.edit = chart, edit
        self.active, self.listed, self.lanes = [], [], []

    def joint(self, front, back, p):
        return lanes(self.chart, front[-1:] + back[:1], p) if front and back else []

    def fresh(self, pair, starters):
        kind, _ = self.chart.test(*pair)
        return kind == "crossing" or kind == "overlap" and (self.edit == "fresh_overlap_again" or any(i in starters for i in pair))

    def step(self, p):
        chart, s, edit = self.chart, self.chart.pieces, self.edit
        below, block, above = ([i for i in self.active if chart.aside(p, i) == side] for side in (1, 0, -1))
        starters = [i for i in range(chart.n) if s[i].min == p]
        stays = edit == "finished_pieces_in_the_block"
        renewed = [i for i in block if stays or s[i].max != p] + starters
        renewed.sort(key=chart.slope, reverse=edit == "block_by_falling_slope")
        self.listed += [q for q in combinations(sorted(block + starters), 2) if self.fresh(q, starters)]
        old = self.lanes
        upper = self.joint(renewed, above, p)
        self.lanes = (
            old[:len(below) if edit == "lower_outer_pair_stays" else max(len(below) - 1, 0)]
            + self.joint(below, renewed if edit == "closing_pair_forgotten" else renewed + above, p)
            + [None for _ in adjacent(renewed)]
            + ([None for _ in upper] if edit == "outer_pair_not_examined" else upper)
            + old[len(below) if edit == "lanes_above_slip" else len(below) + len(block):]
        )
        self.active = below + renewed + above


def lanes(chart, active, last):
    """For each adjacent pair its crossing beyond the last point, or none."""
    tests = [chart.test(*q) for q in adjacent(active)]
    return [c if kind == "crossing" and last < c else None for kind, c in tests]


def try_full(chart, edit=None):
    """The names of the statements that fail first, and the steps done."""
    points, run, place = chart.points(), Full(chart, edit), InPlace(chart, edit)
    for steps in range(len(points) + 1):
        done, queue = points[:steps], run.queue()
        told = {
            "visits": run.last == (done[-1] if done else None) and (min(queue) if queue else None) == next(iter(points[steps:]), None),
            "lists": run.listed == sought(chart, done),
            "steps": run.steps == steps,
            "complete": run.complete(),
            "in place": place.active == run.active,
            "listing without marks": place.listed == run.listed,
            "lanes": place.lanes == (lanes(chart, run.active, done[-1]) if steps else []),
        }
        failed = [name for name, holds in told.items() if not holds]
        if failed or not queue:
            return failed, steps
        if edit == "idles_after_one_step" and steps:
            run = Full(chart, edit)
        run.step(min(queue))
        place.step(min(queue))
    return [], len(points)


def failure(chart, edit):
    failed, steps = try_full(Fine(chart.pieces), edit)
    return f"{', '.join(failed)} after {steps} steps" if failed else None


def try_statements(charts, seed):
    rnd, failed, steps = random.Random(seed), Counter(), 0
    for _ in range(charts):
        names, done = try_full(Fine(random_chart(rnd).pieces))
        failed.update(names)
        steps += done
    print(f"{charts} charts, {steps} steps")
    for name, times in failed.items():
        print(f"failed {times} times: {name}")
    return bool(failed)


def main():
    words = sys.argv[1:]
    edits = words[:1] == ["edits"]
    numbers = [int(w) for w in words[edits:]]
    charts, seed = (numbers + [20_000, 1][len(numbers):])[:2]
    wrong = try_edits("full_steps", NAMES, failure, charts, seed) if edits else try_statements(charts, seed)
    sys.exit(1 if wrong else 0)


if __name__ == "__main__":
    main()
