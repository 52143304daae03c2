#!/usr/bin/env python3
"""Looks, for every must-fail edit of crate sweep, for a chart on which demand 3 is false with it; prints the smallest found.

The edits are made by hand in the model below: that they are those of the crate is held to their names alone.

usage: edits.py [charts [seed]]    Exits 1 where an edit fails no chart or is not known here, or the
specs as they stand fail one.
The state is that of the crate's specs: the queue is not stored, but made of the ends beyond the last point and the
crossings of the waiting pairs."""
import sys
from importlib import import_module
from itertools import combinations

from smallest import smallest, try_edits

sought = import_module("try").sought

NAMES = (
    "active_left_out counts_twice crossing_pieces_stay examines_once finished_pieces_enter greater_pairs_first "
    "idles_after_one_step lists_in_front lists_what_lies_ahead lists_without_test marks_not_dropped takes_the_greatest "
    "waiting_not_queued"
).split()


class Run:
    def __init__(self, chart, edit):
        self.chart, self.edit = chart, edit
        self.active, self.waiting, self.listed, self.last, self.steps = [], [], [], None, 0

    def at(self, pair):
        return self.chart.test(*pair)[1]

    def next(self):
        ends = [e for s in self.chart.pieces for e in (s.min, s.max) if self.last is None or self.last < e]
        queued = self.listed if self.edit == "waiting_not_queued" else self.waiting
        queue = ends + [self.at(q) for q in queued]
        return (max if self.edit == "takes_the_greatest" else min)(queue, default=None)

    def list(self, pair):
        self.listed = [pair] + self.listed if self.edit == "lists_in_front" else self.listed + [pair]

    def report(self, here):
        pairs = list(combinations(here, 2))
        if self.edit == "greater_pairs_first":
            pairs = [q for i in reversed(here) for q in pairs if q[0] == i]
        for pair in pairs:
            if pair not in self.listed and (self.edit == "lists_without_test" or self.chart.test(*pair)[0]):
                self.list(pair)

    def examine(self, p, order):
        for a, b in zip(order, order[1:]):
            pair = (min(a, b), max(a, b))
            if pair in self.listed or pair in self.waiting:
                continue
            kind, c = self.chart.test(*pair)
            ahead = kind == "crossing" and (c < p if self.edit == "lists_what_lies_ahead" else p < c)
            if ahead:
                self.waiting.append(pair)
            elif kind:
                self.list(pair)

    def step(self, p):
        chart, edit = self.chart, self.edit
        starts = {i for i, s in enumerate(chart.pieces) if s.min == p}
        finishes = {i for i, s in enumerate(chart.pieces) if s.max == p}
        turns = {i for q in self.waiting if self.at(q) == p for i in q}
        inside = starts if edit == "active_left_out" else {i for i in self.active if chart.pieces[i].contains(p)}
        self.report(sorted(starts | finishes | turns | inside))
        if edit == "marks_not_dropped":
            self.waiting = [q for q in self.waiting if not p < self.at(q)]
        else:
            self.waiting = [q for q in self.waiting if self.at(q) != p]
        leave = finishes if edit == "crossing_pieces_stay" else finishes | turns
        stay = [i for i in self.active if i not in leave]
        self.examine(p, stay)
        enter = sorted((starts | turns) - (starts if edit == "finished_pieces_enter" else finishes))
        self.active = sorted(stay + enter, key=lambda i: chart.rank(p, i))
        self.examine(p, stay if edit == "examines_once" else self.active)
        self.last, self.steps = p, self.steps + (2 if edit == "counts_twice" else 1)


def first_failure(chart, edit):
    """The least budget at which what is told is not what demand 3 says, or none."""
    points, run, visited = chart.points(), Run(chart, edit), []
    for budget in range(len(points) + 2):
        done = points[:budget]
        if visited != done or run.listed != sought(chart, done) or run.steps != len(done):
            return budget
        p = run.next()
        if p is None:
            continue
        visited.append(p)
        if edit != "idles_after_one_step" or budget == 0:
            run.step(p)
    return None


def failure(chart, edit):
    budget = None if any(s.upright for s in chart.pieces) else first_failure(chart, edit)
    return None if budget is None else f"fails at budget {budget}"


def main():
    charts = int(sys.argv[1]) if len(sys.argv) > 1 else 20_000
    seed = int(sys.argv[2]) if len(sys.argv) > 2 else 1
    sound = smallest(lambda chart: failure(chart, None), charts, seed) is None
    sys.exit(1 if try_edits("sweep", NAMES, failure, charts, seed) or not sound else 0)


if __name__ == "__main__":
    main()
