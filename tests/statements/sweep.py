"""The sweep, sentence by sentence from the scope, with the queue stored as it says. Yields the state after each step."""
from itertools import combinations


class Event:
    def __init__(self):
        self.starts, self.finishes, self.crosses = set(), set(), set()


class Sweep:
    def __init__(self, chart):
        self.chart, self.queue = chart, {}
        self.active, self.waiting, self.listed, self.visited = [], [], [], []
        for i, s in enumerate(chart.pieces):
            self.event(s.min).starts.add(i)
            self.event(s.max).finishes.add(i)

    def event(self, p):
        return self.queue.setdefault(p, Event())

    def examine(self, p):
        for a, b in zip(self.active, self.active[1:]):
            pair = (min(a, b), max(a, b))
            if pair in self.listed or pair in self.waiting:
                continue
            kind, c = self.chart.test(*pair)
            if kind == "crossing" and p < c:
                self.waiting.append(pair)
                self.event(c).crosses.update(pair)
            elif kind:
                self.listed.append(pair)
                self.listed_by_examining = True

    listed_by_examining = False

    def step(self):
        chart, p = self.chart, min(self.queue)
        here = self.queue.pop(p)
        inside = {i for i in self.active if chart.pieces[i].contains(p)}
        for pair in combinations(sorted(here.starts | here.finishes | here.crosses | inside), 2):
            if pair not in self.listed and chart.test(*pair)[0]:
                self.listed.append(pair)
        self.waiting = [q for q in self.waiting if chart.test(*q)[1] != p]
        self.active = [i for i in self.active if i not in here.finishes | here.crosses]
        self.examine(p)
        self.active += sorted(here.starts | here.crosses - here.finishes)
        self.active.sort(key=lambda i: chart.rank(p, i))
        self.examine(p)
        self.visited.append(p)
