//! The scope's sweep, step by step as it is written there, over the model's plain geometry.

use std::collections::{BTreeMap, BTreeSet};

use crate::answers::{Chart, End, Meeting, Pair, Point, Run, Step};
use crate::model::{Line, at, common, meeting_of};

struct Sweep {
  lines: Vec<Line>,
  /// Each queued point, and the pieces that cross there.
  queue: BTreeMap<Point, BTreeSet<usize>>,
  active: Vec<usize>,
  waiting: BTreeMap<Pair, Point>,
  list: Vec<Pair>,
}

pub fn run(chart: &Chart) -> Run {
  let lines: Vec<Line> = chart.iter().map(Line::of).collect();
  let ends = lines.iter().flat_map(|l| [at(&l.min), at(&l.max)]);
  let mut sweep = Sweep {
    queue: ends.map(|p| (p, BTreeSet::new())).collect(),
    lines,
    active: Vec::new(),
    waiting: BTreeMap::new(),
    list: Vec::new(),
  };
  let mut steps = Vec::new();
  while let Some((p, crossing)) = sweep.queue.pop_first() {
    steps.push(sweep.step(p, &crossing));
  }
  Run {
    list: sweep.list,
    steps,
  }
}

impl Sweep {
  fn step(&mut self, p: Point, crossing: &BTreeSet<usize>) -> Step {
    let here = |end: fn(&Line) -> &End, lines: &[Line]| -> BTreeSet<usize> {
      (0..lines.len())
        .filter(|i| at(end(&lines[*i])) == p)
        .collect()
    };
    let starting = here(|l| &l.min, &self.lines);
    let finishing = here(|l| &l.max, &self.lines);
    self.list_pairs_at(p, &(&(&starting | &finishing) | crossing));
    self.waiting.retain(|_, q| *q != p);

    let mut examined = Vec::new();
    self
      .active
      .retain(|i| !finishing.contains(i) && !crossing.contains(i));
    self.examine_adjacent(p, &mut examined);

    let entering = &starting | &(crossing - &finishing);
    self.active.extend(entering);
    let lines = &self.lines;
    let order = |a: &usize, b: &usize| lines[*a].cmp_at(&lines[*b], &p).then(a.cmp(b));
    self.active.sort_by(order);
    self.examine_adjacent(p, &mut examined);

    Step {
      visited: p,
      active: self.active.clone(),
      waiting: self.waiting.iter().map(|(k, q)| (*k, *q)).collect(),
      listed: self.list.len(),
      examined,
    }
  }

  fn list_pairs_at(&mut self, p: Point, named: &BTreeSet<usize>) {
    let containing = self
      .active
      .iter()
      .copied()
      .filter(|i| self.lines[*i].contains(&p));
    let pieces: BTreeSet<usize> = containing.chain(named.iter().copied()).collect();
    for &i in &pieces {
      for &j in pieces.range(i + 1..) {
        let meets = meeting_of(&self.lines[i], &self.lines[j]) != Meeting::Nothing;
        if !self.list.contains(&(i, j)) && meets {
          self.list.push((i, j));
          self.waiting.remove(&(i, j));
        }
      }
    }
  }

  fn examine_adjacent(&mut self, p: Point, examined: &mut Vec<Pair>) {
    for k in 1..self.active.len() {
      let (a, b) = (self.active[k - 1], self.active[k]);
      let pair = (a.min(b), a.max(b));
      examined.push(pair);
      self.examine(p, pair);
    }
  }

  fn examine(&mut self, p: Point, pair: Pair) {
    if self.list.contains(&pair) || self.waiting.contains_key(&pair) {
      return;
    }
    let (a, b) = (&self.lines[pair.0], &self.lines[pair.1]);
    match (meeting_of(a, b), common(a, b)) {
      (Meeting::Nothing, _) => {}
      (_, Some(q)) if q > p => {
        self.waiting.insert(pair, q);
        self.queue.entry(q).or_default().extend([pair.0, pair.1]);
      }
      _ => self.list.push(pair),
    }
  }
}
