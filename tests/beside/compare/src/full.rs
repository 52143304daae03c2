//! The sweep in the new mode, into lent bytes and at every budget. What is due comes from the Rust's all pairs alone, put in
//! order by their exact first common points: no queue, no active list. Without upright pieces it is what the Rust's
//! sweep does, step by step.

use crate::answers::{Chart, Meeting, Pair, Point, Run, Swept, is_upright};
use crate::case::{Case, agree, same};
use crate::lent::{self, room};
use crate::library;
use crate::original::Original;
use crate::refusals::numbers;
use crate::sweep_call::{Asked, Stop};
use crate::text;

/// The points to visit in order, and the pairs that meet with their first common points, in the order of the list.
pub struct Due {
  pub points: Vec<Point>,
  pub list: Vec<(Point, Pair)>,
}

impl Due {
  pub fn of(chart: &Chart, original: &Original) -> Due {
    let pairs = original.naive();
    let mut list: Vec<(Point, Pair)> = pairs
      .iter()
      .map(|&(a, b)| (first(original, b, a), (b, a)))
      .collect();
    list.sort();
    let end = |x: i32, y: i32| Point::whole(x.into(), y.into());
    let ends = chart
      .iter()
      .flat_map(|&[_, x1, y1, x2, y2]| [end(x1, y1), end(x2, y2)]);
    let mut points: Vec<Point> = ends.chain(list.iter().map(|(p, _)| *p)).collect();
    points.sort();
    points.dedup();
    Due { points, list }
  }

  /// What a sweep with this budget answers.
  pub fn stopped(&self, budget: u32) -> Swept {
    let done = self.points.len().min(budget as usize);
    let last = self.points[..done].last().copied();
    Swept {
      number: 0,
      place: 0,
      pairs: last.map_or(0, |l| self.list.partition_point(|(p, _)| *p <= l)),
      steps: done as u32,
      ended: done == self.points.len(),
      complete: true,
      last,
      examined: 0,
    }
  }

  pub fn pairs(&self) -> Vec<Pair> {
    self.list.iter().map(|(_, pair)| *pair).collect()
  }
}

/// The crossing, or the min of the common stretch, which is the end of a piece.
fn first(original: &Original, a: usize, b: usize) -> Point {
  match original.meeting(a, b) {
    Meeting::Nothing => unreachable!("the Rust's all pairs meet"),
    Meeting::Crossing => original
      .crossing(a, b)
      .expect("pieces that cross have a crossing"),
    Meeting::Overlap(min, _) => Point::whole(min.x.into(), min.y.into()),
  }
}

/// Beside the Rust's steps, where no piece is upright.
pub fn compare(case: &Case, run: &Run) -> Result<(), String> {
  let due = compare_due(case)?;
  if case.chart.iter().any(is_upright) {
    return Ok(());
  }
  let call = || "sweep".to_string();
  let visited: Vec<Point> = run.steps.iter().map(|step| step.visited).collect();
  same(call, &visited, "full sweep", &due.points)?;
  same(call, &run.list, "full sweep", &due.pairs())
}

/// Without the Rust's steps. Where no piece is upright, the ported sweep answers the same, but for what it examined.
pub fn compare_alone(case: &Case) -> Result<Due, String> {
  let due = compare_due(case)?;
  if case.chart.iter().any(is_upright) {
    return Ok(due);
  }
  let (list, n) = (numbers(&case.chart), case.chart.len());
  let mut bytes = lent::bytes(room(n));
  let content = lent::with_pairs(&bytes, &due.pairs());
  let swept = library::sweep(&list, u32::MAX, &mut bytes);
  let most = 2 * (n as u64 - 1) * due.points.len() as u64;
  let examined = swept.examined.min(most);
  let expected = Swept {
    examined,
    ..due.stopped(u32::MAX)
  };
  let call = || format!("sweep of {list:?}");
  agree(
    call,
    "model",
    (expected, content),
    "library",
    (swept, bytes),
  )?;
  Ok(due)
}

fn compare_due(case: &Case) -> Result<Due, String> {
  let due = Due::of(&case.chart, &case.original);
  let pairs = due.pairs();
  let stop = |budget| Stop {
    swept: due.stopped(budget),
    list: &pairs,
  };
  let steps = due.points.len() as u32;
  let asked = [
    Asked {
      call: "full sweep",
      whose: "model",
      library: library::full_sweep,
    },
    Asked {
      call: "full sweep, by its text",
      whose: "model",
      library: text::full_sweep,
    },
  ];
  for asked in asked {
    asked.compare(case, steps, stop)?;
  }
  Ok(due)
}
