//! The library's own text, read as Rust, so that its sweep can tell its state after every step, and the new mode be asked
//! without an emulator.

use crate::answers::{Chart, MOST_PIECES, Pair, Point, Run, Step, Swept};
use crate::lent::{self, room};
use crate::model;
use crate::refusals::numbers;

const WAITING: u8 = 1;

pub fn run(chart: &Chart) -> Result<Run, String> {
  let mut bytes = lent::bytes(room(chart.len()));
  told::take();
  let swept = bentley_ottmann::sweep(&numbers(chart), u32::MAX, &mut bytes);
  let steps = told::take().into_iter();
  let steps: Result<Vec<Step>, String> = steps.map(|step| as_told(chart, &step)).collect();
  let steps = steps?;
  let examined: usize = steps.iter().map(|step| step.examined.len()).sum();
  if swept.examined != examined as u64 {
    return Err(format!(
      "library, by its text: {} pairs examined, and says {}",
      examined, swept.examined
    ));
  }
  Ok(Run {
    steps,
    list: pairs(&bytes[..2 * swept.pairs]),
  })
}

/// The new mode's call.
pub fn full_sweep(list: &[i32], budget: u32, bytes: &mut [u8]) -> Swept {
  as_swept(full_sweep::sweep(list, budget, bytes))
}

/// The ported mode's.
pub fn sweep(list: &[i32], budget: u32, bytes: &mut [u8]) -> Swept {
  as_swept(bentley_ottmann::sweep(list, budget, bytes))
}

/// The count of pairs listed in plain order.
pub fn plain_order(list: &[i32], bytes: &mut [u8]) -> usize {
  order_pairs::plain_order(list, bytes).count
}

fn as_swept(told: bentley_ottmann::Swept) -> Swept {
  Swept {
    number: told.number,
    place: told.place,
    pairs: told.pairs,
    steps: told.steps,
    ended: told.ended,
    complete: told.complete,
    last: told.last.map(|p| Point {
      x: p.x.into(),
      y: p.y.into(),
      d: p.d.into(),
    }),
    examined: told.examined,
  }
}

/// A pair has a mark exactly where it waits or is listed, and the waiting ones stand in the order of
/// their crossings.
fn as_told(chart: &Chart, step: &told::Step) -> Result<Step, String> {
  let says = |what: &str| format!("library, by its text: {what} after {:?}", step.visited);
  let mut waiting = waiting_pairs(chart, step)?;
  if !waiting.is_sorted_by_key(|(_, p)| *p) {
    return Err(says("waiting pairs out of order"));
  }
  waiting.sort_by_key(|(pair, _)| *pair);
  let mut listed = pairs(&step.listed);
  listed.sort();
  let waiting_numbers: Vec<Pair> = waiting.iter().map(|(pair, _)| *pair).collect();
  if marked(step) != [waiting_numbers, listed] {
    return Err(says("marks that tell of other pairs"));
  }
  let (x, y, d) = step.visited;
  Ok(Step {
    visited: Point {
      x: x.into(),
      y: y.into(),
      d: d.into(),
    },
    active: step.active.iter().map(|i| (*i).into()).collect(),
    waiting,
    listed: step.listed.len() / 2,
    examined: step.examined.iter().map(lesser_first).collect(),
  })
}

fn waiting_pairs(chart: &Chart, step: &told::Step) -> Result<Vec<(Pair, Point)>, String> {
  let crossing = |cell: &u16| {
    let (a, b) = pair_of((*cell).into());
    let point = model::crossing(&chart[a], &chart[b]);
    let parallel = || format!("library, by its text: {a} and {b} wait but are parallel");
    Ok(((a, b), point.ok_or_else(parallel)?))
  };
  step.waiting.iter().map(crossing).collect()
}

/// The pairs with the mark of those that wait, and those with any other.
fn marked(step: &told::Step) -> [Vec<Pair>; 2] {
  let cells = step.marks.iter().enumerate();
  let marked = cells.filter(|(_, mark)| **mark != 0);
  let (waiting, others): (Vec<_>, Vec<_>) = marked.partition(|(_, mark)| **mark == WAITING);
  [waiting, others].map(|cells| cells.into_iter().map(|(cell, _)| pair_of(cell)).collect())
}

/// The pieces of a pair's number.
fn pair_of(cell: usize) -> Pair {
  (cell / MOST_PIECES, cell % MOST_PIECES)
}

fn pairs(bytes: &[u8]) -> Vec<Pair> {
  let (pairs, _) = bytes.as_chunks::<2>();
  pairs
    .iter()
    .map(|[a, b]| ((*a).into(), (*b).into()))
    .collect()
}

fn lesser_first(&(a, b): &(u8, u8)) -> Pair {
  (a.min(b).into(), a.max(b).into())
}
