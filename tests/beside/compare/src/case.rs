//! One chart with the Rust's answers at hand, and how two answers are held against each other.

use std::fmt::Debug;

use crate::answers::{Chart, Pair};
use crate::original::Original;
use crate::{
  batch, file, full, half_line, naive, order, orient, place, plain, refusals, region, removal,
  segment, supplied, sweep, writing,
};

pub struct Case {
  pub chart: Chart,
  pub original: Original,
  /// Nothing is asked of the Rust twice, and no sweep is stopped at every budget.
  pub swift: bool,
}

impl Case {
  fn new(chart: &Chart) -> Case {
    Case {
      chart: chart.clone(),
      original: Original::new(chart),
      swift: false,
    }
  }

  /// Every two pieces, in both orders; of many pieces, one in so many.
  pub fn pairs(&self) -> impl Iterator<Item = Pair> + use<> {
    let n = self.chart.len();
    let all = (0..n).flat_map(move |a| (0..n).filter(move |b| *b != a).map(move |b| (a, b)));
    all.step_by(self.one_in())
  }

  /// All are asked about up to 64 pieces, and of more so few that it takes no longer.
  pub fn one_in(&self) -> usize {
    1 + self.chart.len().pow(2) / (64 * 64 + 1)
  }

  /// Small enough to ask the Rust's exact numbers about everything.
  pub fn is_small(&self) -> bool {
    self.chart.len() <= 12 && !self.swift
  }
}

/// Compares every answer about one chart; the first difference is told.
pub fn check(chart: &Chart) -> Result<(), String> {
  let case = Case::new(chart);
  compare_meetings(&case)?;
  sweep::compare(&case)?;
  plain::compare(&case)?;
  removal::compare(&case)?;
  compare_lists(&case)
}

fn compare_meetings(case: &Case) -> Result<(), String> {
  orient::compare(case)?;
  segment::compare(case)?;
  place::compare(case)?;
  half_line::compare(case)?;
  region::compare(case)?;
  order::compare(case)?;
  naive::compare(case)?;
  supplied::compare(case)
}

fn compare_lists(case: &Case) -> Result<(), String> {
  batch::compare(case)?;
  refusals::compare(case)?;
  file::compare(case)?;
  writing::compare(case)
}

/// Compares every answer about a chart but the steps of the Rust's sweep, which would take minutes, and but those without
/// a piece.
pub fn check_fullest(chart: &Chart) -> Result<(), String> {
  compare_without_steps(&Case::new(chart))
}

/// Compares the same swiftly, and the list of the Rust's sweep.
pub fn check_swiftly(chart: &Chart) -> Result<(), String> {
  let case = Case {
    swift: true,
    ..Case::new(chart)
  };
  compare_without_steps(&case)?;
  sweep::compare_list(&case)
}

fn compare_without_steps(case: &Case) -> Result<(), String> {
  compare_meetings(case)?;
  let due = full::compare_alone(case)?;
  plain::compare_with(case, &due.pairs())?;
  compare_lists(case)
}

/// Compares how the pieces of a chart meet, and nothing else.
pub fn check_meetings(chart: &Chart) -> Result<(), String> {
  segment::compare(&Case::new(chart))
}

/// Ok where `theirs`, the answer of `whose`, is the Rust's.
pub fn same<T: PartialEq + Debug>(
  call: impl Fn() -> String,
  rust: T,
  whose: &str,
  theirs: T,
) -> Result<(), String> {
  agree(call, "Rust", rust, whose, theirs)
}

/// Ok where two answers are equal.
pub fn agree<T: PartialEq + Debug>(
  call: impl Fn() -> String,
  one: &str,
  answer: T,
  other: &str,
  other_answer: T,
) -> Result<(), String> {
  if answer == other_answer {
    return Ok(());
  }
  let call = call();
  Err(format!(
    "{call}\n  {one}: {answer:?}\n  {other}: {other_answer:?}"
  ))
}
