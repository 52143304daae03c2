//! The sweep: its list, and its state after every step. The Rust as published, the Rust that tells
//! its steps, the model, the library's own text, and the library stopped at many budgets. Without
//! upright pieces the sweep loses and invents nothing. The new mode stands in full.rs.

use crate::answers::{Pair, Run, is_upright};
use crate::case::{Case, same};
use crate::lent::{self, SPARE, room};
use crate::refusals::numbers;
use crate::{full, library, model_sweep, sweep_call, text};

pub fn compare(case: &Case) -> Result<(), String> {
  let list = case.original.sweep();
  let run = case.original.run();
  let call = || "sweep".to_string();
  same(call, &list, "Rust, telling its steps", &run.list)?;

  compare_steps(&run, "model", &model_sweep::run(&case.chart))?;
  compare_steps(&run, "library, by its text", &text::run(&case.chart)?)?;
  sweep_call::compare(case, &run)?;
  full::compare(case, &run)?;

  if case.chart.iter().any(is_upright) {
    return Ok(());
  }
  let turned = |&(a, b): &Pair| (b, a);
  let mut swept: Vec<Pair> = list.iter().map(turned).collect();
  swept.sort();
  let call = || "all pairs, and the sweep's in their order".to_string();
  same(call, case.original.naive(), "sweep", swept)
}

/// The list of the Rust's sweep alone, beside what the library leaves in lent bytes.
pub fn compare_list(case: &Case) -> Result<(), String> {
  let list = case.original.sweep();
  let mut bytes = lent::bytes(room(case.chart.len()) + SPARE);
  let content = lent::with_pairs(&bytes, &list);
  let swept = library::sweep(&numbers(&case.chart), u32::MAX, &mut bytes);
  let call = || "the list of a sweep".to_string();
  same(call, (list.len(), content), "library", (swept.pairs, bytes))
}

fn compare_steps(run: &Run, whose: &str, theirs: &Run) -> Result<(), String> {
  for (m, (step, other)) in run.steps.iter().zip(&theirs.steps).enumerate() {
    let call = || format!("sweep, step {}", m + 1);
    same(call, step, whose, other)?;
  }
  let call = || "sweep".to_string();
  same(call, run.steps.len(), whose, theirs.steps.len())?;
  same(call, &run.list, whose, &theirs.list)
}
