//! The plain order: the Rust's sweep of a chart without upright pieces, and the library's list made without a sweep, byte by
//! byte of what its two calls leave in lent memory. A chart with an upright piece is refused.

use crate::answers::{Pair, is_upright};
use crate::case::{Case, agree};
use crate::lent::{self, SPARE, room};
use crate::library;
use crate::list_call::Asked;
use crate::refusals::numbers;

pub fn compare(case: &Case) -> Result<(), String> {
  compare_with(case, &case.original.sweep())
}

/// Beside what a full sweep leaves of a chart without upright pieces.
pub fn compare_with(case: &Case, swept: &[Pair]) -> Result<(), String> {
  let upright = case.chart.iter().any(is_upright);
  let asked = Asked {
    call: "plain order",
    library: library::plain_order,
  };
  asked.compare(case, if upright { Err((19, 0)) } else { Ok(swept) })?;
  if upright || !case.is_small() {
    return Ok(());
  }
  compare_calls(&numbers(&case.chart), room(case.chart.len()) + SPARE)
}

/// What the library's two calls leave.
fn compare_calls(list: &[i32], lent: usize) -> Result<(), String> {
  let (mut ordered, mut swept) = (lent::bytes(lent), lent::bytes(lent));
  let count = library::plain_order(list, &mut ordered).count;
  let pairs = library::sweep(list, u32::MAX, &mut swept).pairs;
  let call = || format!("what two calls leave of {list:?}");
  agree(
    call,
    "sweep",
    (pairs, swept),
    "plain order",
    (count, ordered),
  )
}
