//! The segment test, each piece asking each: the Rust over i64, over exact numbers, the library, the model;
//! and the crossing point of those that cross.

use crate::answers::Meeting;
use crate::case::{Case, same};
use crate::{library, model};

pub fn compare(case: &Case) -> Result<(), String> {
  for (a, b) in case.pairs() {
    let (piece, other) = (&case.chart[a], &case.chart[b]);
    let meeting = case.original.meeting(a, b);
    let call = || format!("segment test, {a} asking {b}");
    let ten = [*piece, *other].concat();
    same(call, Ok(meeting), "library", library::meeting(&ten))?;
    same(call, meeting, "model", model::meeting(piece, other))?;
    if case.is_small() {
      let exact = case.original.meeting_exact(a, b);
      same(call, meeting, "Rust, exact", exact)?;
    }
    if meeting == Meeting::Crossing {
      let call = || format!("crossing point of {a} and {b}");
      let point = case.original.crossing(a, b);
      same(call, point, "model", model::crossing(piece, other))?;
    }
  }
  Ok(())
}
