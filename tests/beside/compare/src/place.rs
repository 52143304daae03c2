//! The place of a meeting in binary64: the Rust's exact answer and its conversion, the library, the model.

use crate::answers::{Meeting, Point};
use crate::case::{Case, same};
use crate::library;
use crate::model::{self, Line, at};
use crate::original;

pub fn compare(case: &Case) -> Result<(), String> {
  for (a, b) in case.pairs() {
    let call = || format!("place of the meeting of {a} and {b}");
    let crossing = || case.original.crossing(a, b);
    let found = points(case.original.meeting(a, b), crossing);
    let [line, other] = [a, b].map(|i| Line::of(&case.chart[i]));
    same(call, &found, "model", &model::place_of(&line, &other))?;
    let rust = bits(found.iter().map(original::place));
    same(call, &rust, "model", &bits(found.iter().map(nearest_point)))?;
    let ten = [case.chart[a], case.chart[b]].concat();
    same(call, Ok(rust), "library", library::place(&ten))?;
  }
  Ok(())
}

/// Where two pieces meet by the Rust's answers: nowhere, at a point, or along from one point to another.
/// The ends of an overlap of one point are equal.
pub fn points(meeting: Meeting, crossing: impl FnOnce() -> Option<Point>) -> Vec<Point> {
  match meeting {
    Meeting::Nothing => vec![],
    Meeting::Crossing => vec![crossing().expect("pieces that cross have a crossing")],
    Meeting::Overlap(from, to) => {
      let mut ends = vec![at(&from), at(&to)];
      ends.dedup();
      ends
    }
  }
}

fn bits(values: impl Iterator<Item = [f64; 2]>) -> Vec<u64> {
  values.flatten().map(f64::to_bits).collect()
}

fn nearest_point(p: &Point) -> [f64; 2] {
  [nearest(p.x, p.d), nearest(p.y, p.d)]
}

/// The binary64 nearest to x / d, ties to even.
fn nearest(x: i128, d: i128) -> f64 {
  if x == 0 {
    return 0.0;
  }
  let mut shift = 0;
  let mut above = x.abs();
  while above / d < 1 << 53 {
    above *= 2;
    shift += 1;
  }
  let (whole, rest) = (above / d, above % d);
  let mut bits = whole / 2;
  let half = whole % 2 == 1;
  if half && (rest > 0 || bits % 2 == 1) {
    bits += 1;
  }
  let size = bits as f64 * 2f64.powi(1 - shift);
  if x < 0 { -size } else { size }
}
