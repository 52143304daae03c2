//! Orientation: which way one goes from a piece's first end over its second to another's first.

use crate::answers::{Piece, Side};
use crate::case::{Case, same};
use crate::{library, original};

pub fn compare(case: &Case) -> Result<(), String> {
  for (a, b) in case.pairs() {
    let [p, q, r] = points(&case.chart[a], &case.chart[b]);
    let call = || format!("orientation along {a} to the first end of {b}");
    let side = original::orient(p, q, r);
    same(call, side, "library", library::orient(p, q, r))?;
    same(call, side, "model", model(p, q, r))?;
    if case.is_small() {
      same(call, side, "Rust, exact", original::orient_exact(p, q, r))?;
    }
  }
  Ok(())
}

fn points(a: &Piece, b: &Piece) -> [[i32; 2]; 3] {
  [[a[1], a[2]], [a[3], a[4]], [b[1], b[2]]]
}

fn model(p: [i32; 2], q: [i32; 2], r: [i32; 2]) -> Side {
  let [[px, py], [qx, qy], [rx, ry]] = [p, q, r].map(|c| c.map(i64::from));
  match ((qx - px) * (ry - py) - (qy - py) * (rx - px)).signum() {
    1 => Side::CounterClockWise,
    -1 => Side::ClockWise,
    _ => Side::CoLinear,
  }
}
