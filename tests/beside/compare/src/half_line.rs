//! The half-line from a piece's min through its max against each other piece.

use crate::answers::Piece;
use crate::case::{Case, same};
use crate::{library, model};

pub fn compare(case: &Case) -> Result<(), String> {
  for (a, b) in case.pairs() {
    let call = || format!("half-line along {a} against {b}");
    let side = case.original.half_line(a, b);
    let modelled = model::half_line(&case.chart[a], &case.chart[b]);
    same(call, side, "model", modelled)?;
    let [from, through] = ends(&case.chart[a]);
    same(
      call,
      Ok(side),
      "library",
      library::half_line(&case.chart[b], from, through),
    )?;
    if case.is_small() {
      let exact = case.original.half_line_exact(a, b);
      same(call, side, "Rust, exact", exact)?;
    }
  }
  Ok(())
}

/// The min and the max.
fn ends(piece: &Piece) -> [[i32; 2]; 2] {
  let (a, b) = ([piece[1], piece[2]], [piece[3], piece[4]]);
  if a < b { [a, b] } else { [b, a] }
}
