//! A region: the first ends of a chart's pieces as its corners, the second ends and their like as peaks. Against the library
//! stand the Rust's half-line, side by side, and the winding number, which asks no half-line.

use crate::answers::Side;
use crate::case::{Case, agree, same};
use crate::{library, original};

type Corner = [i32; 2];

const MOST_CORNERS: usize = 64;

const ON: u8 = 1;
const INSIDE: u8 = 2;
const OUTSIDE: u8 = 3;

pub fn compare(case: &Case) -> Result<(), String> {
  let mut corners: Vec<Corner> = case.chart.iter().map(|p| [p[1], p[2]]).collect();
  if corners.len() > MOST_CORNERS {
    compare_one(&corners, [0, 0])?;
    corners.truncate(MOST_CORNERS);
  }
  for p in &case.chart {
    for peak in [[p[3], p[4]], [p[3], p[2]], [p[1], p[4]]] {
      compare_one(&corners, peak)?;
    }
  }
  Ok(())
}

fn compare_one(corners: &[Corner], peak: Corner) -> Result<(), String> {
  let call = || format!("peak {peak:?} and the outline {corners:?}");
  let outline: Vec<i32> = corners.concat();
  let told = library::region(&outline, peak[0], peak[1]);
  let due = due(corners, peak);
  same(call, due, "library", told)?;
  let Ok(answer) = told else { return Ok(()) };
  if answer != ON {
    let inside = if winding(corners, peak) % 2 != 0 {
      INSIDE
    } else {
      OUTSIDE
    };
    agree(call, "winding", inside, "library", answer)?;
  }
  for moved in [
    corners.iter().rev().copied().collect(),
    [&corners[1..], &corners[..1]].concat(),
  ] {
    let again = library::region(&moved.concat(), peak[0], peak[1]);
    agree(
      call,
      "library",
      told,
      "library, turned round or begun elsewhere",
      again,
    )?;
  }
  Ok(())
}

/// By document and by the Rust's half-line.
fn due(corners: &[Corner], peak: Corner) -> Result<u8, (u8, usize)> {
  if !(3..=MOST_CORNERS).contains(&corners.len()) {
    return Err((15, 0));
  }
  let sides: Vec<[Corner; 2]> = sides(corners);
  if let Some(at) = sides.iter().position(|[a, b]| a == b) {
    return Err((6, at));
  }
  if peak[0] > 32766 {
    return Err((5, 0));
  }
  if sides
    .iter()
    .any(|[a, b]| turn(*a, *b, peak) == 0 && a.min(b) <= &peak && &peak <= a.max(b))
  {
    return Ok(ON);
  }
  let right = [peak[0] + 1, peak[1]];
  let counts = |[a, b]: &&[Corner; 2]| {
    let met = original::half_line_through(peak, right, &[3, a[0], a[1], b[0], b[1]]);
    matches!(met, Some(Side::CoLinear | Side::CounterClockWise))
  };
  Ok(if sides.iter().filter(counts).count() % 2 == 1 {
    INSIDE
  } else {
    OUTSIDE
  })
}

fn sides(corners: &[Corner]) -> Vec<[Corner; 2]> {
  (0..corners.len())
    .map(|i| [corners[i], corners[(i + 1) % corners.len()]])
    .collect()
}

fn turn(p: Corner, q: Corner, r: Corner) -> i64 {
  let [[px, py], [qx, qy], [rx, ry]] = [p, q, r].map(|c| c.map(i64::from));
  ((qx - px) * (ry - py) - (qy - py) * (rx - px)).signum()
}

/// Whole turns of the way round the peak, counted by quarters.
fn winding(corners: &[Corner], peak: Corner) -> i64 {
  let quarter = |c: Corner| match ((c[0] - peak[0]).signum(), (c[1] - peak[1]).signum()) {
    (1, 0 | 1) => 0,
    (0 | -1, 1) => 1,
    (-1, 0 | -1) => 2,
    _ => 3,
  };
  let step = |[a, b]: &[Corner; 2]| match (quarter(*b) - quarter(*a) + 4) % 4 {
    0 => 0,
    1 => 1,
    3 => -1,
    _ => 2 * turn(peak, *a, *b),
  };
  sides(corners).iter().map(step).sum::<i64>() / 4
}
