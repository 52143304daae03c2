//! Folded lines: what the library draws is held to a tone that is walked unit by unit between 0 and H and read at every
//! whole x.

use crate::answers::{Answer, Piece};
use crate::case::agree;
use crate::library;

/// m, H and S.
type Line = [u32; 3];

const MOST_PIECES: usize = 200;
const LIMIT: u32 = 32_767;

/// Numbers lent past those that are asked for, and what no call writes.
const SPARE: usize = 3;
const KEPT: i32 = -77;

/// How many lines were compared, and how many of them were drawn.
pub fn compare() -> Result<(usize, usize), String> {
  let lines = [every_order(), at_joints(), at_limits()].concat();
  let mut drawn = 0;
  for line in &lines {
    drawn += usize::from(compare_line(*line)?);
  }
  Ok((lines.len(), drawn))
}

fn every_order() -> Vec<Line> {
  let small = |m| (1..=24).flat_map(move |h| (1..=9).map(move |s| [m, h, s]));
  (1..=60).flat_map(small).collect()
}

/// S at a joint, one before it and one after it.
fn at_joints() -> Vec<Line> {
  let at = |[m, w, j]: Line| [j * w - 1, j * w, j * w + 1].map(|s| [m, m * w, s]);
  let steps = [[1, 1], [1, 2], [2, 3], [7, 5], [12, 1], [60, 2], [60, 9]];
  let joints = [1, 2, 3, 10, 199, 200, 201];
  let each = |[m, w]: [u32; 2]| joints.map(|j| [m, w, j]);
  steps.into_iter().flat_map(each).flat_map(at).collect()
}

fn at_limits() -> Vec<Line> {
  let mut lines = vec![[1, 1, 200], [1, 1, 201], [60, 60, 200], [60, 60, 201]];
  lines.extend([
    [60, LIMIT, 546],
    [60, LIMIT, 547],
    [60, 32_760, LIMIT],
    [1, LIMIT, LIMIT],
  ]);
  for v in [0, 1, 60, 61, LIMIT, LIMIT + 1, u32::MAX] {
    lines.extend([
      [v, 60, 60],
      [2, v, 60],
      [2, 60, v],
      [v, v, v],
      [v, 1, 1],
      [1, v, 1],
    ]);
  }
  lines
}

/// Whether it was drawn.
fn compare_line(line: Line) -> Result<bool, String> {
  let [m, h, s] = line;
  let due = due(line);
  let lent = match due {
    Ok(pieces) => 5 * pieces,
    Err(_) => 5 * MOST_PIECES,
  };
  let mut list = vec![KEPT; lent + SPARE];
  let told = library::fold(m, h, s, &mut list);
  let call = || format!("the line {m} times x folded at {h} up to {s}");
  agree(call, "model", answer(due), "library", told)?;
  let count = due.unwrap_or(0);
  let (drawn, rest) = list.split_at(5 * count);
  agree(
    call,
    "scope",
    true,
    "rest of the list",
    rest.iter().all(|v| *v == KEPT),
  )?;
  if count == 0 {
    return Ok(false);
  }
  let pieces = drawn.as_chunks::<5>().0;
  for (x, value) in walked(line).0.into_iter().enumerate() {
    let told: Vec<f64> = pieces
      .iter()
      .filter_map(|piece| held(piece, x as i32))
      .collect();
    agree(
      || format!("{}, at {x}", call()),
      "model",
      vec![f64::from(value)],
      "library",
      told,
    )?;
  }
  let mut short = vec![KEPT; 5 * count - 1];
  let told = library::fold(m, h, s, &mut short);
  agree(
    call,
    "scope",
    answer(Err(8)),
    "library with too little room",
    told,
  )?;
  agree(
    call,
    "scope",
    true,
    "short list",
    short.iter().all(|v| *v == KEPT),
  )?;
  Ok(true)
}

fn answer(due: Result<usize, u8>) -> Answer {
  let (number, count) = due.map_or_else(|number| (number, 0), |count| (0, count));
  Answer {
    number,
    place: 0,
    count,
  }
}

/// The count of pieces, one more than the tone has turned back, or the refusal.
fn due(line: Line) -> Result<usize, u8> {
  let [m, h, s] = line;
  if !(1..=60).contains(&m) || !(1..=LIMIT).contains(&h) || !(1..=LIMIT).contains(&s) {
    return Err(12);
  }
  if m * s > h && h % m != 0 {
    return Err(13);
  }
  match walked(line).1 + 1 {
    count if count > MOST_PIECES => Err(14),
    count => Ok(count),
  }
}

/// The folded value at every whole x from 0 to S, and how often the tone has turned back by then.
fn walked([m, h, s]: Line) -> (Vec<u32>, usize) {
  let (mut at, mut up, mut turns) = (0, true, 0);
  let mut values = vec![0];
  for _ in 0..s {
    for _ in 0..m {
      if at == if up { h } else { 0 } {
        up = !up;
        turns += 1;
      }
      at = if up { at + 1 } else { at - 1 };
    }
    values.push(at);
  }
  (values, turns)
}

/// The height at which a piece holds a point at x, where it does. A quotient that is whole is exact.
fn held([kind, x1, y1, x2, y2]: &Piece, x: i32) -> Option<f64> {
  let inside = x1 < &x && &x < x2 || x == *x1 && kind & 1 == 1 || x == *x2 && kind & 2 == 2;
  let over = i64::from(y2 - y1) * i64::from(x - x1);
  inside.then(|| f64::from(*y1) + over as f64 / f64::from(x2 - x1))
}
