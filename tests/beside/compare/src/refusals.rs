//! Lists that are refused: what number and place each fault gets, from the scope's table.

use crate::answers::{Chart, LIMIT, MOST_PIECES, Piece, Refusal, has_length};
use crate::case::{Case, agree};
use crate::library;

pub fn compare(case: &Case) -> Result<(), String> {
  let sound = numbers(&case.chart);
  let call = || "the chart as a list".to_string();
  agree(
    call,
    "scope",
    Ok(case.chart.len()),
    "model",
    verdict(&sound),
  )?;
  compare_pair_call(&sound)?;
  for (list, refusal) in damaged(&case.chart) {
    let call = || format!("the list {list:?}");
    agree(call, "scope", Err(refusal), "model", verdict(&list))?;
    compare_pair_call(&list)?;
  }
  Ok(())
}

/// "The pair calls take ten numbers: any other length is 9."
fn compare_pair_call(list: &[i32]) -> Result<(), String> {
  let ten = list.len() == 10;
  let refusal = if ten {
    verdict(list).err()
  } else {
    Some((9, 0))
  };
  let call = || format!("refusal of the segment test on {list:?}");
  agree(
    call,
    "model",
    refusal,
    "library",
    library::meeting(list).err(),
  )?;
  let call = || format!("refusal of the place of {list:?}");
  agree(
    call,
    "model",
    refusal,
    "library",
    library::place(list).err(),
  )
}

pub fn numbers(chart: &Chart) -> Vec<i32> {
  chart.iter().flatten().copied().collect()
}

/// "9, then 3, then piece by piece 4, 5 (either end), 6": the count of pieces, or the refusal.
pub fn verdict(list: &[i32]) -> Result<usize, Refusal> {
  let (pieces, rest) = list.as_chunks::<5>();
  if !rest.is_empty() {
    return Err((9, 0));
  }
  if pieces.len() > MOST_PIECES {
    return Err((3, 0));
  }
  for (i, piece) in pieces.iter().enumerate() {
    if !(0..=3).contains(&piece[0]) {
      return Err((4, i));
    }
    if piece[1..].iter().any(|v| !(-LIMIT..=LIMIT).contains(v)) {
      return Err((5, i));
    }
    if !has_length(piece) {
      return Err((6, i));
    }
  }
  Ok(pieces.len())
}

/// The chart with one fault put in, and the refusal that it gets.
pub fn damaged(chart: &Chart) -> Vec<(Vec<i32>, Refusal)> {
  let sound = numbers(chart);
  let mut faults = vec![([&sound[..], &[0]].concat(), (9, 0))];
  if let Some(&last) = chart.last() {
    faults.push((sound[1..].to_vec(), (9, 0)));
    let many = [chart.clone(), vec![last; MOST_PIECES + 1 - chart.len()]].concat();
    faults.push((numbers(&many), (3, 0)));
    for (piece, number) in faulty(last) {
      let at = chart.len() - 1;
      let with_last = [&chart[..at], &[piece]].concat();
      faults.push((numbers(&with_last), (number, at)));
      let and_a_later_fault = [with_last, vec![[4, 0, 0, 0, 0]]].concat();
      if and_a_later_fault.len() <= MOST_PIECES {
        faults.push((numbers(&and_a_later_fault), (number, at)));
      }
    }
  }
  faults
}

/// The piece with one fault put in, and its number; a 4 and a 5 hide what comes after them.
fn faulty(piece: Piece) -> Vec<(Piece, u8)> {
  let [kind, x1, y1, x2, y2] = piece;
  vec![
    ([-1, x1, y1, x2, y2], 4),
    ([4, x1, LIMIT + 1, x2, y2], 4),
    ([kind, LIMIT + 1, y1, x2, y2], 5),
    ([kind, x1, -LIMIT - 1, x2, y2], 5),
    ([kind, x1, y1, i32::MIN, y2], 5),
    ([kind, x1, i32::MAX, x1, i32::MAX], 5),
    ([kind, x1, y1, x1, y1], 6),
  ]
}
