//! Which pieces of a chart meet, and where: the proved calls of libchart_c.a, made safe.
//!
//! A chart is a list of numbers, five a piece: kind, x1, y1, x2, y2. Kind 0 to 3: add 1 if the first end is included, 2
//! if the second is. Coordinates run from -[`LIMIT`] to [`LIMIT`], and a chart has at most [`MOST_PIECES`] pieces.
//!
//! ```
//! use mirtalughe::{Place, PlacePoint, full_sweep, place};
//!
//! let list = [3, 0, 0, 4, 4, 3, 0, 4, 4, 0];
//! let mut lent = [0; 2];
//! assert_eq!(full_sweep(&list, u32::MAX, &mut lent)?.pairs, [[0, 1]]);
//! assert_eq!(place(&list)?, Place::At(PlacePoint { x: 2.0, y: 2.0 }));
//! # Ok::<(), mirtalughe::Refusal>(())
//! ```
//!
//! A list or a file that is not right is refused: a [`Refusal`] has the number, what it means and where the fault is.
//! Whatever was lent then keeps its content.

mod calls;
mod open;
mod refusal;

use std::cmp::Ordering;

pub use open::OpenChart;
pub use refusal::{Fault, Given, Refusal};

/// The number that a size of the header is.
const fn number(digits: &str) -> usize {
  let (mut value, mut at) = (0, 0);
  while at < digits.len() {
    value = 10 * value + (digits.as_bytes()[at] - b'0') as usize;
    at += 1;
  }
  value
}

/// The most pieces of a chart.
pub const MOST_PIECES: usize = number(env!("MIRTALUGHE_MOST_PIECES"));

/// Coordinates run from -LIMIT to LIMIT.
pub const LIMIT: i32 = number(env!("MIRTALUGHE_LIMIT")) as i32;

/// kind, x1, y1, x2, y2
pub const PIECE_NUMBERS: usize = number(env!("MIRTALUGHE_PIECE_NUMBERS"));

/// How many numbers are lent to [`read`] at least.
pub const LIST_ROOM: usize = PIECE_NUMBERS * MOST_PIECES;

/// The most pieces of a folded line.
pub const MOST_FOLDED: usize = number(env!("MIRTALUGHE_MOST_FOLDED"));

/// So many numbers lent to [`fold`] are always enough.
pub const FOLD_ROOM: usize = PIECE_NUMBERS * MOST_FOLDED;

/// The bytes of the longest chart file. At least as many are lent to [`write`].
pub const LONGEST_FILE: usize = 2 + 13 * MOST_PIECES;

/// The most pairs of a chart.
pub const MOST_PAIRS: usize = pairs_room(MOST_PIECES) / 2;

/// No sweep takes more steps.
pub const MOST_STEPS: usize = 2 * MOST_PIECES + MOST_PAIRS;

/// The places of an open chart.
pub const OPEN_PLACES: usize = number(env!("MIRTALUGHE_OPEN_PLACES"));

/// The numbers of an open chart, five a place.
pub const OPEN_NUMBERS: usize = PIECE_NUMBERS * OPEN_PLACES;

/// The most charts of a batch.
pub const MOST_CHARTS: usize = number(env!("MIRTALUGHE_MOST_CHARTS"));

/// The numbers of a chart's result in a batch.
pub const RESULT_NUMBERS: usize = number(env!("MIRTALUGHE_RESULT_NUMBERS"));

/// kind, x1, y1, x2, y2
pub type Piece = [i32; PIECE_NUMBERS];

/// The numbers of two pieces.
pub type Pair = [u8; 2];

/// How many bytes are lent at least for the pairs of so many pieces.
pub const fn pairs_room(pieces: usize) -> usize {
  pieces * pieces.saturating_sub(1)
}

/// How many bytes of a batch's are the part of a list of so many numbers: none where it is no chart's.
pub const fn part_room(length: usize) -> usize {
  let pieces = length / PIECE_NUMBERS;
  if length % PIECE_NUMBERS == 0 && pieces <= MOST_PIECES { pairs_room(pieces) } else { 0 }
}

/// Which way three points turn.
#[derive(Clone, Copy, PartialEq, Eq, Debug)]
pub enum Orientation {
  CounterClockWise,
  ClockWise,
  CoLinear,
}

/// The point x/d, y/d.
#[derive(Clone, Copy, PartialEq, Eq, Debug)]
pub struct Point {
  pub x: i64,
  pub y: i64,
  pub d: u64,
}

#[derive(Clone, Copy, PartialEq, Eq, Debug)]
pub struct EndPoint {
  pub x: i16,
  pub y: i16,
  pub included: bool,
}

/// How two pieces meet. An overlap's stretch runs from `min` to `max`, which are equal where it is one point.
#[derive(Clone, Copy, PartialEq, Eq, Debug)]
pub enum Meeting {
  Nothing,
  Crossing,
  Overlap { min: EndPoint, max: EndPoint },
}

#[derive(Clone, Copy, PartialEq, Debug)]
pub struct PlacePoint {
  pub x: f64,
  pub y: f64,
}

/// Where two pieces meet, each value the binary64 nearest to the exact one: at the one point that they share, an
/// overlap's too, or along from one point to another.
#[derive(Clone, Copy, PartialEq, Debug)]
pub enum Place {
  Nothing,
  At(PlacePoint),
  Along(PlacePoint, PlacePoint),
}

/// Where a peak lies to a region.
#[derive(Clone, Copy, PartialEq, Eq, Debug)]
pub enum Region {
  On,
  Inside,
  Outside,
}

/// What a sweep has found: the pairs listed so far, the lesser number first, in the order in which they were listed.
#[derive(Clone, Copy, PartialEq, Eq, Debug)]
pub struct Swept<'a> {
  pub pairs: &'a [Pair],
  pub steps: u32,
  /// Whether no point is left to visit.
  pub ended: bool,
  /// Of [`full_sweep`] always, of [`sweep`] whether no piece is upright. A sweep that has ended has then listed every
  /// pair that meets.
  pub complete: bool,
  /// The last point visited.
  pub last: Option<Point>,
  /// Of [`sweep`], how many adjacent pairs were examined, skipped ones too, in all steps done: at most 2(n - 1) a step for
  /// n pieces. [`full_sweep`] does not count: 0.
  pub examined: u64,
}

/// What is wrong with an entry of a supplier's list; of several the first.
#[derive(Clone, Copy, PartialEq, Eq, Debug)]
pub enum EntryFault {
  /// One of its numbers is not a piece's.
  NoPiece,
  /// Both numbers are equal.
  Itself,
  /// Its pair does not meet.
  Apart,
  /// It repeats the pair of an earlier entry.
  Repeated,
}

/// What is said of a supplier's list.
#[derive(Clone, Copy, PartialEq, Eq, Debug)]
pub enum Checked {
  /// It names each pair that meets once, and no other.
  Accepted,
  /// The first entry at fault, counted from 0.
  Fault { entry: usize, fault: EntryFault },
  /// All entries are good: the first pair that meets and is not named, greater number first.
  Missing(Pair),
}

/// Which way the points p, q, r, each x and y, turn.
pub fn orient(p: [i16; 2], q: [i16; 2], r: [i16; 2]) -> Orientation {
  turn(calls::mirtalughe_orient(p[0], p[1], q[0], q[1], r[0], r[1]))
}

fn turn(number: i8) -> Orientation {
  match number {
    1 => Orientation::CounterClockWise,
    -1 => Orientation::ClockWise,
    0 => Orientation::CoLinear,
    other => unreachable!("{other} is the number of no turn"),
  }
}

/// The order of two points, by x, then y. It is exact.
pub fn compare_points(p: Point, q: Point) -> Ordering {
  calls::mirtalughe_compare_points(p.x, p.y, p.d, q.x, q.y, q.d).cmp(&0)
}

/// Reads a chart file into a lent list and returns its pieces. At least [`LIST_ROOM`] numbers are to be lent; those
/// past the last piece keep their values.
pub fn read<'a>(file: &[u8], lent: &'a mut [i32]) -> Result<&'a [Piece], Refusal> {
  // SAFETY: both pointers are good for their lengths, and the lent list is borrowed alone.
  let answer = unsafe { calls::mirtalughe_read(file.as_ptr(), file.len(), lent.as_mut_ptr(), lent.len()) };
  let count = answer.checked(Given::File)?;
  Ok(&lent.as_chunks().0[..count])
}

/// Writes a chart's file into lent bytes and returns it. At least [`LONGEST_FILE`] bytes are to be lent; those past the file
/// keep their values.
pub fn write<'a>(list: &[i32], lent: &'a mut [u8]) -> Result<&'a [u8], Refusal> {
  // SAFETY: both pointers are good for their lengths, and the lent bytes are borrowed alone.
  let answer = unsafe { calls::mirtalughe_write(list.as_ptr(), list.len(), lent.as_mut_ptr(), lent.len()) };
  let count = answer.checked(Given::List)?;
  Ok(&lent[..count])
}

/// Draws m times x, folded at 0 and h, from x = 0 to s, into a lent list and returns its pieces, from left to right: at every
/// x one of them holds the folded value. At least five numbers a piece are to be lent, [`FOLD_ROOM`] for any line; those past
/// the last piece keep their values.
pub fn fold(m: u32, h: u32, s: u32, lent: &mut [i32]) -> Result<&[Piece], Refusal> {
  // SAFETY: the pointer is good for the length, and the lent list is borrowed alone.
  let answer = unsafe { calls::mirtalughe_fold(m, h, s, lent.as_mut_ptr(), lent.len()) };
  let count = answer.checked(Given::Line)?;
  Ok(&lent.as_chunks().0[..count])
}

/// How the two pieces of ten numbers meet, the first one asking.
pub fn meeting(list: &[i32]) -> Result<Meeting, Refusal> {
  // SAFETY: the pointer is good for the length.
  let met = unsafe { calls::mirtalughe_meeting(list.as_ptr(), list.len()) };
  refusal::check(met.number, met.place, Given::List)?;
  Ok(match met.meets {
    0 => Meeting::Nothing,
    1 => Meeting::Crossing,
    2 => Meeting::Overlap { min: met.min.into(), max: met.max.into() },
    other => unreachable!("{other} is the number of no meeting"),
  })
}

/// Where the two pieces of ten numbers meet.
pub fn place(list: &[i32]) -> Result<Place, Refusal> {
  // SAFETY: the pointer is good for the length.
  let placed = unsafe { calls::mirtalughe_place(list.as_ptr(), list.len()) };
  refusal::check(placed.number, placed.place, Given::List)?;
  let first = PlacePoint { x: placed.x1, y: placed.y1 };
  let second = PlacePoint { x: placed.x2, y: placed.y2 };
  Ok(match placed.meets {
    0 => Place::Nothing,
    1 => Place::At(first),
    2 => Place::Along(first, second),
    other => unreachable!("{other} is the number of no place"),
  })
}

/// Lists every pair of a chart's pieces that meet in lent bytes and returns the pairs, greater number first: for a from
/// 0, for b below a. At least [`pairs_room`] of its pieces is to be lent; bytes past the last pair keep their values.
pub fn all_pairs<'a>(list: &[i32], lent: &'a mut [u8]) -> Result<&'a [Pair], Refusal> {
  // SAFETY: both pointers are good for their lengths, and the lent bytes are borrowed alone.
  let answer =
    unsafe { calls::mirtalughe_all_pairs(list.as_ptr(), list.len(), lent.as_mut_ptr(), lent.len()) };
  let count = answer.checked(Given::List)?;
  Ok(&lent.as_chunks().0[..count])
}

/// Sweeps a chart's pieces from left to right for at most `budget` steps, a visited point each, and lists the pairs that
/// meet in lent bytes, by their first common points, then the lesser number, then the greater. Wherever it stops, no pair
/// is missing whose first common point is at or before the last point visited. At least [`pairs_room`] of its pieces is
/// to be lent; bytes past the last pair keep their values. This is the sweep to call, unless the answers have to be
/// the Rust's.
pub fn full_sweep<'a>(list: &[i32], budget: u32, lent: &'a mut [u8]) -> Result<Swept<'a>, Refusal> {
  // SAFETY: both pointers are good for their lengths, and the lent bytes are borrowed alone.
  let swept =
    unsafe { calls::mirtalughe_full_sweep(list.as_ptr(), list.len(), budget, lent.as_mut_ptr(), lent.len()) };
  told(swept, lent)
}

/// Lists the pairs of a chart's pieces that meet, lesser number first, in the order of their first common points, then of the
/// lesser number, then of the greater. None of the pieces may be upright. At least [`pairs_room`] of its pieces is to be lent;
/// bytes past the last pair keep their values. [`sweep`], once it has ended, gives the same pairs.
pub fn plain_order<'a>(list: &[i32], lent: &'a mut [u8]) -> Result<&'a [Pair], Refusal> {
  // SAFETY: both pointers are good for their lengths, and the lent bytes are borrowed alone.
  let answer =
    unsafe { calls::mirtalughe_plain_order(list.as_ptr(), list.len(), lent.as_mut_ptr(), lent.len()) };
  let count = answer.checked(Given::List)?;
  Ok(&lent.as_chunks().0[..count])
}

/// Sweeps a chart's pieces as the Rust does, step by step, for at most `budget` steps, a visited point each, and lists
/// pairs that meet in lent bytes, where no piece is upright by their first common point. Where none is, the answer is that
/// of [`full_sweep`], at every budget, but for the pairs examined; with upright pieces some pairs may be missing, and it is
/// not complete. At least [`pairs_room`] of its pieces is to be lent; bytes past the last pair keep their values.
pub fn sweep<'a>(list: &[i32], budget: u32, lent: &'a mut [u8]) -> Result<Swept<'a>, Refusal> {
  // SAFETY: both pointers are good for their lengths, and the lent bytes are borrowed alone.
  let swept =
    unsafe { calls::mirtalughe_sweep(list.as_ptr(), list.len(), budget, lent.as_mut_ptr(), lent.len()) };
  told(swept, lent)
}

/// What a sweep told, with the pairs that it left.
fn told(swept: calls::Swept, lent: &[u8]) -> Result<Swept<'_>, Refusal> {
  refusal::check(swept.number, swept.place, Given::List)?;
  Ok(Swept {
    pairs: &lent.as_chunks().0[..swept.pairs],
    steps: swept.steps,
    ended: swept.ended,
    complete: swept.complete,
    last: swept.visited.then_some(Point { x: swept.x, y: swept.y, d: swept.d }),
    examined: swept.examined,
  })
}

/// Sweeps up to [`MOST_CHARTS`] charts in one call, each to its end. Their lists stand end to end in `list`, and `lengths` has
/// the count of numbers of each. Each chart has its own part of the lent bytes, [`part_room`] of its length, end to end in
/// chart order; its answer is that of [`full_sweep`] on it alone, and one that is refused disturbs no other.
pub fn sweep_batch<'a>(
  list: &[i32],
  lengths: &[usize],
  lent: &'a mut [u8],
) -> Result<Vec<Result<Swept<'a>, Refusal>>, Refusal> {
  let mut results = [[0; RESULT_NUMBERS]; MOST_CHARTS];
  let numbers = results.as_flattened_mut();
  // SAFETY: all pointers are good for their lengths, and what is lent is borrowed alone.
  let answer = unsafe {
    calls::mirtalughe_sweep_batch(
      list.as_ptr(),
      list.len(),
      lengths.as_ptr(),
      lengths.len(),
      lent.as_mut_ptr(),
      lent.len(),
      numbers.as_mut_ptr(),
      numbers.len(),
    )
  };
  let count = answer.checked(Given::List)?;
  let mut rest: &'a [u8] = lent;
  Ok(
    lengths
      .iter()
      .zip(&results[..count])
      .map(|(&length, result)| in_batch(result, next(&mut rest, length)))
      .collect(),
  )
}

/// The part of a chart of so many numbers, from the front of what is left.
fn next<'a>(rest: &mut &'a [u8], length: usize) -> &'a [u8] {
  let (part, behind) = rest.split_at(part_room(length));
  *rest = behind;
  part
}

/// What the numbers of a chart's result say of its part.
fn in_batch<'a>(result: &[u64; RESULT_NUMBERS], part: &'a [u8]) -> Result<Swept<'a>, Refusal> {
  let [number, place, pairs, steps, ended, complete, visited, x, y, d] = *result;
  refusal::check(number as u8, place as usize, Given::List)?;
  Ok(Swept {
    pairs: &part.as_chunks().0[..pairs as usize],
    steps: steps as u32,
    ended: ended == 1,
    complete: complete == 1,
    last: (visited == 1).then_some(Point { x: x as i64, y: y as i64, d }),
    examined: 0,
  })
}

/// Holds a list of pairs, two bytes a pair in any order, to a chart: whether it names each pair that meets once, in either
/// number order, and if not, where it is wrong.
pub fn check(list: &[i32], pairs: &[u8]) -> Result<Checked, Refusal> {
  // SAFETY: both pointers are good for their lengths.
  let checked = unsafe { calls::mirtalughe_check(list.as_ptr(), list.len(), pairs.as_ptr(), pairs.len()) };
  refusal::check(checked.number, checked.place, Given::List)?;
  Ok(match checked.says {
    1 => Checked::Accepted,
    2 => Checked::Fault { entry: checked.first, fault: entry_fault(checked.second) },
    3 => Checked::Missing([checked.first as u8, checked.second as u8]),
    other => unreachable!("{other} is the number of nothing that is said"),
  })
}

fn entry_fault(number: usize) -> EntryFault {
  match number {
    1 => EntryFault::NoPiece,
    2 => EntryFault::Itself,
    3 => EntryFault::Apart,
    4 => EntryFault::Repeated,
    other => unreachable!("{other} is the number of no fault"),
  }
}

/// Where a peak, x and y, lies to the region of an outline, two numbers a corner: on a side, or inside by the even-odd rule.
pub fn region(outline: &[i32], peak: [i32; 2]) -> Result<Region, Refusal> {
  // SAFETY: the pointer is good for the length.
  let located = unsafe { calls::mirtalughe_region(outline.as_ptr(), outline.len(), peak[0], peak[1]) };
  refusal::check(located.number, located.place, Given::Outline)?;
  Ok(match located.region {
    1 => Region::On,
    2 => Region::Inside,
    3 => Region::Outside,
    other => unreachable!("{other} is the number of no place to a region"),
  })
}

/// How the half-line from one point through another, each x and y, meets a piece: not, or with the turn that the Rust's
/// `Crossing` carries, CoLinear where the ends lie on both sides of the line and else the side of the one end off it.
pub fn half_line(piece: Piece, from: [i32; 2], through: [i32; 2]) -> Result<Option<Orientation>, Refusal> {
  let [kind, x1, y1, x2, y2] = piece;
  let met = calls::mirtalughe_half_line(kind, x1, y1, x2, y2, from[0], from[1], through[0], through[1]);
  refusal::check(met.number, met.place, Given::HalfLine)?;
  Ok(match met.meets {
    0 => None,
    1 => Some(turn(met.turn)),
    other => unreachable!("{other} is the number of no meeting"),
  })
}
