//! This library's calls, as crates/chart_c/include/mirtalughe.h has them.

use std::cmp::Ordering;

use crate::answers::{Answer, End, Meeting, Piece, Point, Refusal, Side, Swept};

#[link(name = "chart_c", kind = "static")]
unsafe extern "C" {
  safe fn mirtalughe_orient(x1: i16, y1: i16, x2: i16, y2: i16, x3: i16, y3: i16) -> i8;
  pub safe fn mirtalughe_compare_points(x1: i64, y1: i64, d1: u64, x2: i64, y2: i64, d2: u64)
  -> i8;
  fn mirtalughe_meeting(list: *const i32, length: usize) -> Met;
  fn mirtalughe_place(list: *const i32, length: usize) -> Placed;
  fn mirtalughe_read(file: *const u8, size: usize, list: *mut i32, lent: usize) -> Answer;
  fn mirtalughe_write(list: *const i32, length: usize, file: *mut u8, lent: usize) -> Answer;
  fn mirtalughe_fold(m: u32, h: u32, s: u32, list: *mut i32, lent: usize) -> Answer;
  fn mirtalughe_all_pairs(list: *const i32, length: usize, pairs: *mut u8, lent: usize) -> Answer;
  fn mirtalughe_full_sweep(
    list: *const i32,
    length: usize,
    budget: u32,
    pairs: *mut u8,
    lent: usize,
  ) -> SweptFields;
  fn mirtalughe_plain_order(list: *const i32, length: usize, pairs: *mut u8, lent: usize)
  -> Answer;
  fn mirtalughe_sweep(
    list: *const i32,
    length: usize,
    budget: u32,
    pairs: *mut u8,
    lent: usize,
  ) -> SweptFields;
  fn mirtalughe_sweep_batch(
    list: *const i32,
    length: usize,
    lengths: *const usize,
    charts: usize,
    pairs: *mut u8,
    lent: usize,
    results: *mut u64,
    numbers: usize,
  ) -> Answer;
  fn mirtalughe_check(list: *const i32, length: usize, pairs: *const u8, size: usize) -> Checked;
  fn mirtalughe_region(outline: *const i32, length: usize, x: i32, y: i32) -> Located;
  safe fn mirtalughe_half_line(
    kind: i32,
    x1: i32,
    y1: i32,
    x2: i32,
    y2: i32,
    x: i32,
    y: i32,
    tx: i32,
    ty: i32,
  ) -> HalfMet;
  fn mirtalughe_open_empty(chart: *mut i32, lent: usize) -> Answer;
  fn mirtalughe_open_add(
    chart: *mut i32,
    lent: usize,
    kind: i32,
    x1: i32,
    y1: i32,
    x2: i32,
    y2: i32,
  ) -> Changed;
  fn mirtalughe_open_drop(chart: *mut i32, lent: usize, piece: usize) -> Changed;
  fn mirtalughe_open_used(chart: *const i32, length: usize) -> Answer;
  fn mirtalughe_open_pairs(chart: *const i32, length: usize, pairs: *mut u8, lent: usize)
  -> Answer;
}

#[repr(C)]
struct Changed {
  number: u8,
  place: usize,
  piece: usize,
}

#[repr(C)]
struct Located {
  number: u8,
  place: usize,
  region: u8,
}

#[repr(C)]
struct HalfMet {
  number: u8,
  place: usize,
  meets: u8,
  turn: i8,
}

#[repr(C)]
struct Met {
  number: u8,
  place: usize,
  meets: u8,
  min: MetEnd,
  max: MetEnd,
}

#[repr(C)]
struct MetEnd {
  x: i16,
  y: i16,
  included: bool,
}

#[repr(C)]
struct Placed {
  number: u8,
  place: usize,
  meets: u8,
  values: [f64; 4],
}

#[repr(C)]
struct SweptFields {
  number: u8,
  place: usize,
  pairs: usize,
  steps: u32,
  ended: bool,
  complete: bool,
  visited: bool,
  x: i64,
  y: i64,
  d: u64,
  examined: u64,
}

#[repr(C)]
struct Checked {
  number: u8,
  place: usize,
  says: u8,
  first: usize,
  second: usize,
}

/// What is said of a supplier's list.
#[derive(Clone, Copy, PartialEq, Eq, Debug)]
pub enum Said {
  Accepted,
  Fault(usize, usize),
  Missing(usize, usize),
}

pub fn orient(p: [i32; 2], q: [i32; 2], r: [i32; 2]) -> Side {
  let [x1, y1, x2, y2, x3, y3] = [p[0], p[1], q[0], q[1], r[0], r[1]].map(|v| v as i16);
  side(mirtalughe_orient(x1, y1, x2, y2, x3, y3))
}

fn side(number: i8) -> Side {
  match number {
    1 => Side::CounterClockWise,
    -1 => Side::ClockWise,
    0 => Side::CoLinear,
    other => panic!("{other} is the number of no turn"),
  }
}

/// How the half-line from one point through another meets a piece, or why it is refused.
pub fn half_line(piece: &Piece, from: [i32; 2], through: [i32; 2]) -> Result<Option<Side>, u8> {
  let [kind, x1, y1, x2, y2] = *piece;
  let met = mirtalughe_half_line(
    kind, x1, y1, x2, y2, from[0], from[1], through[0], through[1],
  );
  match (met.number, met.place, met.meets, met.turn) {
    (0, 0, 0, 0) => Ok(None),
    (0, 0, 1, turn) => Ok(Some(side(turn))),
    (number @ 1.., 0, 0, 0) => Err(number),
    other => panic!("{other:?} is no answer"),
  }
}

/// 1 on, 2 inside, 3 outside, or why the outline or the peak is refused.
pub fn region(outline: &[i32], x: i32, y: i32) -> Result<u8, Refusal> {
  let told = unsafe { mirtalughe_region(outline.as_ptr(), outline.len(), x, y) };
  match (told.number, told.place, told.region) {
    (0, 0, region @ 1..=3) => Ok(region),
    (number @ 1.., place, 0) => Err((number, place)),
    other => panic!("{other:?} is no answer"),
  }
}

pub fn order(p: &Point, q: &Point) -> Ordering {
  let [p, q] = [p, q].map(|p| (p.x as i64, p.y as i64, p.d as u64));
  match mirtalughe_compare_points(p.0, p.1, p.2, q.0, q.1, q.2) {
    -1 => Ordering::Less,
    0 => Ordering::Equal,
    1 => Ordering::Greater,
    other => panic!("{other} is the number of no order"),
  }
}

/// How the two pieces of a list meet, or why it is refused. Fields that are not in use are zero.
pub fn meeting(list: &[i32]) -> Result<Meeting, Refusal> {
  let met = unsafe { mirtalughe_meeting(list.as_ptr(), list.len()) };
  let unused = |e: &MetEnd| (e.x, e.y, e.included) == (0, 0, false);
  let end = |e: &MetEnd| End {
    x: e.x.into(),
    y: e.y.into(),
    included: e.included,
  };
  match (met.number, met.meets) {
    (0, 2) if met.place == 0 => Ok(Meeting::Overlap(end(&met.min), end(&met.max))),
    _ if !unused(&met.min) || !unused(&met.max) => panic!("an end is not zero"),
    (0, 0) if met.place == 0 => Ok(Meeting::Nothing),
    (0, 1) if met.place == 0 => Ok(Meeting::Crossing),
    (number, 0) if number > 0 => Err((number, met.place)),
    (number, meets) => panic!("number {number}, meets {meets}, place {}", met.place),
  }
}

/// The values of the place of the meeting, by their bits, or why the list is refused.
pub fn place(list: &[i32]) -> Result<Vec<u64>, Refusal> {
  let placed = unsafe { mirtalughe_place(list.as_ptr(), list.len()) };
  let bits = placed.values.map(f64::to_bits);
  let (used, unused) = bits.split_at(match (placed.number, placed.meets) {
    (0, meets @ 0..=2) if placed.place == 0 => 2 * usize::from(meets),
    (1.., 0) => 0,
    (number, meets) => panic!("number {number}, meets {meets}, place {}", placed.place),
  });
  if unused.iter().any(|v| *v != 0) {
    panic!("a value that is not in use is not zero");
  }
  match placed.number {
    0 => Ok(used.to_vec()),
    number => Err((number, placed.place)),
  }
}

pub fn read(file: &[u8], list: &mut [i32]) -> Answer {
  unsafe { mirtalughe_read(file.as_ptr(), file.len(), list.as_mut_ptr(), list.len()) }
}

pub fn write(list: &[i32], file: &mut [u8]) -> Answer {
  unsafe { mirtalughe_write(list.as_ptr(), list.len(), file.as_mut_ptr(), file.len()) }
}

pub fn fold(m: u32, h: u32, s: u32, list: &mut [i32]) -> Answer {
  unsafe { mirtalughe_fold(m, h, s, list.as_mut_ptr(), list.len()) }
}

pub fn all_pairs(list: &[i32], pairs: &mut [u8]) -> Answer {
  unsafe { mirtalughe_all_pairs(list.as_ptr(), list.len(), pairs.as_mut_ptr(), pairs.len()) }
}

type Sweeps = unsafe extern "C" fn(*const i32, usize, u32, *mut u8, usize) -> SweptFields;

pub fn plain_order(list: &[i32], pairs: &mut [u8]) -> Answer {
  unsafe { mirtalughe_plain_order(list.as_ptr(), list.len(), pairs.as_mut_ptr(), pairs.len()) }
}

pub fn sweep(list: &[i32], budget: u32, pairs: &mut [u8]) -> Swept {
  swept(mirtalughe_sweep, list, budget, pairs)
}

pub fn full_sweep(list: &[i32], budget: u32, pairs: &mut [u8]) -> Swept {
  swept(mirtalughe_full_sweep, list, budget, pairs)
}

fn swept(call: Sweeps, list: &[i32], budget: u32, pairs: &mut [u8]) -> Swept {
  let (length, lent) = (list.len(), pairs.len());
  let told = unsafe { call(list.as_ptr(), length, budget, pairs.as_mut_ptr(), lent) };
  let point = Point {
    x: told.x.into(),
    y: told.y.into(),
    d: told.d.into(),
  };
  if !told.visited && (told.x, told.y, told.d) != (0, 0, 0) {
    panic!("a point that is not visited is not zero");
  }
  Swept {
    number: told.number,
    place: told.place,
    pairs: told.pairs,
    steps: told.steps,
    ended: told.ended,
    complete: told.complete,
    last: told.visited.then_some(point),
    examined: told.examined,
  }
}

/// The numbers of a chart's result in a batch.
pub const RESULT_NUMBERS: usize = 10;

pub fn sweep_batch(
  list: &[i32],
  lengths: &[usize],
  pairs: &mut [u8],
  results: &mut [u64],
) -> Answer {
  unsafe {
    mirtalughe_sweep_batch(
      list.as_ptr(),
      list.len(),
      lengths.as_ptr(),
      lengths.len(),
      pairs.as_mut_ptr(),
      pairs.len(),
      results.as_mut_ptr(),
      results.len(),
    )
  }
}

/// The single call that a batch makes of each chart.
pub fn single(list: &[i32], pairs: &mut [u8]) -> Swept {
  full_sweep(list, u32::MAX, pairs)
}

/// What is said of a supplier's list, or why the call is refused. Fields that are not in use are zero.
pub fn check(list: &[i32], pairs: &[u8]) -> Result<Said, Refusal> {
  let told = unsafe { mirtalughe_check(list.as_ptr(), list.len(), pairs.as_ptr(), pairs.len()) };
  match (told.number, told.place, told.says, told.first, told.second) {
    (0, 0, 1, 0, 0) => Ok(Said::Accepted),
    (0, 0, 2, entry, fault) => Ok(Said::Fault(entry, fault)),
    (0, 0, 3, a, b) => Ok(Said::Missing(a, b)),
    (number, place, 0, 0, 0) if number > 0 => Err((number, place)),
    other => panic!("{other:?} is no answer"),
  }
}

pub fn open_empty(chart: &mut [i32]) -> Answer {
  unsafe { mirtalughe_open_empty(chart.as_mut_ptr(), chart.len()) }
}

/// The number of the piece that was added, or why it is refused.
pub fn open_add(chart: &mut [i32], piece: &Piece) -> Result<usize, Refusal> {
  let [kind, x1, y1, x2, y2] = *piece;
  changed(unsafe { mirtalughe_open_add(chart.as_mut_ptr(), chart.len(), kind, x1, y1, x2, y2) })
}

pub fn open_drop(chart: &mut [i32], piece: usize) -> Result<usize, Refusal> {
  changed(unsafe { mirtalughe_open_drop(chart.as_mut_ptr(), chart.len(), piece) })
}

fn changed(told: Changed) -> Result<usize, Refusal> {
  match (told.number, told.place, told.piece) {
    (0, 0, piece) => Ok(piece),
    (number @ 1.., place, 0) => Err((number, place)),
    other => panic!("{other:?} is no answer"),
  }
}

pub fn open_used(chart: &[i32]) -> Answer {
  unsafe { mirtalughe_open_used(chart.as_ptr(), chart.len()) }
}

pub fn open_pairs(chart: &[i32], pairs: &mut [u8]) -> Answer {
  unsafe { mirtalughe_open_pairs(chart.as_ptr(), chart.len(), pairs.as_mut_ptr(), pairs.len()) }
}
