//! The calls as crates/chart_c/include/mirtalughe.h has them.

use crate::EndPoint;
use crate::refusal::{self, Given, Refusal};

#[link(name = "chart_c", kind = "static")]
unsafe extern "C" {
  pub safe fn mirtalughe_orient(x1: i16, y1: i16, x2: i16, y2: i16, x3: i16, y3: i16) -> i8;
  pub safe fn mirtalughe_compare_points(x1: i64, y1: i64, d1: u64, x2: i64, y2: i64, d2: u64) -> i8;
  pub fn mirtalughe_read(file: *const u8, size: usize, list: *mut i32, lent: usize) -> Answer;
  pub fn mirtalughe_write(list: *const i32, length: usize, file: *mut u8, lent: usize) -> Answer;
  pub fn mirtalughe_meeting(list: *const i32, length: usize) -> Met;
  pub fn mirtalughe_place(list: *const i32, length: usize) -> Placed;
  pub fn mirtalughe_all_pairs(list: *const i32, length: usize, pairs: *mut u8, lent: usize) -> Answer;
  pub fn mirtalughe_full_sweep(
    list: *const i32,
    length: usize,
    budget: u32,
    pairs: *mut u8,
    lent: usize,
  ) -> Swept;
  pub fn mirtalughe_plain_order(list: *const i32, length: usize, pairs: *mut u8, lent: usize) -> Answer;
  pub fn mirtalughe_sweep(list: *const i32, length: usize, budget: u32, pairs: *mut u8, lent: usize)
  -> Swept;
  pub fn mirtalughe_fold(m: u32, h: u32, s: u32, list: *mut i32, lent: usize) -> Answer;
  pub fn mirtalughe_sweep_batch(
    list: *const i32,
    length: usize,
    lengths: *const usize,
    charts: usize,
    pairs: *mut u8,
    lent: usize,
    results: *mut u64,
    numbers: usize,
  ) -> Answer;
  pub fn mirtalughe_check(list: *const i32, length: usize, pairs: *const u8, size: usize) -> Checked;
  pub fn mirtalughe_region(outline: *const i32, length: usize, x: i32, y: i32) -> Located;
  pub safe fn mirtalughe_half_line(
    kind: i32,
    x1: i32,
    y1: i32,
    x2: i32,
    y2: i32,
    x: i32,
    y: i32,
    tx: i32,
    ty: i32,
  ) -> HalfMet;
  pub fn mirtalughe_open_empty(chart: *mut i32, lent: usize) -> Answer;
  pub fn mirtalughe_open_add(
    chart: *mut i32,
    lent: usize,
    kind: i32,
    x1: i32,
    y1: i32,
    x2: i32,
    y2: i32,
  ) -> Changed;
  pub fn mirtalughe_open_drop(chart: *mut i32, lent: usize, piece: usize) -> Changed;
  pub fn mirtalughe_open_used(chart: *const i32, length: usize) -> Answer;
  pub fn mirtalughe_open_pairs(chart: *const i32, length: usize, pairs: *mut u8, lent: usize) -> Answer;
}

#[repr(C)]
pub struct Answer {
  number: u8,
  place: usize,
  count: usize,
}

impl Answer {
  /// The count, or the refusal.
  pub fn checked(self, given: Given) -> Result<usize, Refusal> {
    refusal::check(self.number, self.place, given)?;
    Ok(self.count)
  }
}

#[repr(C)]
pub struct Changed {
  number: u8,
  place: usize,
  piece: usize,
}

impl Changed {
  /// The piece's number, or the refusal.
  pub fn checked(self) -> Result<u8, Refusal> {
    refusal::check(self.number, self.place, Given::Open)?;
    Ok(self.piece as u8)
  }
}

#[repr(C)]
pub struct End {
  x: i16,
  y: i16,
  included: bool,
}

impl From<End> for EndPoint {
  fn from(end: End) -> EndPoint {
    EndPoint { x: end.x, y: end.y, included: end.included }
  }
}

#[repr(C)]
pub struct Met {
  pub number: u8,
  pub place: usize,
  pub meets: u8,
  pub min: End,
  pub max: End,
}

#[repr(C)]
pub struct Placed {
  pub number: u8,
  pub place: usize,
  pub meets: u8,
  pub x1: f64,
  pub y1: f64,
  pub x2: f64,
  pub y2: f64,
}

#[repr(C)]
pub struct Swept {
  pub number: u8,
  pub place: usize,
  pub pairs: usize,
  pub steps: u32,
  pub ended: bool,
  pub complete: bool,
  pub visited: bool,
  pub x: i64,
  pub y: i64,
  pub d: u64,
  pub examined: u64,
}

#[repr(C)]
pub struct Checked {
  pub number: u8,
  pub place: usize,
  pub says: u8,
  pub first: usize,
  pub second: usize,
}

#[repr(C)]
pub struct Located {
  pub number: u8,
  pub place: usize,
  pub region: u8,
}

#[repr(C)]
pub struct HalfMet {
  pub number: u8,
  pub place: usize,
  pub meets: u8,
  pub turn: i8,
}
