//! Takes down what the library's own step, read as Rust, says of its state.

use std::cell::RefCell;

pub struct Step {
  /// The point visited: x / d, y / d.
  pub visited: (i64, i64, u64),
  pub active: Vec<u8>,
  /// One mark for each pair.
  pub marks: Vec<u8>,
  /// The waiting pairs' numbers.
  pub waiting: Vec<u16>,
  /// The bytes of the list.
  pub listed: Vec<u8>,
  /// The adjacent pairs in the order in which they were examined, both times.
  pub examined: Vec<(u8, u8)>,
}

thread_local! {
  static STEPS: RefCell<Vec<Step>> = const { RefCell::new(Vec::new()) };
  static EXAMINED: RefCell<Vec<(u8, u8)>> = const { RefCell::new(Vec::new()) };
}

pub fn examined(a: u8, b: u8) {
  EXAMINED.with_borrow_mut(|pairs| pairs.push((a, b)));
}

pub fn step(visited: (i64, i64, u64), active: &[u8], marks: &[u8], waiting: &[u16], listed: &[u8]) {
  let step = Step {
    visited,
    active: active.to_vec(),
    marks: marks.to_vec(),
    waiting: waiting.to_vec(),
    listed: listed.to_vec(),
    examined: EXAMINED.take(),
  };
  STEPS.with_borrow_mut(|steps| steps.push(step));
}

/// The steps of the sweep that this thread ran last.
pub fn take() -> Vec<Step> {
  STEPS.take()
}
