//! Takes down what steps.rs, the instrumented sweep, says of its state after every step.

use std::cell::RefCell;
use std::collections::HashMap;

use crate::data::Point;
use num::BigRational;

type Pair = (usize, usize);

pub struct Step {
  pub visited: Point<BigRational>,
  pub active: Vec<usize>,
  pub waiting: Vec<(Pair, Point<BigRational>)>,
  /// How many pairs are listed by now.
  pub listed: usize,
  /// The adjacent pairs in the order in which they were examined, both times.
  pub examined: Vec<Pair>,
}

thread_local! {
  static STEPS: RefCell<Vec<Step>> = const { RefCell::new(Vec::new()) };
  static EXAMINED: RefCell<Vec<Pair>> = const { RefCell::new(Vec::new()) };
}

pub fn examined(pair: Pair) {
  EXAMINED.with_borrow_mut(|pairs| pairs.push(pair));
}

pub fn step(
  visited: &Point<BigRational>,
  active: &[usize],
  scheduled: &HashMap<Pair, Point<BigRational>>,
  results: &[Pair],
) {
  let mut waiting: Vec<_> = scheduled.iter().map(|(k, p)| (*k, p.clone())).collect();
  waiting.sort_by_key(|(pair, _)| *pair);
  let step = Step {
    visited: visited.clone(),
    active: active.to_vec(),
    waiting,
    listed: results.len(),
    examined: EXAMINED.take(),
  };
  STEPS.with_borrow_mut(|steps| steps.push(step));
}

/// The steps of the sweep that this thread ran last.
pub fn take() -> Vec<Step> {
  STEPS.take()
}
