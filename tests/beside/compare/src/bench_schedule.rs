//! The dearest charts of both sweeps: how long a whole call takes on each, and its dearest step.

use std::hint::black_box;

use crate::answers::{Chart, LIMIT, Piece, Swept};
use crate::bench::{BATCHES, SIZES, least};
use crate::lent::room;
use crate::library;
use crate::refusals::numbers;

/// Nanoseconds spent on a chart and a budget, or three calls.
const TIME: f64 = 4e8;

type Call = fn(&[i32], u32, &mut [u8]) -> Swept;

pub fn print() {
  println!(
    "| chart | pieces | steps | examined | ported, us | its dearest step, us | new, us | the new mode's dearest step, us |"
  );
  println!("|---|---|---|---|---|---|---|---|");
  for n in &SIZES[1..] {
    let n = *n as i32;
    row("every two cross, each at its own point", n, None, |i| {
      [3, -LIMIT, 8_200 + 120 * i, LIMIT, 32_700 - i * (i + 1) / 2]
    });
    row("all through one point", n, Some(n as u32 + 1), |i| {
      [3, -n, i - n / 2, n, n / 2 - i]
    });
    row("all from one point", n, Some(1), |i| {
      [3, -LIMIT, 0, LIMIT, 150 * i - 75 * n]
    });
    row("nested on one line", n, None, |i| [3, -i - 1, 0, i + 1, 0]);
  }
}

/// `dearest` is the number of the step that all pieces go through.
fn row(name: &str, n: i32, dearest: Option<u32>, piece: impl Fn(i32) -> Piece) {
  let chart: Chart = (0..n).map(piece).collect();
  let list = numbers(&chart);
  let mut bytes = vec![0; room(chart.len())];
  let swept = library::sweep(&list, u32::MAX, &mut bytes);
  let mut times = |call: Call| {
    let mut took = |budget| {
      let ns = quickest(|| {
        black_box(call(&list, budget, &mut bytes));
      });
      ns / 1e3
    };
    let step = dearest.map(|step| took(step) - took(step - 1));
    let step = step.map_or("-".to_string(), |us| format!("{us:.1}"));
    format!("{:.1} | {step}", took(u32::MAX))
  };
  let (ported, new) = (times(library::sweep), times(library::full_sweep));
  let (steps, examined) = (swept.steps, swept.examined);
  println!("| {name} | {n} | {steps} | {examined} | {ported} | {new} |");
}

fn quickest(mut call: impl FnMut()) -> f64 {
  let once = least(1, 1, &mut call);
  least((TIME / once).clamp(3.0, BATCHES as f64) as usize, 1, call)
}
