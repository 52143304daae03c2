//! A piece taken out: the list is the old one without that piece's pairs, the numbers above it lowered by one. Of all pairs
//! and of the new mode always; of the Rust's sweep and the library's where no piece is upright. Of a chart that is not small
//! the Rust is asked once, with every piece, and the library without each.

use crate::answers::{Chart, Pair, Swept, is_upright};
use crate::case::{Case, agree};
use crate::full::Due;
use crate::lent::{self, room};
use crate::library;
use crate::original::Original;
use crate::refusals::numbers;

type Sweep = fn(&[i32], u32, &mut [u8]) -> Swept;

pub fn compare(case: &Case) -> Result<(), String> {
  let all = case.original.naive();
  let full = Due::of(&case.chart, &case.original).pairs();
  let flat = case.is_small() && !case.chart.iter().any(is_upright);
  let swept = flat.then(|| case.original.sweep());
  for i in (0..case.chart.len()).step_by(case.one_in()) {
    let mut fewer = case.chart.clone();
    fewer.remove(i);
    agreed("all pairs", i, &all, "library", &all_pairs(&fewer))?;
    let listed = full_list(library::full_sweep, &fewer);
    agreed("the new mode", i, &full, "library", &listed)?;
    if !case.is_small() {
      continue;
    }
    let rust = Original::new(&fewer);
    agreed("all pairs", i, &all, "Rust", &rust.naive())?;
    if let Some(swept) = &swept {
      let listed = full_list(library::sweep, &fewer);
      agreed("the sweep", i, swept, "Rust", &rust.sweep())?;
      agreed("the sweep", i, swept, "library", &listed)?;
    }
  }
  Ok(())
}

fn agreed(
  list: &str,
  i: usize,
  whole: &[Pair],
  who: &str,
  fewer: &Vec<Pair>,
) -> Result<(), String> {
  let call = || format!("{list} without piece {i}");
  let told = format!("{who}, without it");
  agree(call, "Rust", &without(i, whole), &told, fewer)
}

/// The pairs without those of piece i, the numbers above it lowered by one.
fn without(i: usize, pairs: &[Pair]) -> Vec<Pair> {
  let lowered = |j: usize| if j > i { j - 1 } else { j };
  let rest = pairs.iter().filter(|(a, b)| *a != i && *b != i);
  rest.map(|&(a, b)| (lowered(a), lowered(b))).collect()
}

fn all_pairs(chart: &Chart) -> Vec<Pair> {
  let mut bytes = lent::bytes(room(chart.len()));
  let count = library::all_pairs(&numbers(chart), &mut bytes).count;
  pairs_in(&bytes, count)
}

fn full_list(sweep: Sweep, chart: &Chart) -> Vec<Pair> {
  let mut bytes = lent::bytes(room(chart.len()));
  let count = sweep(&numbers(chart), u32::MAX, &mut bytes).pairs;
  pairs_in(&bytes, count)
}

fn pairs_in(bytes: &[u8], count: usize) -> Vec<Pair> {
  let pairs = bytes.as_chunks().0[..count].iter();
  pairs.map(|&[a, b]| (a as usize, b as usize)).collect()
}
