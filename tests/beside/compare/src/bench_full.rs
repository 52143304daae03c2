//! How long a sweep takes in the new mode, beside the ported one, the list in plain order and CGAL: of one chart again and
//! again, which the processor learns by heart, and of 64 charts in turn. The library is compiled for x86-64; on another
//! processor its text, read as Rust, is measured in its place.

use std::hint::black_box;
use std::io::Result;
use std::path::Path;

use crate::answers::{Chart, Swept};
use crate::bench::{BATCHES, SIZES, ask, least, tempers};
use crate::bench_sweep::{cgal_text, instructions, told, where_had};
use crate::lent::room;
use crate::refusals::numbers;
use crate::{library, text};

const IN_TURN: usize = 64;

/// A batch takes about so many steps, or one round; where that is more, there are fewer batches.
const MANY_STEPS: usize = 40_000;

type Call = fn(&[i32], u32, &mut [u8]) -> Swept;

const COMPILED: bool = cfg!(target_arch = "x86_64");
const NEW: Call = if COMPILED { library::full_sweep } else { text::full_sweep };
const PORTED: Call = if COMPILED { library::sweep } else { text::sweep };

fn plain_order(list: &[i32], bytes: &mut [u8]) -> usize {
  match COMPILED {
    true => library::plain_order(list, bytes).count,
    false => text::plain_order(list, bytes),
  }
}

pub fn print(programs: &Path) -> Result<()> {
  println!(
    "| chart | pieces | charts in turn | pairs | steps | new, us | ported, us | plain order, us | CGAL, us | ported / new | plain order / new | CGAL / new | instructions, thousands |"
  );
  println!("|---|---|---|---|---|---|---|---|---|---|---|---|---|");
  let of_size = |n| (0..IN_TURN).map(move |i| tempers(i, n)).collect();
  let sizes: [Vec<[(&str, Chart); 4]>; 3] = SIZES.map(of_size);
  for temper in 0..4 {
    for charts in &sizes {
      let (name, charts): (Vec<_>, Vec<Chart>) = charts.iter().map(|c| c[temper].clone()).unzip();
      for count in [1, IN_TURN] {
        row(name[0], &charts[..count], programs)?;
      }
    }
  }
  Ok(())
}

fn row(name: &str, charts: &[Chart], programs: &Path) -> Result<()> {
  let (n, count) = (charts[0].len(), charts.len());
  let lists: Vec<Vec<i32>> = charts.iter().map(numbers).collect();
  let mut bytes = vec![0; room(n)];
  let swept: Vec<Swept> = lists
    .iter()
    .map(|list| NEW(list, u32::MAX, &mut bytes))
    .collect();
  let pairs: usize = swept.iter().map(|swept| swept.pairs).sum();
  let steps: u32 = swept.iter().map(|swept| swept.steps).sum();
  let rounds = (MANY_STEPS / steps as usize).max(1);
  let batches = (BATCHES * MANY_STEPS / steps as usize).clamp(3, BATCHES);
  let time = |call: &mut dyn FnMut(&[i32])| {
    let round = || lists.iter().for_each(|list| call(black_box(list)));
    least(batches, rounds, round) / count as f64
  };
  let new = time(&mut |list| {
    black_box(NEW(list, u32::MAX, &mut bytes));
  });
  let ported = time(&mut |list| {
    black_box(PORTED(list, u32::MAX, &mut bytes));
  });
  let plain = time(&mut |list| {
    black_box(plain_order(list, &mut bytes));
  });
  let question = cgal_text(&lists);
  let cgal = where_had(ask(
    &programs.join("cgal"),
    batches,
    rounds * count,
    &question,
  ))?;
  // no end of these charts is another's, so that every other point is a crossing; CGAL tells each once
  let crossings = steps as usize - 2 * n * count;
  let cgal = cgal.filter(|(told, _)| {
    if *told != crossings {
      eprintln!("bench: {name}, {n} pieces: CGAL tells {told} crossings of {crossings}; its time is left out");
    }
    *told == crossings
  });
  let us = |ns: f64| format!("{:.2}", ns / 1e3);
  let counted = match count {
    1 if COMPILED => where_had(instructions(programs, "mirtalughe_full_sweep", &lists[0]))?,
    _ => None,
  };
  let cells = [
    name.to_string(),
    n.to_string(),
    count.to_string(),
    pairs.to_string(),
    steps.to_string(),
    us(new),
    us(ported),
    us(plain),
    told(cgal.map(|(_, ns)| us(ns))),
    format!("{:.1}", ported / new),
    format!("{:.1}", plain / new),
    told(cgal.map(|(_, ns)| format!("{:.1}", ns / new))),
    told(counted),
  ];
  println!("| {} |", cells.join(" | "));
  Ok(())
}
