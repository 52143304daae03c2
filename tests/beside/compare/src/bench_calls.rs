//! How long the other calls take: those on two pieces beside the Rust's, over a thousand pairs of pieces; and those on a list,
//! on the dense chart of each size.

use std::hint::black_box;

use crate::answers::{Chart, Piece};
use crate::bench::{BATCHES, SIZES, least, tempers};
use crate::lent::room;
use crate::library::{self, RESULT_NUMBERS};
use crate::open;
use crate::original::{self, Original};
use crate::refusals::numbers;

const DENSE: usize = 2;
/// Charts of a batch.
const CHARTS: usize = 16;
const ROUNDS: usize = 20;

pub fn print() {
  println!("| call | library, ns | Rust, ns | Rust / library |");
  println!("|---|---|---|---|");
  print_two_pieces(&dense(SIZES[1]));
  println!();
  println!("| call | pieces | library, us |");
  println!("|---|---|---|");
  for n in SIZES {
    print_list(&dense(n));
  }
}

fn dense(n: usize) -> Chart {
  tempers(0, n)[DENSE].1.clone()
}

/// Every two of the pieces.
fn print_two_pieces(chart: &Chart) {
  let original = Original::new(chart);
  let two: Vec<(usize, usize)> = (0..chart.len())
    .flat_map(|b| (0..b).map(move |a| (a, b)))
    .collect();
  let lists: Vec<Vec<i32>> = two
    .iter()
    .map(|&(a, b)| [chart[a], chart[b]].concat())
    .collect();
  let each = |call: &mut dyn FnMut(usize)| {
    least(BATCHES, ROUNDS, || (0..two.len()).for_each(&mut *call)) / two.len() as f64
  };
  let ends = |p: &Piece| [[p[1], p[2]], [p[3], p[4]]];
  let corners = |k: usize| {
    let ([p, q], [r, _]) = (ends(&chart[two[k].0]), ends(&chart[two[k].1]));
    (p, q, r)
  };
  let rows = [
    (
      "mirtalughe_orient",
      each(&mut |k| {
        let (p, q, r) = black_box(corners(k));
        black_box(library::orient(p, q, r));
      }),
      Some(each(&mut |k| {
        let (p, q, r) = black_box(corners(k));
        black_box(original::orient(p, q, r));
      })),
    ),
    (
      "mirtalughe_meeting",
      each(&mut |k| {
        black_box(library::meeting(&lists[k])).ok();
      }),
      Some(each(&mut |k| {
        black_box(original.meeting(two[k].0, two[k].1));
      })),
    ),
    (
      "mirtalughe_half_line",
      each(&mut |k| {
        let [from, through] = ends(&chart[two[k].1]);
        black_box(library::half_line(&chart[two[k].0], from, through)).ok();
      }),
      Some(each(&mut |k| {
        let [from, through] = ends(&chart[two[k].1]);
        let piece = &chart[two[k].0];
        black_box(original::half_line_through(from, through, piece));
      })),
    ),
    (
      "mirtalughe_place",
      each(&mut |k| {
        black_box(library::place(&lists[k])).ok();
      }),
      None,
    ),
  ];
  for (name, ours, theirs) in rows {
    let told = theirs.map_or(["-".into(), "-".into()], |ns| {
      [format!("{ns:.1}"), format!("{:.1}", ns / ours)]
    });
    println!("| {name} | {ours:.1} | {} |", told.join(" | "));
  }
}

fn print_list(chart: &Chart) {
  let n = chart.len();
  let list = numbers(chart);
  let outline: Vec<i32> = chart.iter().flat_map(|p| [p[1], p[2]]).collect();
  let mut pairs = vec![0; room(n)];
  let meeting = 2 * library::all_pairs(&list, &mut pairs).count;
  let mut memory = opened(chart);
  let mut listed = vec![0; room(n)];
  let many: Vec<i32> = list.repeat(CHARTS);
  let mut parts = vec![0; CHARTS * room(n)];
  let mut results = vec![0; CHARTS * RESULT_NUMBERS];
  let calls = 2_000 / n;
  let row = |name: &str, call: &mut dyn FnMut()| {
    println!(
      "| {name} | {n} | {:.2} |",
      least(BATCHES, calls, call) / 1e3
    );
  };
  row("mirtalughe_check", &mut || {
    black_box(library::check(&list, &pairs[..meeting])).ok();
  });
  if library::region(&outline, 0, 0).is_ok() {
    row("mirtalughe_region", &mut || {
      black_box(library::region(&outline, 0, 0)).ok();
    });
  }
  row("mirtalughe_open_pairs", &mut || {
    black_box(library::open_pairs(&memory, &mut listed));
  });
  let last = n - 1;
  row("mirtalughe_open_drop, open_add", &mut || {
    library::open_drop(&mut memory, last).unwrap();
    library::open_add(&mut memory, &chart[last]).unwrap();
  });
  let mut line = vec![0; list.len()];
  row("mirtalughe_fold", &mut || {
    black_box(library::fold(1, 100, 100 * n as u32, &mut line));
  });
  row("mirtalughe_sweep_batch, 16 charts", &mut || {
    let lengths = [list.len(); CHARTS];
    black_box(library::sweep_batch(
      &many,
      &lengths,
      &mut parts,
      &mut results,
    ));
  });
}

/// The chart's pieces in an open chart.
fn opened(chart: &Chart) -> Vec<i32> {
  let mut memory = vec![0; open::NUMBERS];
  library::open_empty(&mut memory);
  for piece in chart {
    library::open_add(&mut memory, piece).unwrap();
  }
  memory
}
