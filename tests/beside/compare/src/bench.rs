//! How long the library's calls take beside the Rust's, a plain C++ loop and CGAL, as tables.

use std::hint::black_box;
use std::io::{Error, Result, Write};
use std::path::Path;
use std::process::{Command, Output, Stdio};
use std::time::Instant;

use crate::answers::{Chart, LIMIT, MOST_PIECES, Point, is_upright};
use crate::charts::{self, Random};
use crate::original::{self, Original};
use crate::refusals::numbers;
use crate::{
  bench_calls, bench_full, bench_schedule, bench_sweep, file, files, library, model, writing,
};

const SEED: u64 = 6;
/// A time is that of the quickest of so many batches of calls.
pub const BATCHES: usize = 40;
const POINTS: usize = 1_000;

/// Prints the tables; `programs` is the folder with the programs of plain.cpp, once.c and, where it could be had,
/// cgal.cpp. Where the library is not compiled for the processor, only the table of both modes, of its text.
pub fn print(programs: &Path) -> Result<()> {
  if !cfg!(target_arch = "x86_64") {
    return bench_full::print(programs);
  }
  println!("| points | library, ns | Rust, ns | Rust / library |");
  println!("|---|---|---|---|");
  order_row(
    "random crossings",
    &crossings(|r| scattered(r, 8, 2 * LIMIT)),
  );
  order_row("near-tied crossings", &crossings(charts::near_ties));
  println!();
  println!(
    "| chart | pieces | pairs | library, ms | Rust, ms | C++, ms | Rust / library | library / C++ |"
  );
  println!("|---|---|---|---|---|---|---|---|");
  let charts = measured();
  for (name, chart) in &charts {
    pairs_row(name, chart, &programs.join("plain"))?;
  }
  println!();
  println!("| chart | pieces | bytes | read, ns | write, ns | write / read |");
  println!("|---|---|---|---|---|---|");
  let largest = [("widest", files::widest())];
  let full = charts
    .iter()
    .filter(|(_, chart)| chart.len() == MOST_PIECES);
  for (name, chart) in full.chain(&largest) {
    file_row(name, chart)?;
  }
  println!();
  bench_sweep::print(&charts, programs)?;
  println!();
  bench_full::print(programs)?;
  println!();
  bench_calls::print();
  println!();
  bench_schedule::print();
  Ok(())
}

/// A chart has so many pieces: a small one, as many as a chart had until 2026-07, and as many as it has.
pub const SIZES: [usize; 3] = [16, OLD_MOST, MOST_PIECES];
const OLD_MOST: usize = 64;

/// The charts of four tempers, each at every size.
fn measured() -> Vec<(&'static str, Chart)> {
  let [small, old, full] = SIZES.map(|n| tempers(0, n));
  let temper = |k: usize| [small[k].clone(), old[k].clone(), full[k].clone()];
  (0..small.len()).flat_map(temper).collect()
}

/// A chart of each temper with n pieces; those of index 0 are the ones that every table has. The first pieces are those of
/// the chart of 64, but where every two cross.
pub fn tempers(index: usize, n: usize) -> [(&'static str, Chart); 4] {
  let random = &mut Random::new(SEED, index);
  let reaches = [("sparse", 3_000), ("middle", 12_000), ("dense", 2 * LIMIT)];
  let mut charts = reaches.map(|(_, reach)| scattered(random, OLD_MOST, reach));
  let mut every_two = crossed(random, OLD_MOST);
  if n > OLD_MOST {
    for (chart, (_, reach)) in charts.iter_mut().zip(reaches) {
      chart.extend(scattered(random, n - OLD_MOST, reach));
    }
    every_two = crossed(random, n);
  }
  let [sparse, middle, dense] = charts;
  [
    ("sparse", sparse),
    ("middle", middle),
    ("dense", dense),
    ("every two cross", every_two),
  ]
  .map(|(name, chart)| (name, chart[..n].to_vec()))
}

/// Every point against the one after it.
fn order_row(name: &str, points: &[Point]) {
  let ours = points.iter().map(|p| (p.x as i64, p.y as i64, p.d as u64));
  let ours: Vec<_> = ours.collect();
  let theirs: Vec<_> = points.iter().map(original::corner_of).collect();
  let library = least(BATCHES, 20, || {
    for two in ours.windows(2) {
      let ((x1, y1, d1), (x2, y2, d2)) = (two[0], two[1]);
      black_box(library::mirtalughe_compare_points(x1, y1, d1, x2, y2, d2));
    }
  });
  let rust = least(BATCHES, 5, || {
    for two in theirs.windows(2) {
      black_box(two[0].cmp(&two[1]));
    }
  });
  let [library, rust] = [library, rust].map(|ns| ns / (points.len() - 1) as f64);
  println!(
    "| {name} | {library:.1} | {rust:.0} | {:.0} |",
    rust / library
  );
}

fn pairs_row(name: &str, chart: &Chart, plain: &Path) -> Result<()> {
  let n = chart.len();
  let list = numbers(chart);
  let original = Original::new(chart);
  let mut bytes = vec![0; n * (n - 1)];
  let calls = 100_000 / n;
  let count = library::all_pairs(&list, &mut bytes).count;
  let library = least(BATCHES, calls, || {
    black_box(library::all_pairs(black_box(&list), &mut bytes));
  });
  let rust = least(BATCHES, calls, || {
    black_box(black_box(&original).naive());
  });
  let (plain_count, cpp) = ask(plain, BATCHES, calls, &as_text(&list))?;
  if [plain_count, original.naive().len()] != [count; 2] {
    return Err(Error::other("the counts of pairs differ"));
  }
  let ms = [library, rust, cpp]
    .map(|ns| format!("{:.5}", ns / 1e6))
    .join(" | ");
  let ratios = [rust / library, library / cpp]
    .map(|r| format!("{r:.1}"))
    .join(" | ");
  println!("| {name} | {n} | {count} | {ms} | {ratios} |");
  Ok(())
}

/// Reading the chart's file, and writing it.
fn file_row(name: &str, chart: &Chart) -> Result<()> {
  let file = file::write(chart);
  let mut list = vec![0; file::ROOM];
  let mut again = vec![0; writing::ROOM];
  let read = least(BATCHES, 1_000, || {
    black_box(library::read(black_box(&file), &mut list));
  });
  let list = numbers(chart);
  let write = least(BATCHES, 1_000, || {
    black_box(library::write(black_box(&list), &mut again));
  });
  if again[..file.len()] != file {
    return Err(Error::other("the files differ"));
  }
  let (n, size, ratio) = (chart.len(), file.len(), write / read);
  println!("| {name} | {n} | {size} | {read:.0} | {write:.0} | {ratio:.2} |");
  Ok(())
}

/// Nanoseconds of one call, in the quickest batch.
pub fn least(batches: usize, calls: usize, mut call: impl FnMut()) -> f64 {
  let mut batch = || {
    let start = Instant::now();
    (0..calls).for_each(|_| call());
    start.elapsed().as_nanos() as f64 / calls as f64
  };
  (0..batches).map(|_| batch()).fold(f64::INFINITY, f64::min)
}

/// The count of pairs and the nanoseconds of one call that a C++ program tells of charts.
pub fn ask(program: &Path, batches: usize, calls: usize, charts: &str) -> Result<(usize, f64)> {
  let question = format!("{batches} {calls} {charts}");
  let told = answer(&mut Command::new(program), &question)?.stdout;
  let told = String::from_utf8_lossy(&told);
  let times = |(count, ns): (&str, &str)| Some((count.parse().ok()?, ns.parse().ok()?));
  let told = told.trim().split_once(' ').and_then(times);
  told.ok_or_else(|| Error::other("a program tells no time"))
}

/// The count of pieces, then their numbers.
pub fn as_text(list: &[i32]) -> String {
  let numbers = list.iter().map(|v| format!(" {v}"));
  format!("{}{}", list.len() / 5, numbers.collect::<String>())
}

/// What a program says to a question on its standard input.
pub fn answer(program: &mut Command, question: &str) -> Result<Output> {
  let piped = program.stdin(Stdio::piped()).stdout(Stdio::piped());
  let mut running = piped.stderr(Stdio::piped()).spawn()?;
  let mut input = running.stdin.take().expect("the input is piped");
  input.write_all(question.as_bytes())?;
  drop(input);
  running.wait_with_output()
}

/// Crossings of random charts, in the order in which they are found.
fn crossings(make: impl Fn(&mut Random) -> Chart) -> Vec<Point> {
  let mut points = Vec::new();
  for i in 0.. {
    let chart = make(&mut Random::new(SEED, i));
    let pairs = model::naive(&chart).into_iter();
    points.extend(pairs.filter_map(|(a, b)| model::crossing(&chart[a], &chart[b])));
    if points.len() >= POINTS {
      break;
    }
  }
  points
}

/// n pieces with both ends included, none upright.
fn scattered(random: &mut Random, n: usize, reach: i32) -> Chart {
  let mut chart = Chart::new();
  while chart.len() < n {
    let pieces = charts::scattered(random, 1, reach).into_iter();
    let sloped = pieces.filter(|p| !is_upright(p));
    chart.extend(sloped.map(|[_, x1, y1, x2, y2]| [3, x1, y1, x2, y2]));
  }
  chart
}

/// The higher a piece begins at the left, the lower it ends at the right.
fn crossed(random: &mut Random, n: usize) -> Chart {
  let (half, apart) = (n as i32 / 2, 64_000 / n as i32);
  let mut height = |i: i32| apart * i + random.between(-apart * 2 / 5, apart * 2 / 5);
  (-half..half)
    .map(|i| [3, -30_000, height(i), 30_000, height(-i)])
    .collect()
}
