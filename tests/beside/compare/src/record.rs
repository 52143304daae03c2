//! Writes the Rust's answers on a fixed sample of charts, for crates/replay to replay: `stdin`, a
//! record for each question, and `stdout`, what the Rust says to each, in order.

use std::fmt::Write;
use std::fs;
use std::io;
use std::path::Path;

use crate::answers::{Chart, End, Meeting, Pair, Point, Swept, is_upright};
use crate::charts::{self, Random};
use crate::file;
use crate::files;
use crate::full::Due;
use crate::kept;
use crate::original::{self, Original};
use crate::place;
use crate::sweep_call;

const SEED: u64 = 2;

pub fn write(folder: &Path) -> io::Result<()> {
  let (two, any) = (charts_of_two(), charts_of_any_count());
  let mut asked = Vec::new();
  let mut told = String::new();
  for bytes in files::sample() {
    asked.extend(record(b'r', &bytes));
    told += &reading(&bytes);
  }
  let and_fullest = [&any[..], &charts::fullest()[..1]].concat();
  let questions: [(u8, &[Chart], fn(&Chart) -> String); 6] = [
    (b'm', &two, segment),
    (b'p', &two, place),
    (b'a', &and_fullest, naive),
    (b's', &any, sweep),
    (b'f', &any, full_sweep),
    (b'l', &and_fullest, listing),
  ];
  for (letter, charts, answer) in questions {
    for chart in charts {
      asked.extend(record(letter, &file::write(chart)));
      told += &answer(chart);
    }
  }
  fs::create_dir_all(folder)?;
  fs::write(folder.join("stdin"), asked)?;
  fs::write(folder.join("stdout"), told)
}

/// The letter of the question, the length of the file, two bytes, low first, and the file.
fn record(letter: u8, file: &[u8]) -> Vec<u8> {
  let [low, high] = (file.len() as u16).to_le_bytes();
  [&[letter, low, high], file].concat()
}

/// The chart program's text for a chart file; a refusal is the model's.
pub fn print_listing(file: &Path) -> io::Result<()> {
  match file::read(&fs::read(file)?) {
    Ok(chart) => print!("{}", listing(&chart)),
    Err((number, _)) => println!("refused {number}"),
  }
  Ok(())
}

fn charts_of_two() -> Vec<Chart> {
  let with = |count, make: fn(&mut Random) -> Chart| {
    let charts = (0..).map(move |i| make(&mut Random::new(SEED, i)));
    let long_enough = charts.filter(|c| c.len() > 1);
    long_enough.map(|c| c[..2].to_vec()).take(count)
  };
  let tiny = (0..charts::TINY_CHARTS).map(charts::tiny);
  let tiny = tiny.filter(|c| c.len() == 2).step_by(61);
  let random = with(500, charts::degenerate).chain(with(400, charts::extreme));
  tiny
    .chain(random)
    .chain(with(200, charts::near_ties))
    .collect()
}

fn charts_of_any_count() -> Vec<Chart> {
  let random = |count, make: fn(&mut Random) -> Chart| {
    (0..count).map(move |i| make(&mut Random::new(SEED, i)))
  };
  let small = kept::charts()
    .into_iter()
    .chain(random(150, charts::degenerate));
  let wide = random(40, charts::extreme).chain(random(30, charts::near_ties));
  small
    .chain(wide)
    .chain(random(10, charts::middle_size))
    .chain(random(40, charts::near_wholes))
    .chain(kept::uprights())
    .chain(random(80, charts::uprights))
    .chain(kept::ties())
    .chain(random(2, charts::full_size))
    .collect()
}

/// `refused`, the number and the place, or `read`, the count and the numbers. The Rust has no reader:
/// this is the model's.
fn reading(bytes: &[u8]) -> String {
  match file::read(bytes) {
    Err((number, place)) => format!("refused {number} {place}\n"),
    Ok(chart) => {
      let numbers: String = chart.iter().flatten().map(|v| format!(" {v}")).collect();
      format!("read {}{numbers}\n", chart.len())
    }
  }
}

/// Piece 0 asking piece 1: `nothing`, `crossing X Y D`, or `overlap` and both ends, each x, y and
/// 1 where it is included.
fn segment(chart: &Chart) -> String {
  let original = Original::new(chart);
  match (original.meeting_exact(0, 1), original.crossing(0, 1)) {
    (Meeting::Nothing, _) => "nothing\n".to_string(),
    (Meeting::Overlap(from, to), _) => format!("overlap {} {}\n", end(&from), end(&to)),
    (Meeting::Crossing, Some(p)) => format!("crossing {}\n", point(&p)),
    (Meeting::Crossing, None) => unreachable!("pieces that cross have a crossing"),
  }
}

/// The place of the same meeting, each value as the 16 hexadecimal digits of its binary64.
fn place(chart: &Chart) -> String {
  let bits = |p: &Point| {
    let [x, y] = original::place(p).map(f64::to_bits);
    format!("{x:016x} {y:016x}")
  };
  match &points(&Original::new(chart), 0, 1)[..] {
    [] => "nothing\n".to_string(),
    [p] => format!("at {}\n", bits(p)),
    [p, .., q] => format!("along {} {}\n", bits(p), bits(q)),
  }
}

fn points(original: &Original, a: usize, b: usize) -> Vec<Point> {
  place::points(original.meeting_exact(a, b), || original.crossing(a, b))
}

/// One line: the count of pairs, then each pair.
fn naive(chart: &Chart) -> String {
  let list = Original::new(chart).naive_exact();
  let pairs: String = list.iter().map(|(a, b)| format!(" {a} {b}")).collect();
  format!("{}{pairs}\n", list.len())
}

/// A line for each budget from 0 to the last step: steps done, pairs listed, pairs examined, whether the queue is empty, the
/// last point; then the list.
fn sweep(chart: &Chart) -> String {
  let run = Original::new(chart).run();
  let complete = !chart.iter().any(is_upright);
  let stopped = |budget| sweep_call::stopped(&run, complete, budget);
  stops(chart, run.steps.len() as u32, stopped, &run.list)
}

/// The same of the new mode, from the Rust's all pairs.
fn full_sweep(chart: &Chart) -> String {
  let due = Due::of(chart, &Original::new(chart));
  let steps = due.points.len() as u32;
  stops(chart, steps, |budget| due.stopped(budget), &due.pairs())
}

fn stops(chart: &Chart, steps: u32, stopped: impl Fn(u32) -> Swept, list: &[Pair]) -> String {
  let complete = yes_no(stopped(steps).complete);
  let mut text = format!("chart {} complete {complete}\n", chart.len());
  for budget in 0..=steps {
    let told = stopped(budget);
    let (done, listed, examined) = (told.steps, told.pairs, told.examined);
    let ended = yes_no(told.ended);
    let last = match told.last {
      Some(visited) => format!("at {}", point(&visited)),
      None => "none".to_string(),
    };
    let _ = writeln!(
      text,
      "{done} listed {listed} examined {examined} ended {ended} {last}"
    );
  }
  let pairs: String = list.iter().map(|(a, b)| format!(" {a} {b}")).collect();
  let _ = writeln!(text, "list{pairs}");
  text
}

/// The chart program's text, in the new mode.
fn listing(chart: &Chart) -> String {
  let original = Original::new(chart);
  let due = Due::of(chart, &original);
  let mut text = format!("chart {}\ncomplete yes\n", chart.len());
  for (a, b) in due.pairs() {
    let place = match &points(&original, a, b)[..] {
      [] => unreachable!("listed pairs meet"),
      [p] => format!("at {} {}", units(p.x, p.d), units(p.y, p.d)),
      [p, .., q] => format!("along {} {} {} {}", p.x, p.y, q.x, q.y),
    };
    let _ = writeln!(text, "pair {a} {b} {place}");
  }
  let _ = writeln!(text, "steps {}", due.points.len());
  text
}

/// "the greatest whole unit not above the exact value and the least not below it"
fn units(v: i128, d: i128) -> String {
  let (low, high) = (v.div_euclid(d), -(-v).div_euclid(d));
  format!("{low} {high}")
}

fn yes_no(yes: bool) -> &'static str {
  if yes { "yes" } else { "no" }
}

fn end(e: &End) -> String {
  format!("{} {} {}", e.x, e.y, u8::from(e.included))
}

fn point(p: &Point) -> String {
  format!("{} {} {}", p.x, p.y, p.d)
}
