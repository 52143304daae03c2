//! Holds the published Rust, this library and a plain model against each other, chart by chart.
//!
//!   compare gate [SHARE]       the fixed charts, or those kept by hand and of every other family one chart in SHARE
//!   compare long SEED COUNT [LARGE]
//!                              those kept by hand, and from SEED COUNT random charts of each temper, or of the tempers with
//!                              large charts LARGE; COUNT random files; and LARGE days of an open chart
//!   compare swift SEED COUNT   COUNT random charts of each temper with small charts from SEED, in everything but steps and
//!                              what is left without a piece; and as many random files
//!   compare written            the charts of the gate, each with the file that the library writes
//!   compare record FOLDER      writes the Rust's answers on a fixed sample
//!   compare listing FILE       what the Rust lists of a chart file, as the chart program's text
//!   compare bench FOLDER       how long calls take, beside the Rust and the programs in FOLDER

mod answers;
mod batch;
mod bench;
mod bench_calls;
mod bench_full;
mod bench_schedule;
mod bench_sweep;
mod case;
mod charts;
mod file;
mod files;
mod folded;
mod full;
mod half_line;
mod kept;
mod lent;
mod library;
mod list_call;
mod model;
mod model_sweep;
mod naive;
mod open;
mod order;
mod orient;
mod original;
mod place;
mod plain;
mod record;
mod refusals;
mod region;
mod removal;
mod scope;
mod segment;
mod shrink;
mod supplied;
mod sweep;
mod sweep_call;
mod text;
mod writing;

use std::panic;
use std::process::ExitCode;
use std::sync::Mutex;
use std::sync::atomic::{AtomicUsize, Ordering};
use std::thread;
use std::time::Instant;

use answers::Chart;
use charts::Random;

const GATE_SEED: u64 = 1;
const GATE_FILES: usize = 20_000;
const GATE_DAYS: usize = 400;
const GRID_PAIR: &str = "grid-pair";

/// Charts of one temper: how many, the one of each index, and what is compared on each.
struct Family {
  name: &'static str,
  count: usize,
  chart: Box<dyn Fn(usize) -> Chart + Sync>,
  check: Check,
}

type Check = fn(&Chart) -> Result<(), String>;

impl Family {
  fn charts(&self) -> impl Iterator<Item = Chart> {
    (0..self.count).map(|i| (self.chart)(i))
  }
}

fn main() -> ExitCode {
  let words: Vec<String> = std::env::args().skip(1).collect();
  let words: Vec<&str> = words.iter().map(String::as_str).collect();
  let (families, seed, files, days) = match words[..] {
    ["gate"] => (gate(1), GATE_SEED, GATE_FILES, GATE_DAYS),
    ["gate", share] => match share.parse() {
      Ok(share) if share > 0 => (
        gate(share),
        GATE_SEED,
        GATE_FILES / share,
        GATE_DAYS.div_ceil(share),
      ),
      _ => return usage(),
    },
    ["long", seed, count] => match (seed.parse(), count.parse()) {
      (Ok(seed), Ok(count)) => (long(seed, count, count), seed, count, count),
      _ => return usage(),
    },
    ["long", seed, count, large] => match (seed.parse(), count.parse(), large.parse()) {
      (Ok(seed), Ok(count), Ok(large)) => (long(seed, count, large), seed, count, large),
      _ => return usage(),
    },
    ["swift", seed, count] => match (seed.parse(), count.parse()) {
      (Ok(seed), Ok(count)) => (swift(seed, count), seed, SMALL.len() * count, 0),
      _ => return usage(),
    },
    ["written"] => return written(writing::print(whole().iter().flat_map(Family::charts))),
    ["record", folder] => return written(record::write(folder.as_ref())),
    ["listing", file] => return written(record::print_listing(file.as_ref())),
    ["bench", programs] => return written(bench::print(programs.as_ref())),
    _ => return usage(),
  };
  panic::set_hook(Box::new(|_| {}));
  if let Err(told) = scope::compare() {
    println!("compare: an example of the scope differs in {told}");
    return ExitCode::FAILURE;
  }
  for family in families {
    let start = Instant::now();
    if let Some(chart) = first_wrong(&family) {
      tell(&family, chart);
      return ExitCode::FAILURE;
    }
    let seconds = start.elapsed().as_secs_f32();
    println!(
      "compare: {} {} charts, {seconds:.1} s",
      family.count, family.name
    );
  }
  let start = Instant::now();
  match folded::compare() {
    Ok((count, drawn)) => {
      let seconds = start.elapsed().as_secs_f32();
      println!("compare: {count} folded lines, {drawn} of them drawn, {seconds:.1} s");
    }
    Err(told) => {
      println!("compare: a folded line differs in {told}");
      return ExitCode::FAILURE;
    }
  }
  let start = Instant::now();
  match open::compare(seed, days) {
    Ok((count, refused)) => {
      let seconds = start.elapsed().as_secs_f32();
      println!(
        "compare: {count} changes of open charts, {refused} of them refused, {seconds:.1} s"
      );
    }
    Err(told) => {
      println!("compare: an open chart differs in {told}");
      return ExitCode::FAILURE;
    }
  }
  let start = Instant::now();
  match files::compare(seed, files) {
    Ok((count, read)) => {
      let seconds = start.elapsed().as_secs_f32();
      println!("compare: {count} files, {read} of them read and written again, {seconds:.1} s");
      ExitCode::SUCCESS
    }
    Err(told) => {
      println!("compare: a file differs in {told}");
      ExitCode::FAILURE
    }
  }
}

fn usage() -> ExitCode {
  eprintln!(
    "usage: compare gate [SHARE] | long SEED COUNT [LARGE] | swift SEED COUNT | written | record FOLDER | listing FILE | bench FOLDER"
  );
  ExitCode::from(2)
}

fn written(outcome: std::io::Result<()>) -> ExitCode {
  match outcome {
    Ok(()) => ExitCode::SUCCESS,
    Err(e) => {
      eprintln!("compare: {e}");
      ExitCode::FAILURE
    }
  }
}

/// A temper of random charts: its name, how many of them the gate has, and how one is made.
type Temper = (&'static str, usize, fn(&mut Random) -> Chart);

const SMALL: [Temper; 6] = [
  ("degenerate", 17_000, charts::degenerate),
  ("extreme", 3_000, charts::extreme),
  ("near-tied", 2_000, charts::near_ties),
  ("half-way", 2_000, charts::near_halves),
  ("near-whole", 2_000, charts::near_wholes),
  ("upright", 8_000, charts::uprights),
];

const LARGE: [Temper; 3] = [
  ("any-size", 300, charts::any_size),
  ("middle-size", 700, charts::middle_size),
  ("full-size", 200, charts::full_size),
];

fn gate(share: usize) -> Vec<Family> {
  let random = SMALL.iter().chain(&LARGE);
  let random = random.map(|&(name, count, make)| random_charts(name, GATE_SEED, count, make));
  let counted = [tiny(), grid_pairs()].into_iter().chain(random);
  let thinned = counted.map(|family| thinned(family, share));
  [kept()]
    .into_iter()
    .chain(thinned)
    .chain([fullest()])
    .collect()
}

/// Those of the gate on which everything is compared.
fn whole() -> Vec<Family> {
  let mut families = gate(1);
  families.retain(|family| family.name != GRID_PAIR);
  families
}

/// One chart in `share` of a family.
fn thinned(family: Family, share: usize) -> Family {
  let chart = family.chart;
  Family {
    count: family.count.div_ceil(share),
    chart: Box::new(move |i| chart(share * i)),
    ..family
  }
}

fn long(seed: u64, count: usize, large: usize) -> Vec<Family> {
  let of = |tempers: &'static [Temper], count| {
    let random = move |&(name, _, make): &Temper| random_charts(name, seed, count, make);
    tempers.iter().map(random)
  };
  let random = of(&SMALL, count).chain(of(&LARGE, large));
  [kept()].into_iter().chain(random).collect()
}

fn swift(seed: u64, count: usize) -> Vec<Family> {
  let random = |&(name, _, make): &Temper| Family {
    check: case::check_swiftly,
    ..random_charts(name, seed, count, make)
  };
  SMALL.iter().map(random).collect()
}

fn kept() -> Family {
  let charts = [kept::charts(), kept::uprights(), kept::ties()].concat();
  Family {
    name: "kept",
    count: charts.len(),
    chart: Box::new(move |i| charts[i].clone()),
    check: case::check,
  }
}

fn fullest() -> Family {
  let charts = charts::fullest();
  Family {
    name: "fullest",
    count: charts.len(),
    chart: Box::new(move |i| charts[i].clone()),
    check: case::check_fullest,
  }
}

fn tiny() -> Family {
  Family {
    name: "tiny",
    count: charts::TINY_CHARTS,
    chart: Box::new(charts::tiny),
    check: case::check,
  }
}

fn grid_pairs() -> Family {
  Family {
    name: GRID_PAIR,
    count: charts::GRID_PAIRS,
    chart: Box::new(charts::grid_pair),
    check: case::check_meetings,
  }
}

fn random_charts(
  name: &'static str,
  seed: u64,
  count: usize,
  make: fn(&mut Random) -> Chart,
) -> Family {
  Family {
    name,
    count,
    chart: Box::new(move |i| make(&mut Random::new(seed, i))),
    check: case::check,
  }
}

/// A wrong chart of the family, or none. All processors look.
fn first_wrong(family: &Family) -> Option<Chart> {
  let next = AtomicUsize::new(0);
  let wrong = Mutex::new(None);
  let look = || {
    loop {
      let i = next.fetch_add(1, Ordering::Relaxed);
      if i >= family.count || wrong.lock().unwrap().is_some() {
        return;
      }
      let chart = (family.chart)(i);
      if fault(family.check, &chart).is_some() {
        *wrong.lock().unwrap() = Some(chart);
      }
    }
  };
  let workers = thread::available_parallelism().map_or(1, |n| n.get());
  thread::scope(|scope| {
    for _ in 0..workers {
      scope.spawn(look);
    }
  });
  wrong.into_inner().unwrap()
}

/// What differs on the chart, or none. A panic on either side is a difference.
fn fault(check: Check, chart: &Chart) -> Option<String> {
  match panic::catch_unwind(|| check(chart)) {
    Ok(told) => told.err(),
    Err(_) => Some("a panic".to_string()),
  }
}

fn tell(family: &Family, chart: Chart) {
  let smallest = shrink::smallest(chart, |c| fault(family.check, c).is_some());
  println!("compare: a {} chart differs; shrunk to", family.name);
  for [kind, x1, y1, x2, y2] in &smallest {
    println!("  ({x1},{y1})-({x2},{y2}) kind {kind}");
  }
  println!("in {}", fault(family.check, &smallest).unwrap_or_default());
}
