//! How long a sweep takes in the library, in the Rust and in CGAL, and how many instructions it is.

use std::hint::black_box;
use std::io::{Error, ErrorKind, Result};
use std::path::Path;
use std::process::Command;

use crate::answers::Chart;
use crate::bench::{BATCHES, answer, as_text, ask, least};
use crate::lent::room;
use crate::library;
use crate::original::Original;
use crate::refusals::numbers;

/// The Rust takes up to seconds for a call: so many nanoseconds are spent on it, and three calls at least.
const RUST_TIME: f64 = 5e9;
const RUST_CALLS: f64 = 1_000.0;

/// Charts of more steps would take it minutes.
const RUST_STEPS: u32 = 2_500;

pub fn print(charts: &[(&str, Chart)], programs: &Path) -> Result<()> {
  println!(
    "| chart | pieces | pairs | steps | library, ms | Rust, ms | CGAL, ms | Rust / library | library / CGAL | instructions, thousands |"
  );
  println!("|---|---|---|---|---|---|---|---|---|---|");
  for (name, chart) in charts {
    row(name, chart, programs)?;
  }
  Ok(())
}

fn row(name: &str, chart: &Chart, programs: &Path) -> Result<()> {
  let n = chart.len();
  let list = numbers(chart);
  let original = Original::new(chart);
  let mut bytes = vec![0; room(n)];
  let swept = library::sweep(&list, u32::MAX, &mut bytes);
  let calls = (20_000 / swept.steps as usize).max(1);
  let library = least(BATCHES, calls, || {
    black_box(library::sweep(black_box(&list), u32::MAX, &mut bytes));
  });
  let mut listed = swept.pairs;
  let rust = (swept.steps <= RUST_STEPS).then(|| {
    let mut sweep = || listed = black_box(black_box(&original).sweep()).len();
    let once = least(1, 1, &mut sweep);
    let batches = (RUST_TIME / once).clamp(3.0, RUST_CALLS) as usize;
    least(batches, 1, sweep)
  });
  let cgal = where_had(ask(
    &programs.join("cgal"),
    BATCHES,
    calls,
    &cgal_text(std::slice::from_ref(&list)),
  ))?;
  if listed != swept.pairs {
    return Err(Error::other("the counts of pairs differ"));
  }
  // no end of these charts is another's, so that every other point is a crossing; CGAL tells each once
  let crossings = swept.steps as usize - 2 * n;
  if cgal.is_some_and(|(told, _)| told != crossings) {
    return Err(Error::other("the counts of crossings differ"));
  }
  let ms = |ns: f64| format!("{:.4}", ns / 1e6);
  let cells = [
    name.to_string(),
    n.to_string(),
    swept.pairs.to_string(),
    swept.steps.to_string(),
    ms(library),
    told(rust.map(ms)),
    told(cgal.map(|(_, ns)| ms(ns))),
    told(rust.map(|rust| format!("{:.0}", rust / library))),
    told(cgal.map(|(_, ns)| format!("{:.2}", library / ns))),
    told(where_had(instructions(
      programs,
      "mirtalughe_sweep",
      &list,
    ))?),
  ];
  println!("| {} |", cells.join(" | "));
  Ok(())
}

/// The count of charts, then each.
pub fn cgal_text(lists: &[Vec<i32>]) -> String {
  let charts: Vec<String> = lists.iter().map(|list| as_text(list)).collect();
  format!("{} {}", lists.len(), charts.join(" "))
}

/// None where the program is not there.
pub fn where_had<T>(answer: Result<T>) -> Result<Option<T>> {
  match answer {
    Ok(answer) => Ok(Some(answer)),
    Err(e) if e.kind() == ErrorKind::NotFound => Ok(None),
    Err(e) => Err(e),
  }
}

pub fn told<T: ToString>(cell: Option<T>) -> String {
  cell.map_or("-".to_string(), |v| v.to_string())
}

/// How many thousand instructions one call of this name is, as valgrind counts them.
pub fn instructions(programs: &Path, call: &str, list: &[i32]) -> Result<u64> {
  let mut valgrind = Command::new("valgrind");
  valgrind.args(["--tool=callgrind", "--callgrind-out-file=/dev/null"]);
  valgrind.arg(format!("--toggle-collect={call}"));
  let counted = answer(
    valgrind.arg(programs.join("once")).arg(call),
    &as_text(list),
  )?;
  let counted = String::from_utf8_lossy(&counted.stderr).into_owned();
  let count = counted.lines().find_map(|l| l.split("Collected : ").nth(1));
  let count: Option<u64> = count.and_then(|count| count.trim().parse().ok());
  let count = count.ok_or_else(|| Error::other("valgrind tells no count"))?;
  Ok((count + 500) / 1_000)
}
