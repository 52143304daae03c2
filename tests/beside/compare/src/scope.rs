//! The scope's examples that are not starred, with the answers that stand there: counts 200 and 201,
//! coordinates 32,767 and 32,768, the upright gap. crates/starred proves the starred ones.

use crate::answers::{Answer, Chart, Pair, Point, Refusal, Swept};
use crate::case::{agree, same};
use crate::file::{self, ROOM};
use crate::lent::{self, room};
use crate::library;
use crate::original::Original;
use crate::refusals::numbers;

pub fn compare() -> Result<(), String> {
  let alike = |count| vec![[3, 0, 0, 1, 1]; count];
  let reaching = |x| vec![[3, x, 0, 0, 0]];
  accepted("200 pieces", &alike(200), 19_900)?;
  refused("201 pieces", &alike(201), (3, 0), (3, 0))?;
  accepted("32,767 as a coordinate", &reaching(32_767), 0)?;
  refused("32,768 as a coordinate", &reaching(32_768), (5, 2), (5, 0))?;
  upright_gap()
}

/// The chart's file is read, and so many pairs meet.
fn accepted(name: &str, chart: &Chart, pairs: usize) -> Result<(), String> {
  let call = || format!("pairs of {name}");
  same(call, Original::new(chart).naive().len(), "scope", pairs)?;
  answered(name, chart, Ok(chart.len()), Ok(pairs))
}

fn refused(name: &str, chart: &Chart, file: Refusal, list: Refusal) -> Result<(), String> {
  answered(name, chart, Err(file), Err(list))
}

/// What the library answers of the chart's file, and of its pairs.
fn answered(
  name: &str,
  chart: &Chart,
  file: Result<usize, Refusal>,
  pairs: Result<usize, Refusal>,
) -> Result<(), String> {
  let call = || format!("reading a file with {name}");
  let read = library::read(&file::write(chart), &mut [0; ROOM]);
  agree(call, "scope", Answer::of(file), "library", read)?;
  let call = || format!("all pairs of {name}");
  let mut bytes = lent::bytes(room(chart.len()));
  let listed = library::all_pairs(&numbers(chart), &mut bytes);
  agree(call, "scope", Answer::of(pairs), "library", listed)
}

/// "All pairs: (1,0), (2,0). Sweep, as in the Rust: only (0,1), 7 steps, not complete. In the new mode: (0,1), (0,2), 8
/// steps, complete."
fn upright_gap() -> Result<(), String> {
  let chart = vec![[3, 0, 0, 0, 10], [3, -5, 3, 5, 3], [3, -5, 6, 5, 6]];
  let (all, swept): (Vec<Pair>, Vec<Pair>) = (vec![(1, 0), (2, 0)], vec![(0, 1)]);
  let call = || "the upright gap".to_string();
  let original = Original::new(&chart);
  same(call, &original.naive(), "scope", &all)?;
  same(call, &original.sweep(), "scope", &swept)?;
  same(call, original.run().steps.len(), "scope", 7)?;

  let lent = lent::bytes(room(chart.len()));
  let mut bytes = lent.clone();
  let answer = library::all_pairs(&numbers(&chart), &mut bytes);
  let expected = (Answer::of(Ok(2)), lent::with_pairs(&lent, &all));
  agree(call, "scope", expected, "library", (answer, bytes))?;

  let mut bytes = lent.clone();
  let answer = library::sweep(&numbers(&chart), u32::MAX, &mut bytes);
  let expected = Swept {
    pairs: 1,
    steps: 7,
    ended: true,
    complete: false,
    last: Some(Point::whole(5, 6)),
    examined: 8,
    ..Swept::default()
  };
  let due = (expected, lent::with_pairs(&lent, &swept));
  agree(call, "scope", due, "library", (answer, bytes))?;

  let mut bytes = lent.clone();
  let answer = library::full_sweep(&numbers(&chart), u32::MAX, &mut bytes);
  let expected = Swept {
    pairs: 2,
    steps: 8,
    complete: true,
    examined: 0,
    ..expected
  };
  let due = (expected, lent::with_pairs(&lent, &[(0, 1), (0, 2)]));
  agree(call, "scope", due, "library", (answer, bytes))
}
