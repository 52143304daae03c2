//! Writing a chart. The Rust has no file: the library is held to the comparison's own writer, and to reading again.

use std::io::{self, Write};

use crate::answers::{Answer, Chart, MOST_PIECES};
use crate::case::{Case, agree};
use crate::lent::{self, SPARE};
use crate::refusals::{damaged, numbers, verdict};
use crate::{file, library};

/// "a lent buffer of at least 2,602 bytes"
pub const ROOM: usize = 2 + 13 * MOST_PIECES;

/// The chart's file, into room enough and into less, and read again; and the refusals of its damaged lists.
pub fn compare(case: &Case) -> Result<(), String> {
  let list = numbers(&case.chart);
  for lent in [0, ROOM - 1, ROOM, ROOM + SPARE] {
    compare_call(&list, lent)?;
  }
  for (list, _) in damaged(&case.chart) {
    for lent in [0, ROOM] {
      compare_call(&list, lent)?;
    }
  }
  let mut again = vec![0; file::ROOM];
  let count = library::read(&written(&list), &mut again).count;
  let call = || format!("reading what was written of {list:?}");
  agree(call, "scope", &list[..], "library", &again[..5 * count])
}

/// "writing what was read gives the same bytes": the numbers that were read of the bytes.
pub fn compare_again(bytes: &[u8], read: &[i32]) -> Result<(), String> {
  let call = || format!("writing what was read of {bytes:02x?}");
  agree(call, "scope", bytes, "library", &written(read))
}

/// The answer, and every lent byte.
fn compare_call(list: &[i32], lent: usize) -> Result<(), String> {
  let mut bytes = lent::bytes(lent);
  let mut content = bytes.clone();
  let outcome = match verdict(list) {
    Ok(_) if lent < ROOM => Err((8, 0)),
    Ok(_) => Ok(file::write(&list.as_chunks().0.to_vec())),
    Err(refusal) => Err(refusal),
  };
  if let Ok(file) = &outcome {
    content[..file.len()].copy_from_slice(file);
  }
  let expected = (Answer::of(outcome.map(|file| file.len())), content);
  let answer = library::write(list, &mut bytes);
  let call = || format!("writing {list:?} into {lent} bytes");
  agree(call, "model", expected, "library", (answer, bytes))
}

/// The bytes up to the count that the library answers.
fn written(list: &[i32]) -> Vec<u8> {
  let mut bytes = lent::bytes(ROOM);
  let count = library::write(list, &mut bytes).count;
  bytes.truncate(count);
  bytes
}

/// A line for each chart: the file that the library writes, which must be the comparison's own, in hexadecimal digits, and
/// the chart's numbers.
pub fn print(charts: impl Iterator<Item = Chart>) -> io::Result<()> {
  let mut out = io::BufWriter::new(io::stdout().lock());
  for chart in charts {
    let list = numbers(&chart);
    let file = written(&list);
    if file != file::write(&chart) {
      return Err(io::Error::other(format!(
        "the library writes {list:?} as {file:02x?}"
      )));
    }
    let digits: String = file.iter().map(|b| format!("{b:02x}")).collect();
    let numbers: String = list.iter().map(|v| format!(" {v}")).collect();
    writeln!(out, "{digits}{numbers}")?;
  }
  out.flush()
}
