//! Several charts in one call: each result and each part is that of the single call on that chart alone, whatever stands
//! beside it; what lies between and beyond the parts and the results is compared too; and the whole call's refusals.

use crate::answers::{Answer, MOST_PIECES, Swept};
use crate::case::{Case, agree};
use crate::lent::{self, SPARE, room};
use crate::library::{self, RESULT_NUMBERS};
use crate::refusals::{damaged, numbers};

const MOST_CHARTS: usize = 16;

pub fn compare(case: &Case) -> Result<(), String> {
  let charts = charts(case);
  let batches: &[(usize, usize)] = if case.is_small() {
    &[
      (0, 0),
      (1, SPARE),
      (MOST_CHARTS - 1, SPARE),
      (MOST_CHARTS, 0),
    ]
  } else {
    &[(3, SPARE)]
  };
  for &(count, spare) in batches {
    compare_batch(&charts[..count], spare)?;
  }
  compare_refusals(&charts[..2])?;
  let many = Request::new(&charts[..MOST_CHARTS + 1]);
  compare_refusal(&many, 10)?;
  compare_refusal(&many.short_of_all(), 10)
}

/// The chart and parts of it, with one that is refused after each.
fn charts(case: &Case) -> Vec<Vec<i32>> {
  let sound = numbers(&case.chart);
  let half = sound[..sound.len() / 10 * 5].to_vec();
  let refused = damaged(&case.chart);
  let good = [sound, vec![], half];
  let turns = (0..=MOST_CHARTS).map(|i| match i % 2 {
    0 => good[i / 2 % good.len()].clone(),
    _ => refused[i / 2 % refused.len()].0.clone(),
  });
  turns.collect()
}

/// What a call is given: the list, the lengths, and how many bytes and numbers are lent.
struct Request {
  list: Vec<i32>,
  lengths: Vec<usize>,
  lent: usize,
  numbers: usize,
}

impl Request {
  fn new(charts: &[Vec<i32>]) -> Request {
    Request {
      list: charts.concat(),
      lengths: charts.iter().map(Vec::len).collect(),
      lent: charts.iter().map(|chart| part(chart.len())).sum(),
      numbers: RESULT_NUMBERS * charts.len(),
    }
  }

  /// A list too long, no bytes and no numbers.
  fn short_of_all(&self) -> Request {
    Request {
      list: [&self.list[..], &[3]].concat(),
      lengths: self.lengths.clone(),
      lent: 0,
      numbers: 0,
    }
  }

  fn call(&self) -> (Answer, Vec<u8>, Vec<u64>) {
    let (mut bytes, mut told) = (lent::bytes(self.lent), kept(self.numbers));
    let answer = library::sweep_batch(&self.list, &self.lengths, &mut bytes, &mut told);
    (answer, bytes, told)
  }

  fn text(&self) -> String {
    let Request {
      list,
      lengths,
      lent,
      numbers,
    } = self;
    format!("batch of {list:?} by {lengths:?} into {lent} bytes and {numbers} numbers")
  }
}

/// The bytes that a list of so many numbers has as its part.
fn part(length: usize) -> usize {
  if length % 5 == 0 && length / 5 <= MOST_PIECES {
    room(length / 5)
  } else {
    0
  }
}

/// Numbers that no result has.
fn kept(numbers: usize) -> Vec<u64> {
  (0..numbers as u64).map(|i| 0xA5A5 << 48 | i).collect()
}

/// One by one, through the library that is linked too.
fn one_by_one(charts: &[Vec<i32>], request: &Request) -> (Answer, Vec<u8>, Vec<u64>) {
  let (mut bytes, mut told) = (lent::bytes(request.lent), kept(request.numbers));
  let mut rest = &mut bytes[..];
  for (chart, result) in charts.iter().zip(told.as_chunks_mut().0) {
    let (own, behind) = rest.split_at_mut(part(chart.len()));
    *result = in_numbers(library::single(chart, own));
    rest = behind;
  }
  (Answer::of(Ok(charts.len())), bytes, told)
}

/// "number, place, pairs, steps, ended, complete, then whether a point was visited, its x, y and d"
fn in_numbers(swept: Swept) -> [u64; RESULT_NUMBERS] {
  let point = swept
    .last
    .map(|p| [1, p.x as i64 as u64, p.y as i64 as u64, p.d as u64]);
  let [visited, x, y, d] = point.unwrap_or_default();
  let (pairs, steps) = (swept.pairs as u64, swept.steps.into());
  let (ended, complete) = (swept.ended.into(), swept.complete.into());
  [
    swept.number.into(),
    swept.place as u64,
    pairs,
    steps,
    ended,
    complete,
    visited,
    x,
    y,
    d,
  ]
}

/// With just enough lent, or with some to spare.
fn compare_batch(charts: &[Vec<i32>], spare: usize) -> Result<(), String> {
  let mut request = Request::new(charts);
  request.lent += spare;
  request.numbers += spare;
  let alone = one_by_one(charts, &request);
  agree(
    || request.text(),
    "one by one",
    alone,
    "library",
    request.call(),
  )
}

fn compare_refusals(charts: &[Vec<i32>]) -> Result<(), String> {
  let right = || Request::new(charts);
  let length = right().list.len();
  let with = |lengths: Vec<usize>| Request {
    lengths,
    numbers: 0,
    ..right()
  };
  let mut wrong = vec![(right().short_of_all(), 11)];
  for (one, other) in [
    (usize::MAX, length + 1),
    (1 << 63, (1 << 63) + length),
    (length, 5),
  ] {
    wrong.push((with(vec![one, other]), 11)); // all but the last wrap round to the length
  }
  if let Some((last, before)) = right().lengths.split_last() {
    wrong.push((with([before, &[last + 1]].concat()), 11));
    wrong.push((
      Request {
        numbers: right().numbers - 1,
        ..right()
      },
      8,
    ));
    wrong.push((
      Request {
        numbers: 0,
        ..right()
      },
      8,
    ));
  }
  if let Some(lent) = right().lent.checked_sub(1) {
    wrong.push((Request { lent, ..right() }, 11));
    wrong.push((
      Request {
        lent,
        numbers: 0,
        ..right()
      },
      11,
    ));
  }
  wrong
    .iter()
    .try_for_each(|(request, number)| compare_refusal(request, *number))
}

/// "A refusal .. writes nothing into lent memory."
fn compare_refusal(request: &Request, number: u8) -> Result<(), String> {
  let due = (
    Answer::of(Err((number, 0))),
    lent::bytes(request.lent),
    kept(request.numbers),
  );
  agree(|| request.text(), "scope", due, "library", request.call())
}
