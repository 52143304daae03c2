//! The chart file. The Rust has none: the reader is held to the scope's rules, modelled here.

use crate::answers::{Answer, Chart, LIMIT, MOST_PIECES, Refusal, has_length};
use crate::case::{Case, agree};
use crate::charts::Random;
use crate::library;
use crate::refusals::numbers;
use crate::writing;

/// "under 1,000 numbers lent"
pub const ROOM: usize = 5 * MOST_PIECES;

pub fn compare(case: &Case) -> Result<(), String> {
  let sound = write(&case.chart);
  let call = || "reading the chart's own file".to_string();
  agree(call, "scope", Ok(case.chart.clone()), "model", read(&sound))?;
  for lent in [0, ROOM - 1, ROOM, ROOM + 3] {
    compare_reading(&sound, lent)?;
  }
  for (bytes, refusal) in damaged(&case.chart) {
    let call = || format!("reading the file {bytes:02x?}");
    agree(call, "scope", Err(refusal), "model", read(&bytes))?;
    compare_reading(&bytes, ROOM)?;
  }
  for bytes in scrambled(&sound) {
    compare_reading(&bytes, ROOM)?;
  }
  Ok(())
}

/// The answer, and every number of the lent list. What is read is written again; whether anything was read.
pub fn compare_reading(bytes: &[u8], lent: usize) -> Result<bool, String> {
  let mut list: Vec<i32> = (0..lent).map(|i| -7 - i as i32).collect();
  let mut expected = list.clone();
  let outcome = if lent < ROOM {
    Err((8, 0))
  } else {
    read(bytes)
  };
  if let Ok(chart) = &outcome {
    expected[..5 * chart.len()].copy_from_slice(&numbers(chart));
  }
  let numbers = outcome.as_ref().ok().map(|chart| 5 * chart.len());
  let expected = (Answer::of(outcome.map(|chart| chart.len())), expected);
  let answer = library::read(bytes, &mut list);
  let call = || format!("reading the file {bytes:02x?} into {lent} numbers");
  agree(call, "model", &expected, "library", &(answer, list))?;
  match numbers {
    Some(read) => writing::compare_again(bytes, &expected.1[..read]).map(|()| true),
    None => Ok(false),
  }
}

/// The file with a few bytes changed at random, the same ones every time.
fn scrambled(sound: &[u8]) -> impl Iterator<Item = Vec<u8>> {
  (0..8).map(|i| {
    let mut random = Random::new(sound.len() as u64, i);
    let mut bytes = sound.to_vec();
    for _ in 0..=i / 2 {
      let at = random.between(0, bytes.len() as i32 - 1) as usize;
      bytes[at] = random.pick(&[0, 1, 3, 4, 0x7f, 0x80, 0xfe, 0xff, bytes[at] ^ 1]);
    }
    bytes
  })
}

/// Damaged files, and the refusal that each gets.
pub fn damaged(chart: &Chart) -> Vec<(Vec<u8>, Refusal)> {
  let sound = write(chart);
  let mut faults = vec![
    ([&sound[..], &[0]].concat(), (7, sound.len())),
    (in_groups(MOST_PIECES as u32 + 1), (3, 0)),
    (vec![0x80], (1, 0)),
  ];
  let starts = starts(chart);
  for cut in (0..sound.len()).step_by(1 + sound.len() / MOST_CUTS) {
    let number = starts.partition_point(|start| *start <= cut) - 1;
    faults.push((sound[..cut].to_vec(), (1, starts[number])));
  }
  if chart.is_empty() {
    return faults;
  }
  let coordinate = starts[starts.len() - 1];
  let with_last = |groups: &[u8]| [&sound[..coordinate], groups].concat();
  for (groups, number) in FAULTY_COORDINATES {
    faults.push((with_last(groups), (number, coordinate)));
  }
  let kind = starts[starts.len() - 5];
  faults.push(([&sound[..kind], &[4]].concat(), (4, kind)));
  let ends = &sound[starts[starts.len() - 4]..starts[starts.len() - 2]];
  let no_length = [&sound[..starts[starts.len() - 2]], ends].concat();
  faults.push((no_length, (6, kind)));
  faults
}

/// A file is cut at each place, a long one at so many.
const MOST_CUTS: usize = 256;

/// Groups that are no coordinate, and why.
const FAULTY_COORDINATES: [(&[u8], u8); 7] = [
  (&[0x80], 1),
  (&[0x80, 0x80], 1),
  (&[0x80, 0x00], 2),
  (&[0xff, 0xff, 0x00], 2),
  (&[0xff, 0xff, 0x83], 2),
  (&[0xff, 0xff, 0x03], 5),
  (&[0x80, 0x80, 0x04], 5),
];

/// Where each number of the chart's file starts.
fn starts(chart: &Chart) -> Vec<usize> {
  let mut starts = vec![0];
  let mut at = in_groups(chart.len() as u32).len();
  for piece in chart {
    starts.push(at);
    at += 1;
    for v in &piece[1..] {
      starts.push(at);
      at += in_groups(stored(*v)).len();
    }
  }
  starts
}

/// "The count, then the five numbers of each piece, then the end."
pub fn write(chart: &Chart) -> Vec<u8> {
  let mut bytes = in_groups(chart.len() as u32);
  for piece in chart {
    bytes.push(piece[0] as u8);
    for v in &piece[1..] {
      bytes.extend(in_groups(stored(*v)));
    }
  }
  bytes
}

/// "2v when v is 0 or more, else -2v - 1"
fn stored(v: i32) -> u32 {
  let stored = if v >= 0 { 2 * v } else { -2 * v - 1 };
  stored as u32
}

/// "groups of seven bits, low group first, high bit set on every group but the last, in the fewest groups"
pub fn in_groups(mut v: u32) -> Vec<u8> {
  let mut bytes = Vec::new();
  while v >= 128 {
    bytes.push((v % 128) as u8 | 128);
    v /= 128;
  }
  bytes.push(v as u8);
  bytes
}

pub fn read(bytes: &[u8]) -> Result<Chart, Refusal> {
  let mut at = 0;
  let count = groups(bytes, &mut at)?;
  if count > MOST_PIECES as u32 {
    return Err((3, 0));
  }
  let mut chart = Chart::new();
  for _ in 0..count {
    let start = at;
    let mut piece = [kind(bytes, &mut at)?, 0, 0, 0, 0];
    for v in &mut piece[1..] {
      *v = coordinate(bytes, &mut at)?;
    }
    if !has_length(&piece) {
      return Err((6, start));
    }
    chart.push(piece);
  }
  if at < bytes.len() {
    return Err((7, at));
  }
  Ok(chart)
}

/// One plain byte.
fn kind(bytes: &[u8], at: &mut usize) -> Result<i32, Refusal> {
  let start = *at;
  let v = *bytes.get(start).ok_or((1, start))?;
  *at += 1;
  if v > 3 { Err((4, start)) } else { Ok(v.into()) }
}

fn groups(bytes: &[u8], at: &mut usize) -> Result<u32, Refusal> {
  let start = *at;
  let mut stored = 0;
  for group in 0.. {
    let byte = *bytes.get(*at).ok_or((1, start))?;
    *at += 1;
    stored += u32::from(byte % 128) << (7 * group);
    let last = byte < 128;
    if group == 2 && !last || group > 0 && byte == 0 {
      return Err((2, start));
    }
    if last {
      break;
    }
  }
  Ok(stored)
}

fn coordinate(bytes: &[u8], at: &mut usize) -> Result<i32, Refusal> {
  let start = *at;
  let stored = groups(bytes, at)?;
  let half = (stored / 2) as i32;
  let v = if stored % 2 == 0 { half } else { -half - 1 };
  if v.abs() > LIMIT {
    Err((5, start))
  } else {
    Ok(v)
  }
}
