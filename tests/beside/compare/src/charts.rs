//! The charts that are compared: every tiny one, random ones of several tempers from a seed, and
//! those that are kept because something once depended on them.

use crate::answers::{Chart, LIMIT, MOST_PIECES, Piece, has_length};

/// splitmix64: the same numbers everywhere from one seed.
pub struct Random(u64);

impl Random {
  /// The numbers of the `index`-th chart of a seed.
  pub fn new(seed: u64, index: usize) -> Random {
    let mut random = Random(seed);
    random.0 = random.next() ^ index as u64;
    random
  }

  fn next(&mut self) -> u64 {
    self.0 = self.0.wrapping_add(0x9e37_79b9_7f4a_7c15);
    let mut z = self.0;
    z = (z ^ (z >> 30)).wrapping_mul(0xbf58_476d_1ce4_e5b9);
    z = (z ^ (z >> 27)).wrapping_mul(0x94d0_49bb_1331_11eb);
    z ^ (z >> 31)
  }

  /// From `low` to `high`, both included.
  pub fn between(&mut self, low: i32, high: i32) -> i32 {
    low + (self.next() % (high - low + 1) as u64) as i32
  }

  pub fn pick<T: Copy>(&mut self, from: &[T]) -> T {
    from[self.next() as usize % from.len()]
  }

  fn kind(&mut self) -> i32 {
    self.pick(&[3, 3, 3, 0, 1, 2])
  }
}

/// How many pieces have their ends in a grid of `side` by `side` points, all kinds.
const fn grid_pieces(side: usize) -> usize {
  let points = side * side;
  points * (points - 1) * 4
}

const TINY_PIECES: usize = grid_pieces(3);
pub const TINY_CHARTS: usize = 1 + TINY_PIECES + TINY_PIECES * TINY_PIECES;

/// Every chart of up to two pieces with coordinates 0 to 2.
pub fn tiny(index: usize) -> Chart {
  if index == 0 {
    return vec![];
  }
  let index = index - 1;
  if index < TINY_PIECES {
    return vec![grid_piece(3, index)];
  }
  pair_on_grid(3, index - TINY_PIECES)
}

pub const GRID_PAIRS: usize = grid_pieces(4) * grid_pieces(4);

/// Every two pieces with coordinates 0 to 3.
pub fn grid_pair(index: usize) -> Chart {
  pair_on_grid(4, index)
}

fn pair_on_grid(side: usize, index: usize) -> Chart {
  let pieces = grid_pieces(side);
  vec![
    grid_piece(side, index / pieces),
    grid_piece(side, index % pieces),
  ]
}

fn grid_piece(side: usize, index: usize) -> Piece {
  let (kind, ends) = (index % 4, index / 4);
  let others = side * side - 1;
  let (first, skipped) = (ends / others, ends % others);
  let second = skipped + usize::from(skipped >= first);
  [
    kind,
    first / side,
    first % side,
    second / side,
    second % side,
  ]
  .map(|v| v as i32)
}

/// Coordinates -3 to 3, up to 12 pieces.
pub fn degenerate(random: &mut Random) -> Chart {
  let n = random.between(1, 12) as usize;
  match random.between(0, 4) {
    0 => many(n, || {
      piece(random, |r| [r.between(-3, 3), r.between(-3, 3)])
    }),
    1 => shared_ends(random, n),
    2 => on_few_lines(random, n),
    3 => through_one_point(random, n),
    _ => with_uprights(random, n),
  }
}

/// Every end is one of a few points.
fn shared_ends(random: &mut Random, n: usize) -> Chart {
  let points: Vec<[i32; 2]> = (0..5).map(|i| [i - 2, random.between(-3, 3)]).collect();
  many(n, || piece(random, |r| r.pick(&points)))
}

/// Level, upright and slanting pieces of a few lines: overlaps and shared ends.
fn on_few_lines(random: &mut Random, n: usize) -> Chart {
  many(n, || {
    let (from, to) = (random.between(-3, 3), random.between(-3, 3));
    let across = random.between(-1, 1);
    match random.between(0, 3) {
      0 => [random.kind(), from, across, to, across],
      1 => [random.kind(), across, from, across, to],
      2 => [random.kind(), from, from, to, to],
      _ => [random.kind(), from, -from, to, -to],
    }
  })
}

fn through_one_point(random: &mut Random, n: usize) -> Chart {
  many(n, || {
    let (x, y) = (random.between(-3, 3), random.between(-3, 3));
    let far = random.between(0, 1);
    [random.kind(), x, y, -x * far, -y * far]
  })
}

fn with_uprights(random: &mut Random, n: usize) -> Chart {
  many(n, || {
    let [kind, x1, y1, x2, y2] = piece(random, |r| [r.between(-3, 3), r.between(-3, 3)]);
    [kind, x1, y1, random.pick(&[x1, x1, x2]), y2]
  })
}

/// Many upright pieces, with all marks, up to 12 pieces.
pub fn uprights(random: &mut Random) -> Chart {
  let n = random.between(2, 12) as usize;
  match random.between(0, 4) {
    0 => stacks(random, n),
    1 => through_crossings(random, n),
    2 => at_shared_ends(random, n),
    3 => at_first_and_last(random, n),
    _ => with_crossings_above(random, n),
  }
}

fn upright(random: &mut Random, x: i32) -> Piece {
  [
    random.between(0, 3),
    x,
    random.between(-4, 4),
    x,
    random.between(-4, 4),
  ]
}

fn sloped(random: &mut Random) -> Piece {
  let (x1, x2) = (random.between(-4, -1), random.between(1, 4));
  [
    random.between(0, 3),
    x1,
    random.between(-4, 4),
    x2,
    random.between(-4, 4),
  ]
}

/// Uprights on one, two or three lines, and a few pieces across them.
fn stacks(random: &mut Random, n: usize) -> Chart {
  let lines = random.between(0, 2);
  many(n, || match random.between(0, 3) {
    0 => sloped(random),
    _ => {
      let x = random.between(-lines, lines);
      upright(random, x)
    }
  })
}

/// Pairs of pieces that cross over 0, each with an upright through the crossing, up to it or from it.
fn through_crossings(random: &mut Random, n: usize) -> Chart {
  let mut chart = Chart::new();
  while chart.len() + 3 <= n.max(3) {
    let (y, reach, rise, fall) = (
      random.between(-2, 2),
      random.between(1, 3),
      random.between(0, 3),
      random.between(-3, -1),
    );
    let from = random.pick(&[y, y, -4]);
    let to = random.pick(&[y, 4, 4]);
    let kinds = [0; 3].map(|_| random.between(0, 3));
    chart.push([kinds[0], -reach, y - rise, reach, y + rise]);
    chart.push([kinds[1], -reach, y - fall, reach, y + fall]);
    if from != to {
      chart.push([kinds[2], 0, from, 0, to]);
    }
  }
  chart
}

/// Uprights and others between a few points.
fn at_shared_ends(random: &mut Random, n: usize) -> Chart {
  let points: Vec<[i32; 2]> = (0..6).map(|i| [i / 2 - 1, random.between(-3, 3)]).collect();
  many(n, || {
    let ([x1, y1], [x2, y2]) = (random.pick(&points), random.pick(&points));
    match random.between(0, 2) {
      0 => [random.between(0, 3), x1, y1, x2, y2],
      _ => [random.between(0, 3), x1, y1, x1, random.pick(&points)[1]],
    }
  })
}

/// Uprights at the first and the last x of all.
fn at_first_and_last(random: &mut Random, n: usize) -> Chart {
  many(n, || match random.between(0, 2) {
    0 => {
      let x = random.pick(&[-3, 3]);
      upright(random, x)
    }
    1 => [
      random.between(0, 3),
      -3,
      random.between(-4, 4),
      3,
      random.between(-4, 4),
    ],
    _ => [
      random.between(0, 3),
      random.pick(&[-3, 0]),
      random.between(-4, 4),
      random.pick(&[1, 3]),
      random.between(-4, 4),
    ],
  })
}

/// Several crossings over 0, and uprights there: some go through one, some pass between two.
fn with_crossings_above(random: &mut Random, n: usize) -> Chart {
  many(n, || match random.between(0, 2) {
    0 => upright(random, 0),
    _ => {
      let (y, reach, rise) = (
        random.between(-2, 2),
        random.between(1, 3),
        random.between(-3, 3),
      );
      [random.between(0, 3), -reach, y - rise, reach, y + rise]
    }
  })
}

/// Any coordinates, any count up to the limit; ends at most `reach` apart.
pub fn scattered(random: &mut Random, n: usize, reach: i32) -> Chart {
  many(n, || {
    let (x, y) = (random.between(-LIMIT, LIMIT), random.between(-LIMIT, LIMIT));
    let mut near = |v: i32| random.between((v - reach).max(-LIMIT), (v + reach).min(LIMIT));
    let (x2, y2) = (near(x), near(y));
    [random.kind(), x, y, x2, y2]
  })
}

/// The Rust's sweep takes seconds where more than some hundreds of pairs cross, so the more pieces the shorter they are.
pub fn any_size(random: &mut Random) -> Chart {
  let n = random.between(1, MOST_PIECES as i32);
  let reach = random.pick(&[20, 3_000, 12_000]).min(1_000_000 / n);
  scattered(random, n as usize, reach)
}

pub fn middle_size(random: &mut Random) -> Chart {
  let reach = random.pick(&[20, 1_000, 3_000, 6_000]);
  scattered(random, 64, reach)
}

pub fn full_size(random: &mut Random) -> Chart {
  let reach = random.pick(&[20, 400, 1_000, 2_000]);
  scattered(random, MOST_PIECES, reach)
}

/// Charts of the most pieces with far more meetings than the Rust sweeps in good time, the first of them with all that
/// there may be at points of their own.
pub fn fullest() -> Vec<Chart> {
  let numbers = || 0..MOST_PIECES as i32;
  let every_two_cross =
    numbers().map(|i| [3, -LIMIT, 8_200 + 120 * i, LIMIT, 32_700 - i * (i + 1) / 2]);
  let from_one_point = numbers().map(|i| [i % 4, -LIMIT, 0, LIMIT, 150 * i - 15_000]);
  let through_one_point = numbers().map(|i| [3, -200, i - 100, 200, 100 - i]);
  let on_one_line = numbers().map(|i| [i % 4, 7 * i, 3 * i, 7 * i + 28, 3 * i + 12]);
  let levels_and_uprights = numbers().map(|i| match i % 2 {
    0 => [3, -300, i, 300, i],
    _ => [3, i, -300, i, 300],
  });
  vec![
    every_two_cross.collect(),
    from_one_point.collect(),
    through_one_point.collect(),
    on_one_line.collect(),
    levels_and_uprights.collect(),
    scattered(&mut Random::new(5, 0), MOST_PIECES, 12_000),
  ]
}

/// Coordinates at and near the limits and zero, up to 8 pieces.
pub fn extreme(random: &mut Random) -> Chart {
  const NEAR: [i32; 9] = [
    0,
    1,
    2,
    11,
    16_384,
    LIMIT - 27,
    LIMIT - 11,
    LIMIT - 1,
    LIMIT,
  ];
  let n = random.between(2, 8) as usize;
  let value = |random: &mut Random| random.pick(&NEAR) * random.pick(&[-1, 1]);
  many(n, || piece(random, |r| [value(r), value(r)]))
}

/// Long pieces that all pass close by one point: crossings that differ in far digits.
pub fn near_ties(random: &mut Random) -> Chart {
  let n = random.between(2, 8) as usize;
  let (x, y) = (random.between(-9_000, 9_000), random.between(-9_000, 9_000));
  many(n, || {
    let (dx, dy) = (random.between(-9_000, 9_000), random.between(-9_000, 9_000));
    let (times, off) = (random.between(1, 2), random.between(-1, 1));
    [
      random.kind(),
      x + dx,
      y + dy,
      x - times * dx + off,
      y - times * dy,
    ]
  })
}

/// Two pieces that cross at an x as near to half way between two binary64 values as its D allows: X 2^(53 - digits)
/// is an odd multiple of D and 1 more or less.
pub fn near_halves(random: &mut Random) -> Chart {
  crossing_at(random, |d, digits, side| {
    let half = inverse(2, d)?;
    Some((0..52 - digits).fold((d + side) / 2 % d, |v, _| v * half % d))
  })
}

/// Two pieces that cross at an x or a y as near to a whole number as its D allows, on either side of it and of zero.
pub fn near_wholes(random: &mut Random) -> Chart {
  let chart = crossing_at(random, |d, _, side| Some(side.rem_euclid(d)));
  let turned = |[kind, x1, y1, x2, y2]: Piece| [kind, y1, x1, y2, x2];
  match random.pick(&[false, true]) {
    true => chart.into_iter().map(turned).collect(),
    false => chart,
  }
}

/// Two pieces that cross at X over D, with `rest` of D, of digits and of a side as what X leaves over D.
fn crossing_at(random: &mut Random, rest: fn(i128, i32, i128) -> Option<i128>) -> Chart {
  loop {
    let digits = random.between(0, 14);
    let x = random.between(1 << digits, (2 << digits) - 1);
    let y = random.between(-9_000, 9_000);
    let mut part = |most: i32| random.between(1, most);
    let (r, s) = (part(1 << digits), part(20_000));
    let (t, u) = (part(16_000), -part(20_000));
    let (side, mirror) = (random.pick(&[-1, 1]), random.pick(&[-1, 1]));
    let six = [x, y, r, s, t, u].map(i128::from);
    let d = i128::from(s * t - r * u);
    let begins = |rest| beginning(six, digits, rest);
    if let Some([x1, y1]) = rest(d, digits, side).and_then(begins) {
      let piece = |x, y, run, rise| [3, mirror * x, y, mirror * (x + run), y + rise];
      return vec![piece(x, y, r, s), piece(x1, y1, t, u)];
    }
  }
}

/// Where a piece begins that goes t to the right and u up and crosses the piece from x, y, which goes r and s,
/// at X over D with X leaving `rest`; none where there is none.
fn beginning([x, y, r, s, t, u]: [i128; 6], digits: i32, rest: i128) -> Option<[i32; 2]> {
  let d = s * t - r * u;
  // X is `rest` modulo D, and modulo r what the first piece has it be
  let own = t * (r * y - x * s);
  let whole = (-own - rest) * inverse(d, r)?;
  let whole = (whole - x).rem_euclid(r) + x;
  let moment = (whole * d + rest + own) / r;
  // the second piece begins at x1, y1 with y1 t - x1 u = moment, at most t to the left of X
  let x1 = moment * inverse(-u, t)?;
  let x1 = whole - (whole - x1).rem_euclid(t);
  let y1 = (x1 * u + moment) / t;
  let fits = |v: i128| v.abs() <= LIMIT.into();
  let on_chart = [x1, y1, x1 + t, y1 + u, x + r, y + s].into_iter().all(fits);
  (on_chart && whole < 2 << digits).then_some([x1 as i32, y1 as i32])
}

/// The number whose product with v is 1 modulo m, if there is one.
fn inverse(v: i128, m: i128) -> Option<i128> {
  let (mut a, mut b, mut p, mut q) = (v.rem_euclid(m), m, 1, 0);
  while b != 0 {
    (a, b, p, q) = (b, a % b, q, p - a / b * q);
  }
  (a == 1).then_some(p.rem_euclid(m))
}

fn piece(random: &mut Random, mut end: impl FnMut(&mut Random) -> [i32; 2]) -> Piece {
  let ([x1, y1], [x2, y2]) = (end(random), end(random));
  [random.kind(), x1, y1, x2, y2]
}

/// n pieces that have length.
fn many(n: usize, mut next: impl FnMut() -> Piece) -> Chart {
  let mut chart = Chart::new();
  while chart.len() < n {
    let piece = next();
    if has_length(&piece) {
      chart.push(piece);
    }
  }
  chart
}
