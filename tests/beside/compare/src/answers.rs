//! What a chart is and what is answered about it, in one form for the Rust, the model and the library.

use std::cmp::Ordering;

/// kind, x1, y1, x2, y2
pub type Piece = [i32; 5];
pub type Chart = Vec<Piece>;
pub type Pair = (usize, usize);

pub const LIMIT: i32 = 32_767;
pub const MOST_PIECES: usize = 200;

/// (x / d, y / d), d positive, with no common divisor.
#[derive(Clone, Copy, PartialEq, Eq, Debug)]
pub struct Point {
  pub x: i128,
  pub y: i128,
  pub d: i128,
}

impl Point {
  pub fn new(x: i128, y: i128, d: i128) -> Point {
    let g = gcd(gcd(x.abs(), y.abs()), d.abs()) * d.signum();
    Point {
      x: x / g,
      y: y / g,
      d: d / g,
    }
  }

  pub fn whole(x: i128, y: i128) -> Point {
    Point { x, y, d: 1 }
  }
}

impl Ord for Point {
  fn cmp(&self, other: &Point) -> Ordering {
    let by_x = (self.x * other.d).cmp(&(other.x * self.d));
    by_x.then((self.y * other.d).cmp(&(other.y * self.d)))
  }
}

impl PartialOrd for Point {
  fn partial_cmp(&self, other: &Point) -> Option<Ordering> {
    Some(self.cmp(other))
  }
}

fn gcd(a: i128, b: i128) -> i128 {
  if b == 0 { a } else { gcd(b, a % b) }
}

#[derive(Clone, Copy, PartialEq, Eq, Debug)]
pub struct End {
  pub x: i64,
  pub y: i64,
  pub included: bool,
}

#[derive(Clone, Copy, PartialEq, Eq, Debug)]
pub enum Meeting {
  Nothing,
  Crossing,
  Overlap(End, End),
}

/// A side of a line. Of a half-line against a piece: the side on which the piece goes on from an
/// end that lies on the half-line, or CoLinear where it goes on on both.
#[derive(Clone, Copy, PartialEq, Eq, Debug)]
pub enum Side {
  CounterClockWise,
  ClockWise,
  CoLinear,
}

/// The sweep after a step.
#[derive(Clone, PartialEq, Eq, Debug)]
pub struct Step {
  pub visited: Point,
  pub active: Vec<usize>,
  pub waiting: Vec<(Pair, Point)>,
  pub listed: usize,
  pub examined: Vec<Pair>,
}

#[derive(Clone, PartialEq, Eq, Debug)]
pub struct Run {
  pub list: Vec<Pair>,
  pub steps: Vec<Step>,
}

/// What a call that fills lent memory returns: a number of the scope's table, its place, and the
/// count of pieces or pairs.
#[repr(C)]
#[derive(Clone, Copy, PartialEq, Eq, Debug)]
pub struct Answer {
  pub number: u8,
  pub place: usize,
  pub count: usize,
}

/// A refusal's number and place.
pub type Refusal = (u8, usize);

impl Answer {
  pub fn of(outcome: Result<usize, Refusal>) -> Answer {
    let (number, place) = outcome.err().unwrap_or_default();
    Answer {
      number,
      place,
      count: outcome.unwrap_or_default(),
    }
  }
}

/// What a call that sweeps returns: pairs listed, steps done, whether the queue is empty, whether no
/// piece is upright, the last point, and how many adjacent pairs were examined.
#[derive(Clone, Copy, PartialEq, Eq, Debug, Default)]
pub struct Swept {
  pub number: u8,
  pub place: usize,
  pub pairs: usize,
  pub steps: u32,
  pub ended: bool,
  pub complete: bool,
  pub last: Option<Point>,
  pub examined: u64,
}

impl Swept {
  pub fn refused((number, place): Refusal) -> Swept {
    Swept {
      number,
      place,
      ..Swept::default()
    }
  }
}

pub fn is_upright(piece: &Piece) -> bool {
  piece[1] == piece[3]
}

pub fn has_length(piece: &Piece) -> bool {
  piece[1..3] != piece[3..5]
}
