//! The scope's rules once more, in plain whole numbers and as directly as they are written there.
//! It stands beside the Rust so that the comparison can fail before a call of the library exists.

use std::cmp::Ordering;

use crate::answers::{Chart, End, Meeting, Pair, Piece, Point, Side};

/// A piece by its min and max.
pub struct Line {
  pub min: End,
  pub max: End,
}

impl Line {
  pub fn of(piece: &Piece) -> Line {
    let [kind, x1, y1, x2, y2] = piece.map(i64::from);
    let end = |x, y, mark| End {
      x,
      y,
      included: kind & mark != 0,
    };
    let (first, second) = (end(x1, y1, 1), end(x2, y2, 2));
    if (x1, y1) < (x2, y2) {
      Line {
        min: first,
        max: second,
      }
    } else {
      Line {
        min: second,
        max: first,
      }
    }
  }

  /// With its ends added.
  fn closed(&self) -> Line {
    let [min, max] = [self.min, self.max].map(|e| End {
      included: true,
      ..e
    });
    Line { min, max }
  }

  fn dx(&self) -> i128 {
    i128::from(self.max.x - self.min.x)
  }

  fn dy(&self) -> i128 {
    i128::from(self.max.y - self.min.y)
  }

  /// Zero exactly for the points of the piece's line; its sign is the side.
  fn side(&self, p: &Point) -> i128 {
    let min = at(&self.min);
    self.dx() * (p.y - min.y * p.d) - self.dy() * (p.x - min.x * p.d)
  }

  pub fn contains(&self, p: &Point) -> bool {
    let after = |e: &End| *p > at(e) || e.included && *p == at(e);
    let before = |e: &End| *p < at(e) || e.included && *p == at(e);
    self.side(p) == 0 && after(&self.min) && before(&self.max)
  }

  /// The height at p's x, as a fraction: the smaller y of an upright piece.
  fn height(&self, p: &Point) -> (i128, i128) {
    let min = at(&self.min);
    if self.dx() == 0 {
      return (min.y, 1);
    }
    let above = min.y * self.dx() * p.d + self.dy() * (p.x - min.x * p.d);
    (above, self.dx() * p.d)
  }

  /// "sorted by height at p's x, then slope": an upright piece comes after sloped ones.
  pub fn cmp_at(&self, other: &Line, p: &Point) -> Ordering {
    let by_height = cmp_fractions(self.height(p), other.height(p));
    by_height.then_with(|| match (self.dx(), other.dx()) {
      (0, 0) => Ordering::Equal,
      (0, _) => Ordering::Greater,
      (_, 0) => Ordering::Less,
      (dx, other_dx) => cmp_fractions((self.dy(), dx), (other.dy(), other_dx)),
    })
  }
}

pub fn at(end: &End) -> Point {
  Point::whole(end.x.into(), end.y.into())
}

fn cmp_fractions(a: (i128, i128), b: (i128, i128)) -> Ordering {
  (a.0 * b.1).cmp(&(b.0 * a.1))
}

/// The one common point of two lines, or none.
pub fn common(a: &Line, b: &Line) -> Option<Point> {
  let turn = a.dx() * b.dy() - a.dy() * b.dx();
  if turn == 0 {
    return None;
  }
  let (a_min, b_min) = (at(&a.min), at(&b.min));
  let along = (b_min.x - a_min.x) * b.dy() - (b_min.y - a_min.y) * b.dx();
  let x = a_min.x * turn + along * a.dx();
  let y = a_min.y * turn + along * a.dy();
  Some(Point::new(x, y, turn))
}

pub fn meeting_of(a: &Line, b: &Line) -> Meeting {
  if let Some(p) = common(a, b) {
    let belongs = a.contains(&p) && b.contains(&p);
    return if belongs {
      Meeting::Crossing
    } else {
      Meeting::Nothing
    };
  }
  if a.side(&at(&b.min)) != 0 {
    return Meeting::Nothing;
  }
  let (from, to) = (rightmost(a.min, b.min), leftmost(a.max, b.max));
  let one_point = at(&from) == at(&to) && from.included && to.included;
  if at(&from) < at(&to) || one_point {
    Meeting::Overlap(from, to)
  } else {
    Meeting::Nothing
  }
}

/// Where two pieces meet, by how many points they share with their ends added: one, or a stretch from
/// the first to the last, which are ends.
pub fn place_of(a: &Line, b: &Line) -> Vec<Point> {
  if meeting_of(a, b) == Meeting::Nothing {
    return vec![];
  }
  let (a, b) = (a.closed(), b.closed());
  let ends = [a.min, a.max, b.min, b.max].map(|e| at(&e));
  let all = common(&a, &b).map_or(ends.to_vec(), |p| vec![p]);
  let shared = |p: &Point| a.contains(p) && b.contains(p);
  let mut points: Vec<Point> = all.into_iter().filter(shared).collect();
  points.sort();
  points.dedup();
  match points[..] {
    [first, .., last] => vec![first, last],
    _ => points,
  }
}

/// "of equal points, Exclusive wins"
fn rightmost(a: End, b: End) -> End {
  match at(&a).cmp(&at(&b)) {
    Ordering::Greater => a,
    Ordering::Less => b,
    Ordering::Equal => weaker(a, b),
  }
}

fn leftmost(a: End, b: End) -> End {
  match at(&a).cmp(&at(&b)) {
    Ordering::Less => a,
    Ordering::Greater => b,
    Ordering::Equal => weaker(a, b),
  }
}

fn weaker(a: End, b: End) -> End {
  if a.included { b } else { a }
}

pub fn meeting(a: &Piece, b: &Piece) -> Meeting {
  meeting_of(&Line::of(a), &Line::of(b))
}

pub fn crossing(a: &Piece, b: &Piece) -> Option<Point> {
  common(&Line::of(a), &Line::of(b))
}

/// The half-line from a's min through its max meets b strictly beyond its origin.
pub fn half_line(a: &Piece, b: &Piece) -> Option<Side> {
  let (ray, line) = (Line::of(a), Line::of(b));
  let p = common(&ray, &line)?;
  let within = at(&line.min) <= p && p <= at(&line.max);
  if !within || p <= at(&ray.min) {
    return None;
  }
  let (min_side, max_side) = (ray.side(&at(&line.min)), ray.side(&at(&line.max)));
  Some(match (min_side.signum(), max_side.signum()) {
    (0, 1) | (1, 0) => Side::CounterClockWise,
    (0, -1) | (-1, 0) => Side::ClockWise,
    _ => Side::CoLinear,
  })
}

/// "For a from 0, for b below a: the pair (a, b), greater number first."
pub fn naive(chart: &Chart) -> Vec<Pair> {
  let meets = |a: usize, b: usize| meeting(&chart[a], &chart[b]) != Meeting::Nothing;
  let row = |a| (0..a).filter(move |b| meets(a, *b)).map(move |b| (a, b));
  (0..chart.len()).flat_map(row).collect()
}
