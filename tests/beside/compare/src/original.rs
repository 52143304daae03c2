//! The published Rust's answers.

use std::cmp::Ordering;

use num::{BigRational, ToPrimitive};
use rgeometry::algorithms::intersection::{bentley_ottmann, naive, record, steps};
use rgeometry::data::{
  EndPoint, HalfLineSoS, IHalfLineLineSegmentSoS, ILineSegment, LineSegment, LineSegmentView,
  LineView, Point as Corner,
};
use rgeometry::{Intersects, Orientation, PolygonScalar};

use crate::answers::{Chart, End, Meeting, Pair, Piece, Point, Run, Side, Step};

/// A chart over both of the Rust's numbers: i64, and the exact ones that the sweep takes.
pub struct Original {
  whole: Vec<Edge<i64>>,
  exact: Vec<Edge<BigRational>>,
}

struct Edge<T> {
  number: usize,
  segment: LineSegment<T>,
}

impl<'a, T> From<&'a Edge<T>> for LineSegmentView<'a, T, 2> {
  fn from(edge: &'a Edge<T>) -> Self {
    edge.segment.as_ref()
  }
}

impl Original {
  pub fn new(chart: &Chart) -> Original {
    Original {
      whole: edges(chart, i64::from),
      exact: edges(chart, exact),
    }
  }

  pub fn meeting(&self, a: usize, b: usize) -> Meeting {
    meeting(&self.whole[a], &self.whole[b], |v| *v)
  }

  pub fn meeting_exact(&self, a: usize, b: usize) -> Meeting {
    let value = |v: &BigRational| v.to_integer().to_i64().unwrap();
    meeting(&self.exact[a], &self.exact[b], value)
  }

  /// The common point of the two pieces' lines.
  pub fn crossing(&self, a: usize, b: usize) -> Option<Point> {
    let line = LineView::from(&self.exact[a].segment);
    let other = LineView::from(&self.exact[b].segment);
    line.intersection_point(&other).as_ref().map(point)
  }

  /// The half-line from piece a's min through its max, against piece b.
  pub fn half_line(&self, a: usize, b: usize) -> Option<Side> {
    half_line(&self.whole[a], &self.whole[b])
  }

  pub fn half_line_exact(&self, a: usize, b: usize) -> Option<Side> {
    half_line(&self.exact[a], &self.exact[b])
  }

  pub fn naive(&self) -> Vec<Pair> {
    numbers(naive::segment_intersections::<_, i64>(&self.whole))
  }

  pub fn naive_exact(&self) -> Vec<Pair> {
    numbers(naive::segment_intersections::<_, BigRational>(&self.exact))
  }

  pub fn sweep(&self) -> Vec<Pair> {
    numbers(bentley_ottmann::segment_intersections(&self.exact))
  }

  /// The sweep by steps.rs, and its state after every step.
  pub fn run(&self) -> Run {
    let list = numbers(steps::segment_intersections(&self.exact));
    let steps = record::take().into_iter().map(step).collect();
    Run { list, steps }
  }
}

/// Which way the points p, q, r turn.
pub fn orient(p: [i32; 2], q: [i32; 2], r: [i32; 2]) -> Side {
  let [p, q, r] = [p, q, r].map(|c| Corner::new(c.map(i64::from)));
  side(Corner::orient(&p, &q, &r))
}

pub fn orient_exact(p: [i32; 2], q: [i32; 2], r: [i32; 2]) -> Side {
  let [p, q, r] = [p, q, r].map(|c| Corner::new(c.map(exact)));
  side(Corner::orient(&p, &q, &r))
}

/// The half-line from one point through another, against a piece.
pub fn half_line_through(from: [i32; 2], through: [i32; 2], piece: &Piece) -> Option<Side> {
  let [from, through] = [from, through].map(|c| Corner::new(c.map(i64::from)));
  let edge = &edges(&vec![*piece], i64::from)[0];
  let ray = HalfLineSoS::new_through(&from, &through);
  let IHalfLineLineSegmentSoS::Crossing(turn) = (&ray).intersect(edge.segment.as_ref())?;
  Some(side(turn))
}

/// The order of two points whose coordinates are fractions.
pub fn order(p: &Point, q: &Point) -> Ordering {
  corner_of(p).cmp(&corner_of(q))
}

/// The point in binary64.
pub fn place(p: &Point) -> [f64; 2] {
  Corner::<f64>::from(corner_of(p)).array
}

fn edges<T: rgeometry::TotalOrd>(chart: &Chart, value: impl Fn(i32) -> T) -> Vec<Edge<T>> {
  let end = |included, x, y| {
    let corner = Corner::new([value(x), value(y)]);
    if included {
      EndPoint::Inclusive(corner)
    } else {
      EndPoint::Exclusive(corner)
    }
  };
  let edge = |(number, piece): (usize, &Piece)| {
    let [kind, x1, y1, x2, y2] = *piece;
    let segment = LineSegment::new(end(kind & 1 != 0, x1, y1), end(kind & 2 != 0, x2, y2));
    Edge { number, segment }
  };
  chart.iter().enumerate().map(edge).collect()
}

fn exact(v: i32) -> BigRational {
  BigRational::from_integer(v.into())
}

fn numbers<'a, T: 'a>(pairs: impl Iterator<Item = (&'a Edge<T>, &'a Edge<T>)>) -> Vec<Pair> {
  pairs.map(|(a, b)| (a.number, b.number)).collect()
}

fn meeting<T: PolygonScalar>(a: &Edge<T>, b: &Edge<T>, value: impl Fn(&T) -> i64) -> Meeting {
  let end = |e: EndPoint<&Corner<T>>| End {
    x: value(&e.inner().array[0]),
    y: value(&e.inner().array[1]),
    included: e.is_inclusive(),
  };
  match a.segment.intersect(&b.segment) {
    None => Meeting::Nothing,
    Some(ILineSegment::Crossing) => Meeting::Crossing,
    Some(ILineSegment::Overlap(part)) => Meeting::Overlap(end(part.min), end(part.max)),
  }
}

fn half_line<T: PolygonScalar>(a: &Edge<T>, b: &Edge<T>) -> Option<Side> {
  let ray = HalfLineSoS::new_through(a.segment.min.inner(), a.segment.max.inner());
  let IHalfLineLineSegmentSoS::Crossing(turn) = (&ray).intersect(b.segment.as_ref())?;
  Some(side(turn))
}

fn side(turn: Orientation) -> Side {
  match turn {
    Orientation::CounterClockWise => Side::CounterClockWise,
    Orientation::ClockWise => Side::ClockWise,
    Orientation::CoLinear => Side::CoLinear,
  }
}

fn step(step: record::Step) -> Step {
  Step {
    visited: point(&step.visited),
    active: step.active,
    waiting: step.waiting.iter().map(|(k, p)| (*k, point(p))).collect(),
    listed: step.listed,
    examined: step.examined,
  }
}

fn point(p: &Corner<BigRational>) -> Point {
  let [x, y] = p.array.each_ref().map(|v| v.numer().to_i128().unwrap());
  let [dx, dy] = p.array.each_ref().map(|v| v.denom().to_i128().unwrap());
  Point::new(x * dy, y * dx, dx * dy)
}

/// The Rust's own point.
pub fn corner_of(p: &Point) -> Corner<BigRational> {
  let part = |v: i128| BigRational::new(v.into(), p.d.into());
  Corner::new([part(p.x), part(p.y)])
}
