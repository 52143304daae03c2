//! Stands in for the crate `apfp`, which is not published with the Rust: the orientation of three
//! points with whole coordinates, and the names of what the comparison never asks for.

/// What the comparison never asks for.
pub fn never<T>() -> T {
  unimplemented!("apfp is not published with the Rust")
}

#[macro_export]
macro_rules! int_signum {
  ($e:expr) => {
    $crate::never::<i32>()
  };
}

#[macro_export]
macro_rules! apfp_signum {
  ($e:expr) => {
    $crate::never::<i32>()
  };
}

pub mod geometry {
  pub enum Orientation {
    CounterClockwise,
    Clockwise,
    CoLinear,
  }

  macro_rules! coordinates {
    ($name:ident, $orient2d:expr) => {
      pub mod $name {
        use super::Orientation;
        use std::cmp::Ordering;
        use std::primitive::$name as Number;

        pub struct Coord(pub Number, pub Number);

        impl Coord {
          pub fn new(x: Number, y: Number) -> Coord {
            Coord(x, y)
          }
        }

        pub fn orient2d(p: &Coord, q: &Coord, r: &Coord) -> Orientation {
          let sign: fn(&Coord, &Coord, &Coord) -> Ordering = $orient2d;
          match sign(p, q, r) {
            Ordering::Greater => Orientation::CounterClockwise,
            Ordering::Less => Orientation::Clockwise,
            Ordering::Equal => Orientation::CoLinear,
          }
        }

        pub fn orient2d_vec(_: &Coord, _: &Coord, _: &Coord) -> Orientation {
          crate::never()
        }

        pub fn orient2d_normal(_: &Coord, _: &Coord, _: &Coord) -> Orientation {
          crate::never()
        }

        pub fn cmp_dist(_: &Coord, _: &Coord, _: &Coord) -> Ordering {
          crate::never()
        }

        pub fn incircle(_: &Coord, _: &Coord, _: &Coord, _: &Coord) -> Orientation {
          crate::never()
        }
      }
    };
  }

  /// The sign of (x2-x1)(y3-y1) - (y2-y1)(x3-x1).
  macro_rules! whole {
    () => {
      |p, q, r| {
        let [px, py, qx, qy, rx, ry] = [p.0, p.1, q.0, q.1, r.0, r.1].map(i128::from);
        ((qx - px) * (ry - py)).cmp(&((qy - py) * (rx - px)))
      }
    };
  }

  coordinates!(i8, whole!());
  coordinates!(i16, whole!());
  coordinates!(i32, whole!());
  coordinates!(i64, whole!());
  coordinates!(f64, |_, _, _| crate::never());
}
