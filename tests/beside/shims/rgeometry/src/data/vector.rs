use super::Point;

#[derive(Debug, Clone)]
pub struct Vector<T, const N: usize = 2>(pub [T; N]);

impl<'a, T, const N: usize> From<&'a Point<T, N>> for &'a Vector<T, N> {
  fn from(_: &'a Point<T, N>) -> &'a Vector<T, N> {
    unimplemented!("Vector is not published with the Rust")
  }
}
