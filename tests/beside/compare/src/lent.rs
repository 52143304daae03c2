//! Bytes lent to the calls that list pairs.

use crate::answers::Pair;

/// Bytes lent past those that are asked for.
pub const SPARE: usize = 3;

/// Two bytes for every two of n pieces.
pub fn room(n: usize) -> usize {
  n * n.saturating_sub(1)
}

/// Room for a list that is refused, and more.
pub fn plenty(list: &[i32]) -> usize {
  room(list.len() / 5 + 1)
}

/// Filled with what no call writes, so that a byte which must keep its value is seen to.
pub fn bytes(lent: usize) -> Vec<u8> {
  (0..lent).map(|i| 0x80 | i as u8).collect()
}

/// The lent bytes with the pairs at their front.
pub fn with_pairs(bytes: &[u8], pairs: &[Pair]) -> Vec<u8> {
  let mut content = bytes.to_vec();
  let listed = pairs.iter().flat_map(|(a, b)| [*a as u8, *b as u8]);
  content.iter_mut().zip(listed).for_each(|(c, v)| *c = v);
  content
}
