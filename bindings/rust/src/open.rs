//! A chart that stays open, with its memory.

use crate::{Given, OPEN_NUMBERS, PIECE_NUMBERS, Pair, Piece, Refusal, calls};

/// A chart to which pieces are added and from which they are dropped all day: a piece keeps its number until it is dropped.
///
/// ```
/// use mirtalughe::{Fault, OpenChart};
///
/// let mut chart = OpenChart::new();
/// assert_eq!(chart.add([3, 0, 0, 4, 4]), Ok(0));
/// assert_eq!(chart.add([3, 0, 9, 4, 9]), Ok(1));
/// assert_eq!(chart.add([3, 0, 4, 4, 0]), Ok(2));
/// let mut lent = [0; 6];
/// assert_eq!(chart.all_pairs(&mut lent)?, [[2, 0]]);
/// chart.remove(1)?;
/// assert_eq!(chart.remove(1).unwrap_err().fault, Fault::Unused);
/// assert_eq!(chart.add([3, 0, 3, 4, 1]), Ok(1));
/// assert_eq!(chart.all_pairs(&mut lent)?, [[1, 0], [2, 0], [2, 1]]);
/// # Ok::<(), mirtalughe::Refusal>(())
/// ```
#[derive(Clone, PartialEq, Eq, Debug)]
pub struct OpenChart {
  numbers: [i32; OPEN_NUMBERS],
}

impl Default for OpenChart {
  fn default() -> OpenChart {
    OpenChart::new()
  }
}

/// Five numbers a place, whatever they are: a place is used where they are a piece, and free otherwise.
impl From<[i32; OPEN_NUMBERS]> for OpenChart {
  fn from(numbers: [i32; OPEN_NUMBERS]) -> OpenChart {
    OpenChart { numbers }
  }
}

impl OpenChart {
  /// A chart without pieces.
  pub fn new() -> OpenChart {
    let mut numbers = [0; OPEN_NUMBERS];
    // SAFETY: the pointer is good for the length, and the numbers are borrowed alone.
    let answer = unsafe { calls::mirtalughe_open_empty(numbers.as_mut_ptr(), numbers.len()) };
    debug_assert_eq!(answer.checked(Given::Open), Ok(0));
    OpenChart { numbers }
  }

  /// Adds a piece at the lowest free place and gives its number.
  pub fn add(&mut self, piece: Piece) -> Result<u8, Refusal> {
    let [kind, x1, y1, x2, y2] = piece;
    let chart = &mut self.numbers;
    // SAFETY: as of `new`.
    unsafe { calls::mirtalughe_open_add(chart.as_mut_ptr(), chart.len(), kind, x1, y1, x2, y2) }.checked()
  }

  /// Drops the piece of a number, whose place is then free.
  pub fn remove(&mut self, piece: usize) -> Result<(), Refusal> {
    let chart = &mut self.numbers;
    // SAFETY: as of `new`.
    let changed = unsafe { calls::mirtalughe_open_drop(chart.as_mut_ptr(), chart.len(), piece) };
    changed.checked().map(|_| ())
  }

  /// How many pieces stand on the chart.
  pub fn used(&self) -> usize {
    // SAFETY: the pointer is good for the length.
    let answer = unsafe { calls::mirtalughe_open_used(self.numbers.as_ptr(), self.numbers.len()) };
    answer.checked(Given::Open).expect("a whole chart is counted")
  }

  /// Lists every pair of pieces that meet, the greater number first, in lent bytes. At least
  /// [`pairs_room`](crate::pairs_room) of the pieces on the chart is to be lent; bytes past the last pair keep their values.
  pub fn all_pairs<'a>(&self, lent: &'a mut [u8]) -> Result<&'a [Pair], Refusal> {
    let chart = &self.numbers;
    // SAFETY: both pointers are good for their lengths, and the lent bytes are borrowed alone.
    let answer =
      unsafe { calls::mirtalughe_open_pairs(chart.as_ptr(), chart.len(), lent.as_mut_ptr(), lent.len()) };
    let count = answer.checked(Given::Open)?;
    Ok(&lent.as_chunks().0[..count])
  }

  /// The five numbers at each place; those of a free place are no piece.
  pub fn places(&self) -> &[Piece] {
    self.numbers.as_chunks::<PIECE_NUMBERS>().0
  }
}
