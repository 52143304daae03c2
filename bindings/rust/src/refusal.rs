//! The table of refusals of docs/CHART.md.

use std::error::Error;
use std::fmt;

/// What is wrong, by its number in the table.
#[derive(Clone, Copy, PartialEq, Eq, Debug)]
#[repr(u8)]
pub enum Fault {
  FileEnds = 1,
  Groups = 2,
  Count = 3,
  Kind = 4,
  Coordinate = 5,
  NoLength = 6,
  ExtraBytes = 7,
  Room = 8,
  ListLength = 9,
  Charts = 10,
  Parts = 11,
  Argument = 12,
  Uneven = 13,
  TooMany = 14,
  Outline = 15,
  OddBytes = 16,
  Full = 17,
  Unused = 18,
  Upright = 19,
}

impl Fault {
  pub const ALL: [Fault; 19] = [
    Fault::FileEnds,
    Fault::Groups,
    Fault::Count,
    Fault::Kind,
    Fault::Coordinate,
    Fault::NoLength,
    Fault::ExtraBytes,
    Fault::Room,
    Fault::ListLength,
    Fault::Charts,
    Fault::Parts,
    Fault::Argument,
    Fault::Uneven,
    Fault::TooMany,
    Fault::Outline,
    Fault::OddBytes,
    Fault::Full,
    Fault::Unused,
    Fault::Upright,
  ];

  pub const fn number(self) -> u8 {
    self as u8
  }

  pub const fn meaning(self) -> &'static str {
    match self {
      Fault::FileEnds => "the file ends inside a number or before one that is due",
      Fault::Groups => "the third group has its high bit set, or the last of several groups is zero",
      Fault::Count => concat!("count above ", env!("MIRTALUGHE_MOST_PIECES")),
      Fault::Kind => "kind outside 0 to 3",
      Fault::Coordinate => "coordinate out of range",
      Fault::NoLength => "both ends of a piece equal",
      Fault::ExtraBytes => "bytes after the last piece",
      Fault::Room => "lent room too small",
      Fault::ListLength => "a list's length is no multiple of five or, in a pair call, is not ten",
      Fault::Charts => "more than 16 charts in one request",
      Fault::Parts => "the lengths don't add up to the list, or fewer bytes are lent than the charts need",
      Fault::Argument => "an argument out of range",
      Fault::Uneven => "mS is above H and m doesn't divide H",
      Fault::TooMany => "more than 200 pieces",
      Fault::Outline => "an odd count of numbers or a corner count outside 3 to 64",
      Fault::OddBytes => "an odd number of bytes, two a pair",
      Fault::Full => "all 200 places of an open chart are used",
      Fault::Unused => "the number to drop from an open chart is free or unknown",
      Fault::Upright => "an upright piece, where none may be",
    }
  }
}

/// What a call was given to look at.
#[derive(Clone, Copy, PartialEq, Eq, Debug)]
pub enum Given {
  File,
  List,
  /// A region's outline and a peak.
  Outline,
  /// A half-line and a piece.
  HalfLine,
  /// The three numbers of a folded line.
  Line,
  /// An open chart and a change of it.
  Open,
}

/// A call that is refused: why, and where. In a file the place is the byte at which the number starts, the kind's for
/// equal ends; in a list it is the piece's number for its kind, its coordinates and its ends. In an outline it is the corner's number, zero for
/// the peak. Else it is zero.
#[derive(Clone, Copy, PartialEq, Eq, Debug)]
pub struct Refusal {
  pub fault: Fault,
  pub place: usize,
  pub given: Given,
}

impl fmt::Display for Refusal {
  fn fmt(&self, f: &mut fmt::Formatter) -> fmt::Result {
    write!(f, "refused {}: {}", self.fault.number(), self.fault.meaning())?;
    match (self.given, self.fault) {
      (_, Fault::Room) => Ok(()),
      (Given::File, _) => write!(f, ", at byte {}", self.place),
      (Given::List, Fault::Kind | Fault::Coordinate | Fault::NoLength) => {
        write!(f, ", in piece {}", self.place)
      }
      (Given::List, _) => Ok(()),
      (Given::Outline, Fault::Coordinate) if self.place == 0 => write!(f, ", at corner 0 or the peak"),
      (Given::Outline, Fault::Coordinate | Fault::NoLength) => write!(f, ", at corner {}", self.place),
      (Given::Outline | Given::HalfLine | Given::Line | Given::Open, _) => Ok(()),
    }
  }
}

impl Error for Refusal {}

/// What a call's number and place say: done where the number is 0.
pub(crate) fn check(number: u8, place: usize, given: Given) -> Result<(), Refusal> {
  if number == 0 {
    return Ok(());
  }
  match Fault::ALL.into_iter().find(|fault| fault.number() == number) {
    Some(fault) => Err(Refusal { fault, place, given }),
    None => unreachable!("{number} is the number of no refusal"),
  }
}
