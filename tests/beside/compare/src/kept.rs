//! Charts that are compared every time: the scope's examples, and those that once told two
//! programs apart.

use crate::answers::Chart;

pub fn charts() -> Vec<Chart> {
  let m = 32_767;
  vec![
    // the scope's examples
    vec![[3, 0, 0, 4, 4], [3, 0, 4, 4, 0]],
    vec![[3, 0, 0, 1, 1], [3, 0, 1, 2, 0]],
    vec![[3, 0, 0, 2, 0], [3, 2, 0, 5, 0]],
    vec![[3, 0, 0, 2, 0], [2, 2, 0, 5, 0]],
    vec![[3, 0, 0, 4, 0], [3, 2, 0, 3, 5]],
    vec![[3, 0, 0, 4, 0], [2, 2, 0, 3, 5]],
    // the upright gap: the sweep lists (0,1) only
    vec![[3, 0, 0, 0, 10], [3, -5, 3, 5, 3], [3, -5, 6, 5, 6]],
    // the smallest omission: (1,2) is lost
    vec![[3, 0, 0, 2, 1], [3, 0, 0, 2, 2], [3, 1, 0, 1, 2]],
    // listed only thanks to the first examination: (0,1) and (1,3)
    vec![
      [3, -1, 0, -1, -3],
      [3, 0, -1, -2, 0],
      [3, -2, 0, 0, -2],
      [3, -1, 0, -1, -3],
    ],
    // a height's upper term passes 2^63
    vec![
      [3, m, -m, -32_756, m],
      [3, -m, -m, m, 32_740],
      [3, m, -m, -m, -m],
    ],
    // (0,1) and (0,2) cross at one point in binary64; exactly, (0,2) comes first
    vec![
      [3, -m, 1_201, 32_766, -9_001],
      [3, 28_858, 565, 16_353, -10_149],
      [3, 28_585, -1_945, 14_706, -10_152],
    ],
    // the same, turned: (0,2) comes first and is found later, while (0,1) waits
    vec![
      [3, -1_201, -m, 9_001, 32_766],
      [3, -565, 28_858, 10_149, 16_353],
      [3, 1_945, 28_585, 10_152, 14_706],
    ],
    // no piece
    vec![],
  ]
}

/// Charts on which upright pieces are easily lost.
pub fn uprights() -> Vec<Chart> {
  vec![
    // collinear uprights with all marks, end to end and over one another, and one piece across
    vec![
      [0, 0, 0, 0, 2],
      [1, 0, 2, 0, 4],
      [2, 0, 4, 0, 6],
      [3, 0, 6, 0, 8],
      [3, 0, 1, 0, 7],
      [3, -2, 4, 2, 4],
    ],
    // uprights through a crossing, up to it and from it, with and without that end
    vec![
      [3, -2, -2, 2, 2],
      [3, -2, 2, 2, -2],
      [3, 0, -3, 0, 3],
      [3, 0, -3, 0, 0],
      [1, 0, -3, 0, 0],
      [3, 0, 0, 0, 3],
      [2, 0, 0, 0, 3],
    ],
    // uprights at the first and the last x, through shared ends
    vec![
      [3, 0, 0, 4, 4],
      [3, 0, 4, 4, 0],
      [3, 0, 0, 0, 4],
      [3, 4, 0, 4, 4],
      [0, 0, 1, 0, 3],
    ],
    // two that meet straight above a point: by height and rising slope alone they are exchanged there, too early
    vec![[3, -2, -1, 1, 0], [3, -3, 0, 1, 0], [3, 1, -2, 1, 2]],
    // several crossings at one x, and uprights between them and through them
    vec![
      [3, -1, -1, 1, 1],
      [3, -1, 1, 1, -1],
      [3, -1, 2, 1, 4],
      [3, -1, 4, 1, 2],
      [3, 0, 1, 0, 2],
      [3, 0, -2, 0, 5],
    ],
  ]
}

/// Charts of several pairs with one first common point.
pub fn ties() -> Vec<Chart> {
  vec![
    // one first common point for all pairs, of crossings, ends and stretches: the numbers decide
    vec![
      [3, -4, -4, 4, 4],
      [3, 4, -4, -4, 4],
      [3, -3, 0, 3, 0],
      [3, 0, 0, 5, 1],
      [3, 0, 0, 10, 2],
      [1, 0, 0, 5, -9],
      [3, -2, 4, 2, -4],
    ],
    // two such points one below the other
    vec![
      [3, -2, 0, 2, 0],
      [3, -2, -2, 2, 2],
      [3, -2, 2, 2, -2],
      [3, -2, 5, 2, 5],
      [3, -2, 3, 2, 7],
      [3, -2, 7, 2, 3],
    ],
  ]
}
