//! Every call, on the scope's examples and on the booster fan.

use std::cmp::Ordering;
use std::collections::BTreeSet;
use std::fs;
use std::path::PathBuf;

use mirtalughe::*;

const FIRST: [i32; 10] = [3, 0, 0, 4, 4, 3, 0, 4, 4, 0];

fn two(first: Piece, second: Piece) -> Vec<i32> {
  [first, second].concat()
}

fn example(name: &str) -> Vec<u8> {
  let folder = PathBuf::from(env!("CARGO_MANIFEST_DIR")).join("../../examples");
  fs::read(folder.join(name)).unwrap()
}

#[test]
fn turns() {
  assert_eq!(orient([0, 0], [4, 0], [4, 4]), Orientation::CounterClockWise);
  assert_eq!(orient([0, 0], [4, 4], [4, 0]), Orientation::ClockWise);
  assert_eq!(orient([0, 0], [2, 2], [4, 4]), Orientation::CoLinear);
  let (low, high) = (i16::MIN, i16::MAX);
  assert_eq!(orient([low, low], [high, low], [high, high]), Orientation::CounterClockWise);
}

#[test]
fn order_of_points() {
  let point = |x, y, d| Point { x, y, d };
  assert_eq!(compare_points(point(2, 2, 3), point(4, 4, 6)), Ordering::Equal);
  assert_eq!(compare_points(point(2, 9, 3), point(3, 0, 4)), Ordering::Less);
  assert_eq!(compare_points(point(1, 2, 2), point(2, 3, 4)), Ordering::Greater);
  let wide = point(i64::MAX, 0, u64::MAX);
  assert_eq!(compare_points(wide, point(i64::MAX - 1, 0, u64::MAX - 2)), Ordering::Greater);
}

#[test]
fn reading() {
  let file = [2, 3, 0, 0, 8, 8, 3, 0, 8, 8, 0];
  let mut lent = [-7; LIST_ROOM + 1];
  assert_eq!(read(&file, &mut lent).unwrap().as_flattened(), FIRST);
  assert_eq!(lent[..10], FIRST);
  assert!(lent[10..].iter().all(|v| *v == -7));
  assert_eq!(read(&[0], &mut lent), Ok(&[][..]));
}

/// Numbers at the powers of 128, on both sides of zero, and the widest ones.
#[test]
fn writing() {
  let file = [2, 3, 0, 0, 8, 8, 3, 0, 8, 8, 0];
  let mut lent = [7; LONGEST_FILE + 1];
  assert_eq!(write(&FIRST, &mut lent), Ok(&file[..]));
  assert!(lent[11..].iter().all(|b| *b == 7));
  assert_eq!(write(&[], &mut lent), Ok(&[0][..]));
  let edges = two([3, 63, -64, 64, -65], [0, 8191, -8192, 8192, -8193]);
  let groups = [2, 3, 0x7E, 0x7F, 0x80, 1, 0x81, 1, 0, 0xFE, 0x7F, 0xFF, 0x7F, 0x80, 0x80, 1, 0x81, 0x80, 1];
  assert_eq!(write(&edges, &mut lent), Ok(&groups[..]));
  let widest = [[3, LIMIT, -1, -LIMIT, 0]; MOST_PIECES].concat();
  let front = [0xC8, 1, 3, 0xFE, 0xFF, 3, 1, 0xFD, 0xFF, 3, 0];
  assert_eq!(write(&widest, &mut lent).unwrap()[..11], front);
  for (count, groups) in [(127, &[127][..]), (128, &[0x80, 1]), (MOST_PIECES, &[0xC8, 1])] {
    let file = write(widest[..PIECE_NUMBERS * count].as_ref(), &mut lent).unwrap();
    assert_eq!((&file[..groups.len()], file[groups.len()]), (groups, 3));
  }
  let longest = [[3, LIMIT, -LIMIT, -LIMIT, LIMIT]; MOST_PIECES].concat();
  assert_eq!(write(&longest, &mut lent).unwrap().len(), LONGEST_FILE);
}

#[test]
fn there_and_back() {
  let (mut list, mut lent) = ([0; LIST_ROOM], [0; LONGEST_FILE]);
  let file = example("booster_fan.chart");
  let pieces = read(&file, &mut list).unwrap();
  assert_eq!(write(pieces.as_flattened(), &mut lent), Ok(&file[..]));
}

#[test]
fn meetings() {
  assert_eq!(meeting(&FIRST), Ok(Meeting::Crossing));
  let end = |x, y, included| EndPoint { x, y, included };
  let touching = two([3, 0, 0, 2, 0], [3, 2, 0, 5, 0]);
  let (min, max) = (end(2, 0, true), end(2, 0, true));
  assert_eq!(meeting(&touching), Ok(Meeting::Overlap { min, max }));
  assert_eq!(meeting(&two([3, 0, 0, 2, 0], [2, 2, 0, 5, 0])), Ok(Meeting::Nothing));
  let lying_on = two([3, -1, 0, 4, 0], [2, 5, 0, 1, 0]);
  let (min, max) = (end(1, 0, true), end(4, 0, true));
  assert_eq!(meeting(&lying_on), Ok(Meeting::Overlap { min, max }));
  let (min, max) = (end(1, 0, false), end(4, 0, true));
  assert_eq!(meeting(&two([3, -1, 0, 4, 0], [1, 5, 0, 1, 0])), Ok(Meeting::Overlap { min, max }));
}

#[test]
fn places() {
  let at = |x, y| PlacePoint { x, y };
  assert_eq!(place(&FIRST), Ok(Place::At(at(2.0, 2.0))));
  let thirds = two([3, 0, 0, 1, 1], [3, 0, 1, 2, 0]);
  assert_eq!(place(&thirds), Ok(Place::At(at(2.0 / 3.0, 2.0 / 3.0))));
  let lying_on = two([3, -1, 0, 4, 0], [3, 5, 0, 1, 0]);
  assert_eq!(place(&lying_on), Ok(Place::Along(at(1.0, 0.0), at(4.0, 0.0))));
  assert_eq!(place(&two([3, 0, 0, 2, 0], [3, 2, 0, 5, 0])), Ok(Place::At(at(2.0, 0.0))));
  assert_eq!(place(&two([3, 0, 0, 4, 0], [2, 2, 0, 3, 5])), Ok(Place::Nothing));
}

#[test]
fn all_pairs_of_a_list() {
  let gap = [[3, 0, 0, 0, 10], [3, -5, 3, 5, 3], [3, -5, 6, 5, 6]].concat();
  let mut lent = [9; pairs_room(3) + 1];
  assert_eq!(all_pairs(&gap, &mut lent).unwrap(), [[1, 0], [2, 0]]);
  assert_eq!(lent[4..], [9; 3]);
  assert_eq!(all_pairs(&[], &mut []), Ok(&[][..]));
  assert_eq!((pairs_room(0), pairs_room(1), pairs_room(MOST_PIECES)), (0, 0, 2 * MOST_PAIRS));
}

/// Three pieces through one point: they stand by their numbers there. The pair that meets first is not the one found first.
#[test]
fn in_plain_order() {
  let ties = [[3, 0, 0, 4, 4], [3, 0, 4, 4, 0], [3, 0, 2, 4, 2], [3, 0, 3, 1, 4]].concat();
  let mut lent = [9; pairs_room(4) + 1];
  assert_eq!(plain_order(&ties, &mut lent).unwrap(), [[1, 3], [0, 1], [0, 2], [1, 2]]);
  assert_eq!(lent[8..], [9; 5]);
  let mut swept = [9; pairs_room(4) + 1];
  sweep(&ties, u32::MAX, &mut swept).unwrap();
  assert_eq!(lent, swept);
  let gap = [[3, 0, 0, 0, 10], [3, -5, 3, 5, 3], [3, -5, 6, 5, 6]].concat();
  let refused = plain_order(&gap, &mut lent).unwrap_err();
  assert_eq!((refused.fault, refused.place), (Fault::Upright, 0));
  assert_eq!(refused.to_string(), "refused 19: an upright piece, where none may be");
  assert_eq!(plain_order(&gap, &mut lent[..5]).unwrap_err().fault, Fault::Room);
  assert_eq!(lent, swept);
  assert_eq!(plain_order(&[], &mut []), Ok(&[][..]));
}

#[test]
fn most_pieces() {
  let most = MOST_PIECES as i32;
  let list: Vec<i32> = (0..most).flat_map(|i| [3, -100, i, 100, most - 1 - i]).collect();
  let mut lent = [0; pairs_room(MOST_PIECES)];
  let pairs = all_pairs(&list, &mut lent).unwrap();
  assert_eq!(pairs.len(), MOST_PAIRS);
  let last = MOST_PIECES as u8 - 1;
  assert_eq!((pairs[0], pairs[MOST_PAIRS - 1]), ([1, 0], [last, last - 1]));
}

/// "the points visited are (0,0) (0,4) (2,2) (4,0) (4,4). Budget 2 lists nothing, 3 lists (0,1)."
#[test]
fn sweep_step_by_step() {
  let visited = [(0, 0), (0, 4), (2, 2), (4, 0), (4, 4)];
  for budget in 0..=6 {
    let mut lent = [9; 3];
    let swept = sweep(&FIRST, budget, &mut lent).unwrap();
    let mut full = [9; 3];
    assert_eq!(full_sweep(&FIRST, budget, &mut full), Ok(Swept { examined: 0, ..swept }));
    assert_eq!(full, if budget < 3 { [9; 3] } else { [0, 1, 9] });
    let steps = budget.min(5);
    let last = steps.checked_sub(1).map(|i| visited[i as usize]).map(|(x, y)| Point { x, y, d: 1 });
    let pairs: &[Pair] = if budget < 3 { &[] } else { &[[0, 1]] };
    let examined = [0, 0, 1, 2, 2, 2, 2][budget as usize];
    assert_eq!(swept, Swept { pairs, steps, ended: budget >= 5, complete: true, last, examined });
    assert_eq!(lent, if budget < 3 { [9; 3] } else { [0, 1, 9] });
  }
}

#[test]
fn sweep_of_a_fraction_and_of_nothing() {
  let mut lent = [0; 2];
  let thirds = two([3, 0, 0, 1, 1], [3, 0, 1, 2, 0]);
  assert_eq!(sweep(&thirds, 3, &mut lent).unwrap().last, Some(Point { x: 2, y: 2, d: 3 }));
  let none = Swept { pairs: &[], steps: 0, ended: true, complete: true, last: None, examined: 0 };
  assert_eq!(sweep(&[], 0, &mut []), Ok(none));
  assert_eq!(full_sweep(&[], 0, &mut []), Ok(none));
}

/// The upright gap: the sweep, as in the Rust, lists only one of the two pairs that meet, and says so; the full sweep both.
#[test]
fn sweep_with_an_upright_piece() {
  let gap = [[3, 0, 0, 0, 10], [3, -5, 3, 5, 3], [3, -5, 6, 5, 6]].concat();
  let mut lent = [0; pairs_room(3)];
  let swept = sweep(&gap, u32::MAX, &mut lent).unwrap();
  let last = Some(Point { x: 5, y: 6, d: 1 });
  assert_eq!(swept, Swept { pairs: &[[0, 1]], steps: 7, ended: true, complete: false, last, examined: 8 });
  let full = full_sweep(&gap, u32::MAX, &mut lent).unwrap();
  assert_eq!(full, Swept { pairs: &[[0, 1], [0, 2]], steps: 8, ended: true, complete: true, last, examined: 0 });
}

/// The library reads the file that the tool wrote, and lists the pairs that all pairs has, in the order of the listing.
#[test]
fn booster_fan() {
  let mut list = [0; LIST_ROOM];
  let pieces = read(&example("booster_fan.chart"), &mut list).unwrap();
  assert_eq!(pieces[3], [1, 1500, 500, 3000, 0]);
  let list = pieces.as_flattened();
  let listing = String::from_utf8(example("booster_fan.listing.txt")).unwrap();
  let pair = |line: &str| {
    let mut numbers = line.strip_prefix("pair ")?.split(' ').map(|v| v.parse());
    Some([numbers.next()?.ok()?, numbers.next()?.ok()?])
  };
  let listed: Vec<Pair> = listing.lines().filter_map(pair).collect();
  assert_eq!(listed.len(), 35);
  let mut lent = vec![0; pairs_room(pieces.len())];
  let swept = full_sweep(list, u32::MAX, &mut lent).unwrap();
  assert_eq!((swept.pairs, swept.steps, swept.complete), (&listed[..], 49, true));
  let found = all_pairs(list, &mut lent).unwrap().iter().map(|[a, b]| [*b, *a]);
  assert_eq!(found.collect::<BTreeSet<Pair>>(), listed.into_iter().collect());
}

/// The upright gap: pairs (1, 0) and (2, 0) meet, (2, 1) does not.
#[test]
fn supplied_lists() {
  let gap = [[3, 0, 0, 0, 10], [3, -5, 3, 5, 3], [3, -5, 6, 5, 6]].concat();
  let fault = |entry, fault| Checked::Fault { entry, fault };
  let said: [(&[u8], Checked); 9] = [
    (&[1, 0, 2, 0], Checked::Accepted),
    (&[0, 2, 0, 1], Checked::Accepted),
    (&[], Checked::Missing([1, 0])),
    (&[0, 1], Checked::Missing([2, 0])),
    (&[2, 0, 0, 3], fault(1, EntryFault::NoPiece)),
    (&[2, 2, 9, 9], fault(0, EntryFault::Itself)),
    (&[9, 9], fault(0, EntryFault::NoPiece)),
    (&[1, 0, 2, 1], fault(1, EntryFault::Apart)),
    (&[1, 0, 2, 0, 0, 1], fault(2, EntryFault::Repeated)),
  ];
  for (pairs, due) in said {
    assert_eq!(check(&gap, pairs), Ok(due), "{pairs:?}");
  }
  let refused = check(&gap, &[1, 0, 2]).unwrap_err();
  assert_eq!((refused.fault, refused.place), (Fault::OddBytes, 0));
  assert_eq!(check(&gap[1..], &[1]).unwrap_err().fault, Fault::ListLength);
  assert_eq!(check(&[], &[]), Ok(Checked::Accepted));
}

/// A diamond, whose corners stand at the height of its middle.
#[test]
fn regions() {
  let diamond = [0, 0, 2, -2, 4, 0, 2, 2];
  let square = [0, 0, 4, 0, 4, 4, 0, 4];
  let said: [(&[i32], [i32; 2], Region); 9] = [
    (&square, [2, 2], Region::Inside),
    (&square, [5, 2], Region::Outside),
    (&square, [-1, 4], Region::Outside),
    (&square, [4, 2], Region::On),
    (&square, [0, 0], Region::On),
    (&diamond, [1, 0], Region::Inside),
    (&diamond, [-1, 0], Region::Outside),
    (&diamond, [3, 1], Region::On),
    (&diamond, [3, 2], Region::Outside),
  ];
  for (outline, peak, due) in said {
    assert_eq!(region(outline, peak), Ok(due), "{outline:?} {peak:?}");
  }
  let refused = |outline: &[i32], peak| region(outline, peak).map_err(|r| (r.fault, r.place, r.given)).unwrap_err();
  assert_eq!(refused(&square[1..], [2, 2]), (Fault::Outline, 0, Given::Outline));
  assert_eq!(refused(&square[..4], [2, 2]), (Fault::Outline, 0, Given::Outline));
  assert_eq!(refused(&[0, 0, 4, 0, 32768, 4], [2, 2]), (Fault::Coordinate, 2, Given::Outline));
  assert_eq!(refused(&[0, 0, 4, 0, 0, 0], [2, 2]), (Fault::NoLength, 2, Given::Outline));
  assert_eq!(refused(&square, [32767, 2]), (Fault::Coordinate, 0, Given::Outline));
  assert_eq!(region(&square, [32766, 2]), Ok(Region::Outside));
}

/// The half-line to the right of the origin: through the piece, past it, by an end above, below and along it.
#[test]
fn half_lines() {
  let right = |piece| half_line(piece, [0, 0], [1, 0]);
  assert_eq!(right([3, 2, -1, 2, 1]), Ok(Some(Orientation::CoLinear)));
  assert_eq!(right([3, -2, -1, -2, 1]), Ok(None));
  assert_eq!(right([3, 2, 0, 2, 3]), Ok(Some(Orientation::CounterClockWise)));
  assert_eq!(right([3, 2, 0, 2, -3]), Ok(Some(Orientation::ClockWise)));
  assert_eq!(right([3, 2, 0, 5, 0]), Ok(None));
  let refused = |piece, through| half_line(piece, [0, 0], through).map_err(|r| (r.fault, r.place, r.given)).unwrap_err();
  assert_eq!(refused([4, 2, -1, 2, 1], [0, 0]), (Fault::Kind, 0, Given::HalfLine));
  assert_eq!(refused([3, 2, 1, 2, 1], [0, 0]), (Fault::NoLength, 0, Given::HalfLine));
  assert_eq!(refused([3, 2, -1, 2, 1], [40000, 0]), (Fault::Coordinate, 0, Given::HalfLine));
  assert_eq!(refused([3, 2, -1, 2, 1], [0, 0]), (Fault::NoLength, 0, Given::HalfLine));
}

/// Four times x, folded at 12: one joint, at 3.
#[test]
fn folded_lines() {
  let mut lent = [7; FOLD_ROOM + 1];
  assert_eq!(fold(4, 12, 5, &mut lent), Ok(&[[1, 0, 0, 3, 12], [3, 3, 12, 5, 4]][..]));
  assert_eq!(lent[10..], [7; FOLD_ROOM - 9]);
  assert_eq!(fold(1, 1, 200, &mut lent).unwrap().len(), MOST_FOLDED);
  let wrong = [
    (0, 12, 5, 10, Fault::Argument),
    (1, 1, 32_768, 10, Fault::Argument),
    (2, 1, 201, 10, Fault::Uneven),
    (1, 1, 201, 10, Fault::TooMany),
    (4, 12, 5, 9, Fault::Room),
  ];
  for (m, h, s, room, fault) in wrong {
    let refused = fold(m, h, s, &mut lent[..room]).unwrap_err();
    assert_eq!((refused.fault, refused.place), (fault, 0), "{m} {h} {s}");
  }
  assert_eq!(fold(61, 1, 1, &mut lent).unwrap_err().to_string(), "refused 12: an argument out of range");
}

/// Pieces come and go, each under its number; whatever stands in the memory is a chart.
#[test]
fn an_open_chart() {
  let mut chart = OpenChart::default();
  assert_eq!((chart.used(), chart.all_pairs(&mut [])), (0, Ok(&[][..])));
  assert!(chart.places().iter().all(|place| *place == [-1; 5]));
  for (number, piece) in
    [[3, 0, 0, 0, 10], [3, 9, 9, 8, 8], [3, -5, 3, 5, 3], [3, -5, 6, 5, 6]].into_iter().enumerate()
  {
    assert_eq!(chart.add(piece).map(usize::from), Ok(number));
  }
  let mut lent = [9; pairs_room(4)];
  assert_eq!(chart.all_pairs(&mut lent), Ok(&[[2, 0], [3, 0]][..]));
  assert_eq!(lent[4..], [9; 8]);
  assert_eq!(chart.remove(0), Ok(()));
  assert_eq!((chart.used(), chart.all_pairs(&mut lent)), (3, Ok(&[][..])));
  assert_eq!(chart.add([3, -5, 4, 5, 2]), Ok(0));
  assert_eq!(chart.all_pairs(&mut lent), Ok(&[[2, 0]][..]));
  assert_eq!(chart.places()[..2], [[3, -5, 4, 5, 2], [3, 9, 9, 8, 8]]);

  let mut numbers = [i32::MIN; OPEN_NUMBERS];
  numbers[990..].copy_from_slice(&[3, 0, 0, 4, 4, 3, 0, 4, 4, 0]);
  let mut lent = [0; 2];
  assert_eq!(OpenChart::from(numbers).all_pairs(&mut lent), Ok(&[[199, 198]][..]));
}

/// Charts that are refused among good ones: each answer and each part is that of a sweep alone.
#[test]
fn batch() {
  let below = vec![3, -5, -1, -2, -9];
  let wrong = two([3, 0, 0, 4, 4], [4, 0, 0, 1, 1]);
  let charts = [FIRST.to_vec(), vec![1, 2, 3], wrong, vec![], below, FIRST.to_vec()];
  let lengths = charts.each_ref().map(Vec::len);
  let mut lent = [9; 7];
  let told = sweep_batch(&charts.concat(), &lengths, &mut lent).unwrap();
  assert_eq!(told.len(), charts.len());
  for (chart, told) in charts.iter().zip(&told) {
    let mut alone = vec![9; part_room(chart.len())];
    assert_eq!(*told, full_sweep(chart, u32::MAX, &mut alone), "{chart:?}");
  }
  assert_eq!(told[4].unwrap().last, Some(Point { x: -2, y: -9, d: 1 }));
  assert_eq!(lent, [0, 1, 9, 9, 0, 1, 9]);
  assert_eq!(sweep_batch(&[], &[], &mut []), Ok(vec![]));
}
