//! Every number of the table, from every call that gives it: its place, its text, and lent memory left as it was.

use mirtalughe::*;

const SOUND: Piece = [3, 0, 0, 4, 4];
const LENGTH: &str = "refused 9: a list's length is no multiple of five or, in a pair call, is not ten";
const ROOM: &str = "refused 8: lent room too small";

#[test]
fn files() {
  let cut = "refused 1: the file ends inside a number or before one that is due, at byte";
  let groups =
    "refused 2: the third group has its high bit set, or the last of several groups is zero, at byte";
  let coordinate = "refused 5: coordinate out of range, at byte";
  let many = format!("refused 3: count above {MOST_PIECES}");
  let wrong: [(&[u8], Fault, usize, String); 16] = [
    (&[], Fault::FileEnds, 0, format!("{cut} 0")),
    (&[1, 3, 0], Fault::FileEnds, 3, format!("{cut} 3")),
    (&[1, 3, 0, 0x80], Fault::FileEnds, 3, format!("{cut} 3")),
    (&[1, 3, 0x80, 0], Fault::Groups, 2, format!("{groups} 2")),
    (&[1, 3, 0, 0x80, 0x80, 0x80], Fault::Groups, 3, format!("{groups} 3")),
    (&[0xC9], Fault::FileEnds, 0, format!("{cut} 0")),
    (&[0x81, 0], Fault::Groups, 0, format!("{groups} 0")),
    (&[0x81, 0x80, 0x80], Fault::Groups, 0, format!("{groups} 0")),
    (&[0xC9, 1], Fault::Count, 0, format!("{many}, at byte 0")),
    (&[0x81, 0x80, 1], Fault::Count, 0, format!("{many}, at byte 0")),
    (&[1, 4], Fault::Kind, 1, "refused 4: kind outside 0 to 3, at byte 1".into()),
    (&[1, 3, 0xFF, 0xFF, 3], Fault::Coordinate, 2, format!("{coordinate} 2")),
    (&[1, 3, 0, 0, 0, 0x80, 0x80, 4], Fault::Coordinate, 5, format!("{coordinate} 5")),
    (&[1, 3, 2, 4, 2, 4], Fault::NoLength, 1, "refused 6: both ends of a piece equal, at byte 1".into()),
    (&[0, 0], Fault::ExtraBytes, 1, "refused 7: bytes after the last piece, at byte 1".into()),
    (
      &[1, 3, 0, 0, 2, 2, 9, 9],
      Fault::ExtraBytes,
      6,
      "refused 7: bytes after the last piece, at byte 6".into(),
    ),
  ];
  for (file, fault, place, told) in wrong {
    refused_file(file, LIST_ROOM, fault, place, &told);
  }
  for room in [0, LIST_ROOM - 1] {
    refused_file(&[0], room, Fault::Room, 0, ROOM);
  }
}

fn refused_file(file: &[u8], room: usize, fault: Fault, place: usize, told: &str) {
  let mut lent = vec![-7; room];
  let refused = read(file, &mut lent).unwrap_err();
  assert_eq!(refused, Refusal { fault, place, given: Given::File }, "{file:?}");
  assert_eq!(refused.to_string(), told);
  assert!(lent.iter().all(|v| *v == -7));
}

/// Lists that every call on a list refuses, the fault in the second of two pieces.
fn wrong_lists() -> Vec<(Vec<i32>, Fault, usize, &'static str)> {
  let with = |piece: Piece| [SOUND, piece].concat();
  let kind = "refused 4: kind outside 0 to 3, in piece 1";
  let coordinate = "refused 5: coordinate out of range, in piece 1";
  let equal = "refused 6: both ends of a piece equal, in piece 1";
  vec![
    (with([4, 0, 0, 1, 1]), Fault::Kind, 1, kind),
    (with([-1, 0, 0, 1, 1]), Fault::Kind, 1, kind),
    (with([3, LIMIT + 1, 0, 1, 1]), Fault::Coordinate, 1, coordinate),
    (with([3, 0, 0, 1, -LIMIT - 1]), Fault::Coordinate, 1, coordinate),
    (with([3, 5, 6, 5, 6]), Fault::NoLength, 1, equal),
    (with(SOUND)[..9].to_vec(), Fault::ListLength, 0, LENGTH),
  ]
}

#[test]
fn two_pieces() {
  let lengths = [0, 1, 3].map(|count| ([SOUND; 3][..count].concat(), Fault::ListLength, 0, LENGTH));
  for (list, fault, place, told) in wrong_lists().into_iter().chain(lengths) {
    let refused = meeting(&list).unwrap_err();
    assert_eq!(refused, Refusal { fault, place, given: Given::List }, "{list:?}");
    assert_eq!(refused.to_string(), told);
    assert_eq!(mirtalughe::place(&list), Err(refused));
  }
}

#[test]
fn lists() {
  for (list, fault, place, told) in wrong_lists() {
    refused_list(&list, 2, fault, place, told);
  }
  let many = format!("refused 3: count above {MOST_PIECES}");
  refused_list(&[SOUND; MOST_PIECES + 1].concat(), pairs_room(MOST_PIECES + 1), Fault::Count, 0, &many);
  for (count, room) in [(MOST_PIECES, pairs_room(MOST_PIECES) - 1), (2, 1), (2, 0)] {
    refused_list(&[SOUND; MOST_PIECES][..count].concat(), room, Fault::Room, 0, ROOM);
  }
}

#[test]
fn writing() {
  for (list, fault, place, told) in wrong_lists() {
    refused_writing(&list, 0, fault, place, told);
    refused_writing(&list, LONGEST_FILE, fault, place, told);
  }
  let many = format!("refused 3: count above {MOST_PIECES}");
  refused_writing(&[SOUND; MOST_PIECES + 1].concat(), LONGEST_FILE, Fault::Count, 0, &many);
  for count in [0, 1, MOST_PIECES] {
    refused_writing(&[SOUND; MOST_PIECES][..count].concat(), LONGEST_FILE - 1, Fault::Room, 0, ROOM);
  }
}

fn refused_writing(list: &[i32], room: usize, fault: Fault, place: usize, told: &str) {
  let mut lent = vec![9; room];
  let refused = write(list, &mut lent).unwrap_err();
  assert_eq!(refused, Refusal { fault, place, given: Given::List }, "{list:?}");
  assert_eq!(refused.to_string(), told);
  assert!(lent.iter().all(|b| *b == 9));
}

fn refused_list(list: &[i32], room: usize, fault: Fault, place: usize, told: &str) {
  let mut lent = vec![9; room];
  let refused = all_pairs(list, &mut lent).unwrap_err();
  assert_eq!(refused, Refusal { fault, place, given: Given::List }, "{list:?}");
  assert_eq!(refused.to_string(), told);
  assert_eq!(sweep(list, u32::MAX, &mut lent), Err(refused));
  assert_eq!(full_sweep(list, u32::MAX, &mut lent), Err(refused));
  assert_eq!(plain_order(list, &mut lent), Err(refused));
  assert!(lent.iter().all(|v| *v == 9));
}

#[test]
fn batches() {
  let charts = "refused 10: more than 16 charts in one request";
  let parts =
    "refused 11: the lengths don't add up to the list, or fewer bytes are lent than the charts need";
  let two = [SOUND; 2].concat();
  let wrong: [(&[usize], usize, Fault, &str); 6] = [
    (&[0; MOST_CHARTS + 1], 2, Fault::Charts, charts),
    (&[5], 2, Fault::Parts, parts),
    (&[10, 5], 2, Fault::Parts, parts),
    (&[usize::MAX, 11], 2, Fault::Parts, parts),
    (&[], 2, Fault::Parts, parts),
    (&[10], 1, Fault::Parts, parts),
  ];
  for (lengths, room, fault, told) in wrong {
    let mut lent = vec![9; room];
    let refused = sweep_batch(&two, lengths, &mut lent).unwrap_err();
    assert_eq!(refused, Refusal { fault, place: 0, given: Given::List }, "{lengths:?}");
    assert_eq!(refused.to_string(), told);
    assert!(lent.iter().all(|b| *b == 9));
  }
}

#[test]
fn numbers() {
  assert_eq!(Fault::ALL.map(Fault::number), [1, 2, 3, 4, 5, 6, 7, 8, 9, 10, 11, 12, 13, 14, 15, 16, 17, 18, 19]);
}

#[test]
fn as_an_error() {
  let error: Box<dyn std::error::Error> = Box::new(meeting(&[]).unwrap_err());
  assert_eq!(error.to_string(), LENGTH);
}

/// A refused change leaves the chart as it was, and its place is zero.
#[test]
fn open_charts() {
  let mut chart = OpenChart::new();
  chart.add(SOUND).unwrap();
  let kept = chart.clone();
  let wrong: [(Piece, Fault, &str); 3] = [
    ([4, LIMIT + 1, 0, 1, 1], Fault::Kind, "refused 4: kind outside 0 to 3"),
    ([3, LIMIT + 1, 0, 1, 1], Fault::Coordinate, "refused 5: coordinate out of range"),
    ([3, 1, 1, 1, 1], Fault::NoLength, "refused 6: both ends of a piece equal"),
  ];
  for (piece, fault, told) in wrong {
    refused_change(chart.add(piece).unwrap_err(), fault, told);
  }
  for number in [1, OPEN_PLACES - 1, OPEN_PLACES, usize::MAX] {
    let told = "refused 18: the number to drop from an open chart is free or unknown";
    refused_change(chart.remove(number).unwrap_err(), Fault::Unused, told);
  }
  assert_eq!(chart, kept);
  for number in 1..OPEN_PLACES {
    assert_eq!(chart.add(SOUND).map(usize::from), Ok(number));
  }
  let full = chart.clone();
  let told = "refused 17: all 200 places of an open chart are used";
  refused_change(chart.add(SOUND).unwrap_err(), Fault::Full, told);
  refused_change(chart.add(wrong[0].0).unwrap_err(), wrong[0].1, wrong[0].2);
  assert_eq!(chart, full);
  let mut lent = vec![7; pairs_room(OPEN_PLACES) - 1];
  refused_change(chart.all_pairs(&mut lent).unwrap_err(), Fault::Room, ROOM);
  assert!(lent.iter().all(|b| *b == 7));
}

fn refused_change(refused: Refusal, fault: Fault, told: &str) {
  assert_eq!(refused, Refusal { fault, place: 0, given: Given::Open });
  assert_eq!(refused.to_string(), told);
}
