//! A chart that stays open: days of random changes, in memory that holds anything at first, beside a list of places. After
//! every change its answer and every number of the memory are compared, and the count and the whole listing too, on large
//! charts at every fortieth; the listing with that of the Rust where the chart is small.

use crate::answers::{Answer, LIMIT, Pair, Piece, Refusal};
use crate::case::agree;
use crate::charts::Random;
use crate::lent::{self, SPARE, room};
use crate::original::Original;
use crate::refusals::verdict;
use crate::{library, model};

const PLACES: usize = 200;
pub const NUMBERS: usize = 5 * PLACES;
const VACANT: Piece = [-1; 5];
const CHANGES: usize = 60;
const FULL_DAYS: usize = 2;
const ADDS_ALONE: usize = 1_000_000;

/// Numbers at which an answer changes.
const TELLING: [i32; 11] = [
  -1,
  0,
  1,
  2,
  3,
  4,
  LIMIT,
  LIMIT + 1,
  -LIMIT - 1,
  i32::MIN,
  i32::MAX,
];

/// Compares so many days from the seed, and says how many changes they had and how many of them were refused.
pub fn compare(seed: u64, days: usize) -> Result<(usize, usize), String> {
  let mut changes = (0, 0);
  for day in 0..days {
    let mut random = Random::new(seed, day);
    let mut open = Open::begin(&mut random, day % 3 == 0)?;
    for _ in 0..CHANGES {
      open.change(&mut random, 16, &mut changes)?;
      open.compare_listing(&mut random)?;
    }
  }
  for day in 0..FULL_DAYS {
    let mut random = Random::new(seed, days + day);
    let mut open = Open::begin(&mut random, true)?;
    for turn in 0..4 * PLACES {
      open.change(&mut random, PLACES, &mut changes)?;
      if turn % 40 == 0 {
        open.compare_listing(&mut random)?;
      }
    }
    while open.used().len() < PLACES {
      open.change(&mut random, ADDS_ALONE, &mut changes)?;
    }
    for _ in 0..20 {
      open.change(&mut random, ADDS_ALONE, &mut changes)?;
    }
    open.compare_listing(&mut random)?;
  }
  short()?;
  Ok(changes)
}

/// The memory as the rules say that it stands.
struct Open {
  memory: Vec<i32>,
  due: Vec<i32>,
}

impl Open {
  /// A chart made empty, or whatever stands in the memory.
  fn begin(random: &mut Random, emptied: bool) -> Result<Open, String> {
    let length = NUMBERS + random.pick(&[0, 1, 7]);
    let mut memory: Vec<i32> = (0..length).map(|_| random.pick(&TELLING)).collect();
    let mut due = memory.clone();
    if emptied {
      due[..NUMBERS].fill(-1);
      let answer = library::open_empty(&mut memory);
      agree(
        || "an empty chart".into(),
        "scope",
        Answer::of(Ok(0)),
        "library",
        answer,
      )?;
    }
    let open = Open { memory, due };
    open.compare_memory("at the beginning")?;
    Ok(open)
  }

  fn place(&self, i: usize) -> Piece {
    self.due[5 * i..5 * i + 5].try_into().unwrap()
  }

  fn is_used(&self, i: usize) -> bool {
    verdict(&self.place(i)).is_ok()
  }

  fn used(&self) -> Vec<usize> {
    (0..PLACES).filter(|&i| self.is_used(i)).collect()
  }

  fn put(&mut self, i: usize, piece: Piece) {
    self.due[5 * i..5 * i + 5].copy_from_slice(&piece);
  }

  /// A piece added or one dropped; fewer are added where more than `most` stand.
  fn change(
    &mut self,
    random: &mut Random,
    most: usize,
    changes: &mut (usize, usize),
  ) -> Result<(), String> {
    let used = self.used();
    let adds = random.between(0, 2 * most as i32) >= used.len() as i32;
    let (call, due, told) = if adds {
      let piece = any_piece(random);
      let due = self.adding(&piece);
      if let Ok(i) = due {
        self.put(i, piece);
      }
      (
        format!("adding {piece:?}"),
        due,
        library::open_add(&mut self.memory, &piece),
      )
    } else {
      let some = if used.is_empty() {
        0
      } else {
        random.pick(&used)
      };
      let i = random.pick(&[some, some, some, 0, 199, 200, 201, usize::MAX]);
      let due = if i < PLACES && self.is_used(i) {
        Ok(i)
      } else {
        Err((18, 0))
      };
      if due.is_ok() {
        self.put(i, VACANT);
      }
      (
        format!("dropping {i}"),
        due,
        library::open_drop(&mut self.memory, i),
      )
    };
    changes.0 += 1;
    changes.1 += usize::from(due.is_err());
    agree(
      || format!("{call}, {} used", used.len()),
      "scope",
      due,
      "library",
      told,
    )?;
    self.compare_memory(&call)
  }

  fn adding(&self, piece: &Piece) -> Result<usize, Refusal> {
    if let Err((number, _)) = verdict(piece) {
      return Err((number, 0));
    }
    (0..PLACES).find(|&i| !self.is_used(i)).ok_or((17, 0))
  }

  fn compare_memory(&self, after: &str) -> Result<(), String> {
    agree(
      || format!("the memory {after}"),
      "scope",
      &self.due,
      "library",
      &self.memory,
    )
  }

  /// The count and the list, into bytes enough and one too few.
  fn compare_listing(&self, random: &mut Random) -> Result<(), String> {
    let names = self.used();
    let n = names.len();
    agree(
      || "the used places".into(),
      "scope",
      Answer::of(Ok(n)),
      "library",
      library::open_used(&self.memory),
    )?;
    let chart: Vec<Piece> = names.iter().map(|&i| self.place(i)).collect();
    let named = |pairs: Vec<Pair>| -> Vec<Pair> {
      pairs
        .into_iter()
        .map(|(a, b)| (names[a], names[b]))
        .collect()
    };
    let pairs = named(model::naive(&chart));
    let call = || format!("the listing of {chart:?} at {names:?}");
    if n <= 12 {
      agree(
        call,
        "Rust",
        &named(Original::new(&chart).naive()),
        "model",
        &pairs,
      )?;
    }
    let lent = room(n) + random.pick(&[0, SPARE]);
    let outcomes = [
      (lent, Ok(&pairs[..])),
      (
        room(n).saturating_sub(1),
        if n < 2 { Ok(&pairs[..]) } else { Err((8, 0)) },
      ),
    ];
    for (lent, due) in outcomes {
      let mut bytes = lent::bytes(lent);
      let content = lent::with_pairs(&bytes, due.unwrap_or_default());
      let answer = library::open_pairs(&self.memory, &mut bytes);
      agree(
        call,
        "scope",
        (Answer::of(due.map(<[Pair]>::len)), content),
        "library",
        (answer, bytes),
      )?;
    }
    self.compare_memory("after a listing")
  }
}

/// A piece, one in eight with a fault or two.
fn any_piece(random: &mut Random) -> Piece {
  let reach = random.pick(&[3, 3, 20, LIMIT]);
  let mut piece = [random.between(0, 3), 0, 0, 0, 0];
  piece[1..].fill_with(|| random.between(-reach, reach));
  if random.between(0, 7) == 0 {
    let at = random.between(0, 4) as usize;
    piece[at] = random.pick(&TELLING);
    if random.between(0, 1) == 0 {
      piece[3] = piece[1];
      piece[4] = piece[2];
    }
  }
  piece
}

/// Memory too small to be a chart: 8, before any other fault, and nothing is altered.
fn short() -> Result<(), String> {
  for length in [0, 1, 5, NUMBERS - 5, NUMBERS - 1] {
    let kept = vec![7; length];
    let (mut memory, mut bytes) = (kept.clone(), lent::bytes(9));
    let told = [
      outcome(library::open_empty(&mut memory)),
      library::open_add(&mut memory, &[4, 0, 0, 0, 0]),
      library::open_add(&mut memory, &[3, 0, 0, 1, 1]),
      library::open_drop(&mut memory, 0),
      library::open_drop(&mut memory, PLACES),
      outcome(library::open_used(&memory)),
      outcome(library::open_pairs(&memory, &mut bytes)),
    ];
    let call = || format!("{length} numbers lent");
    agree(call, "scope", [Err((8, 0)); 7], "library", told)?;
    agree(
      call,
      "scope",
      (kept, lent::bytes(9)),
      "library",
      (memory, bytes),
    )?;
  }
  Ok(())
}

fn outcome(answer: Answer) -> Result<usize, Refusal> {
  match (answer.number, answer.place, answer.count) {
    (0, 0, count) => Ok(count),
    (number @ 1.., place, 0) => Err((number, place)),
    other => panic!("{other:?} is no answer"),
  }
}
