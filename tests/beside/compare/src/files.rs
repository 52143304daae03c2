//! Files that no chart has: every short one of telling bytes, every change of a byte, cut and
//! extension of sound ones, random bytes and random changes, and every size of the lent list up to the limit. And files
//! of every count, in as many groups as it has and in more.

use crate::answers::{Chart, LIMIT, MOST_PIECES, Refusal};
use crate::case::agree;
use crate::charts::{Random, scattered};
use crate::file::{self, ROOM, compare_reading, damaged, in_groups, write};
use crate::kept;

/// Bytes at which an answer changes: counts, kinds and last groups at their limits, and groups with
/// their high bit set.
const TELLING: [u8; 14] = [
  0x00, 0x01, 0x02, 0x03, 0x04, 0x40, 0x41, 0x7f, 0x80, 0x83, 0xc8, 0xc9, 0xfe, 0xff,
];

/// What comes before telling bytes: nothing, a kind, three coordinates.
const FRONTS: [&[u8]; 3] = [&[], &[1, 3], &[1, 3, 0, 0, 2]];

/// Compares them all, `count` random ones from the seed, and says how many they were and how many of them were read.
pub fn compare(seed: u64, count: usize) -> Result<(usize, usize), String> {
  let mut files = short(4);
  for chart in kept::charts().into_iter().chain([widest()]) {
    files.extend(changed(&write(&chart)));
  }
  for (bytes, due) in counts((0..=MOST_PIECES as u32).chain(BEYOND)) {
    let call = || format!("the count of {bytes:02x?}");
    let read = file::read(&bytes).map(|chart| chart.len());
    agree(call, "scope", due, "model", read)?;
    files.push(bytes);
  }
  let random = (0..count).map(|i| random(&mut Random::new(seed, i)));
  let (mut compared, mut read) = (0, 0);
  for bytes in files.into_iter().chain(random) {
    compared += 1;
    read += usize::from(compare_reading(&bytes, ROOM)?);
  }
  for lent in 0..ROOM + 6 {
    compare_reading(&write(&widest()), lent)?;
    compare_reading(&[], lent)?;
  }
  Ok((compared, read))
}

/// The sample that a program of the library replays: short files, and those of small charts, sound
/// and damaged.
pub fn sample() -> Vec<Vec<u8>> {
  let mut files = short(2);
  for chart in kept::charts().into_iter().filter(|c| c.len() <= 4) {
    files.push(write(&chart));
    files.extend(damaged(&chart).into_iter().map(|(bytes, _)| bytes));
  }
  files.push(write(&widest()[..64].to_vec()));
  files.push(write(&widest()));
  let counts = counts([127, 128, 199, 200, 201, 255, 16_384].into_iter());
  files.extend(counts.into_iter().map(|(bytes, _)| bytes));
  files
}

/// Counts beyond the most, among them such as are small in eight bits or in sixteen.
const BEYOND: [u32; 8] = [
  MOST_PIECES as u32 + 1,
  255,
  256,
  257,
  456,
  16_383,
  16_384,
  65_537,
];

/// Files of these counts, in the fewest groups, in more and cut inside the count, and what is due of each: how many pieces
/// are read, or the refusal.
fn counts(counts: impl Iterator<Item = u32>) -> Vec<(Vec<u8>, Result<usize, Refusal>)> {
  let mut files = Vec::new();
  for count in counts {
    let pieces = [3, 0, 0, 2, 2].repeat(count.min(MOST_PIECES as u32 + 1) as usize);
    let fewest = in_groups(count);
    let fits = count as usize <= MOST_PIECES;
    let due = if fits {
      Ok(count as usize)
    } else {
      Err((3, 0))
    };
    files.push(([&fewest[..], &pieces].concat(), due));
    for cut in 0..fewest.len() {
      files.push((fewest[..cut].to_vec(), Err((1, 0))));
    }
    let mut padded = fewest;
    while padded.len() <= 3 {
      *padded.last_mut().expect("a number has a group") |= 0x80;
      files.push((
        padded.clone(),
        Err((if padded.len() > 2 { 2 } else { 1 }, 0)),
      ));
      padded.push(0);
      files.push(([&padded[..], &pieces].concat(), Err((2, 0))));
    }
  }
  files
}

/// A front and up to so many telling bytes.
fn short(most: usize) -> Vec<Vec<u8>> {
  let mut files: Vec<Vec<u8>> = FRONTS.iter().map(|front| front.to_vec()).collect();
  let mut longest = files.clone();
  for _ in 0..most {
    let longer = |file: &Vec<u8>| TELLING.map(|b| [&file[..], &[b]].concat());
    longest = longest.iter().flat_map(longer).collect();
    files.extend_from_slice(&longest);
  }
  files
}

/// A full chart whose coordinates all take three groups.
pub fn widest() -> Chart {
  vec![[3, LIMIT, -LIMIT, -LIMIT, LIMIT]; MOST_PIECES]
}

/// The file with each of its bytes changed to every other, cut at each place, and with each byte added. Of a long file the
/// bytes at its front and its end, and one in 37 between: some at each place of a piece, which has 13.
fn changed(sound: &[u8]) -> Vec<Vec<u8>> {
  let mut files = Vec::new();
  let told = |at: &usize| *at < 64 || at + 64 >= sound.len() || at % 37 == 0;
  for at in (0..sound.len()).filter(told) {
    files.push(sound[..at].to_vec());
    for b in (0..=255).filter(|b| *b != sound[at]) {
      let mut bytes = sound.to_vec();
      bytes[at] = b;
      files.push(bytes);
    }
  }
  files.extend((0..=255).map(|b| [sound, &[b]].concat()));
  files
}

fn random(random: &mut Random) -> Vec<u8> {
  match random.pick(&[false, true]) {
    true => scrambled(random),
    false => any_bytes(random),
  }
}

/// The file of a random chart with a few bytes changed, and one in four cut.
fn scrambled(random: &mut Random) -> Vec<u8> {
  let count = random.between(0, MOST_PIECES as i32) as usize;
  let reach = random.pick(&[20, 3_000, LIMIT]);
  let mut bytes = write(&scattered(random, count, reach));
  for _ in 0..random.between(0, 3) {
    let at = random.between(0, bytes.len() as i32 - 1) as usize;
    bytes[at] = any_or_telling(random);
  }
  if random.between(0, 3) == 0 {
    bytes.truncate(random.between(0, bytes.len() as i32) as usize);
  }
  bytes
}

/// A count and random bytes.
fn any_bytes(random: &mut Random) -> Vec<u8> {
  let mut bytes = in_groups(random.between(0, MOST_PIECES as i32 + 1) as u32);
  for _ in 0..random.between(0, 900) {
    bytes.push(any_or_telling(random));
  }
  bytes
}

fn any_or_telling(random: &mut Random) -> u8 {
  let any = random.between(0, 255) as u8;
  let telling = random.pick(&TELLING);
  random.pick(&[any, telling])
}
