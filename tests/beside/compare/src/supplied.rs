//! A supplier's list: the Rust's own is accepted, in any order and either number order; each damage is told at its first
//! place; and a model with sets says the same of every list.

use std::collections::BTreeSet;

use crate::answers::{Pair, Refusal};
use crate::case::{Case, agree};
use crate::library::{self, Said};
use crate::refusals::{damaged, numbers};

pub fn compare(case: &Case) -> Result<(), String> {
  let list = numbers(&case.chart);
  let listed = case.original.naive();
  let meeting: BTreeSet<Pair> = listed.iter().copied().collect();
  let pieces = case.chart.len();
  let turned: Vec<Pair> = listed.iter().rev().map(|&(a, b)| (b, a)).collect();
  for right in [&listed, &turned] {
    compare_call(&list, &bytes(right), Ok(Said::Accepted))?;
    for (wrong, said) in damages(pieces, &meeting, right) {
      let call = || format!("the pairs {wrong:?} by the model");
      agree(
        call,
        "damage",
        said,
        "model",
        model(pieces, &meeting, &wrong),
      )?;
      compare_call(&list, &bytes(&wrong), Ok(said))?;
    }
  }
  let odd = [bytes(&listed), vec![0]].concat();
  compare_call(&list, &odd, Err((16, 0)))?;
  for (list, refusal) in damaged(&case.chart) {
    compare_call(&list, &odd, Err(refusal))?;
  }
  Ok(())
}

fn compare_call(list: &[i32], pairs: &[u8], due: Result<Said, Refusal>) -> Result<(), String> {
  let call = || format!("the check of {pairs:?} on {list:?}");
  agree(call, "scope", due, "library", library::check(list, pairs))
}

fn bytes(pairs: &[Pair]) -> Vec<u8> {
  pairs
    .iter()
    .flat_map(|&(a, b)| [a as u8, b as u8])
    .collect()
}

/// The greater number first.
fn ordered((a, b): Pair) -> Pair {
  (a.max(b), a.min(b))
}

/// A right list with one entry taken out, repeated or replaced, and what is due to be said.
fn damages(pieces: usize, meeting: &BTreeSet<Pair>, right: &[Pair]) -> Vec<(Vec<Pair>, Said)> {
  let Some(last) = right.len().checked_sub(1) else {
    return vec![(
      vec![(0, 0)],
      Said::Fault(0, if pieces == 0 { 1 } else { 2 }),
    )];
  };
  let every = (0..pieces).flat_map(|a| (0..a).map(move |b| (a, b)));
  let apart = every.filter(|pair| !meeting.contains(pair)).last();
  let mut damages = vec![];
  for k in BTreeSet::from([0, right.len() / 2, last]) {
    let (a, b) = right[k];
    let mut without = right.to_vec();
    without.remove(k);
    let (greater, lesser) = ordered((a, b));
    damages.push((without, Said::Missing(greater, lesser)));
    let repeated = [right, &[(b, a)], &[(pieces, pieces)]].concat();
    damages.push((repeated, Said::Fault(right.len(), 4)));
    let mut replace = |entry, fault| {
      let mut replaced = right.to_vec();
      replaced[k] = entry;
      damages.push((replaced, Said::Fault(k, fault)));
    };
    replace((pieces, b), 1);
    replace((255, 255), 1);
    replace((a, a), 2);
    if let Some((c, d)) = apart {
      replace((c, d), 3);
      replace((d, c), 3);
    }
  }
  damages
}

/// "name the first entry at fault, .. or, when all entries are good, the first missing pair"
fn model(pieces: usize, meeting: &BTreeSet<Pair>, pairs: &[Pair]) -> Said {
  let mut named = BTreeSet::new();
  for (i, &(a, b)) in pairs.iter().enumerate() {
    let fault = if a >= pieces || b >= pieces {
      1
    } else if a == b {
      2
    } else if !meeting.contains(&ordered((a, b))) {
      3
    } else if !named.insert(ordered((a, b))) {
      4
    } else {
      continue;
    };
    return Said::Fault(i, fault);
  }
  match meeting.difference(&named).next() {
    Some(&(a, b)) => Said::Missing(a, b),
    None => Said::Accepted,
  }
}
