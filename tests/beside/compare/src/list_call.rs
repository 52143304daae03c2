//! A call that lists pairs into lent bytes, beside what is due; and its refusals.

use crate::answers::{Answer, Pair, Refusal};
use crate::case::{Case, agree};
use crate::lent::{self, SPARE, plenty, room};
use crate::refusals::{damaged, numbers};

pub struct Asked {
  pub call: &'static str,
  pub library: fn(&[i32], &mut [u8]) -> Answer,
}

impl Asked {
  /// What is due into room enough; 8 into less; and the refusals of the chart's damaged lists.
  pub fn compare(&self, case: &Case, due: Result<&[Pair], Refusal>) -> Result<(), String> {
    let list = numbers(&case.chart);
    let enough = room(case.chart.len());
    for lent in [0, enough.saturating_sub(1), enough, enough + SPARE] {
      let due = if lent < enough { Err((8, 0)) } else { due };
      self.compare_call(&list, lent, due)?;
    }
    for (list, refusal) in damaged(&case.chart) {
      for lent in [0, plenty(&list)] {
        self.compare_call(&list, lent, Err(refusal))?;
      }
    }
    Ok(())
  }

  /// The answer, and every lent byte.
  fn compare_call(
    &self,
    list: &[i32],
    lent: usize,
    due: Result<&[Pair], Refusal>,
  ) -> Result<(), String> {
    let mut bytes = lent::bytes(lent);
    let content = lent::with_pairs(&bytes, due.unwrap_or_default());
    let expected = (Answer::of(due.map(<[Pair]>::len)), content);
    let answer = (self.library)(list, &mut bytes);
    let call = || format!("{} of {list:?} into {lent} bytes", self.call);
    agree(call, "Rust, scope", expected, "library", (answer, bytes))
  }
}
