//! A call that sweeps into lent bytes, stopped at every budget, beside what is due there; and its refusals.

use crate::answers::{Pair, Run, Swept, is_upright};
use crate::case::{Case, agree};
use crate::lent::{self, SPARE, plenty, room};
use crate::library;
use crate::refusals::{damaged, numbers};

/// Beyond the end of every sweep; the first is negative in 32 bits with a sign.
const ENDLESS: [u32; 2] = [1 << 31, u32::MAX];

/// The library's call, and whose answers are due.
#[derive(Clone, Copy)]
pub struct Asked {
  pub call: &'static str,
  pub whose: &'static str,
  pub library: fn(&[i32], u32, &mut [u8]) -> Swept,
}

/// What is due at a budget: the answer, and the list from whose front its pairs come.
pub struct Stop<'a> {
  pub swept: Swept,
  pub list: &'a [Pair],
}

/// The ported sweep, beside the Rust's steps.
pub fn compare(case: &Case, run: &Run) -> Result<(), String> {
  let complete = !case.chart.iter().any(is_upright);
  let asked = Asked {
    call: "sweep",
    whose: "Rust",
    library: library::sweep,
  };
  asked.compare(case, run.steps.len() as u32, |budget| Stop {
    swept: stopped(run, complete, budget),
    list: &run.list,
  })
}

impl Asked {
  pub fn compare<'a>(
    self,
    case: &Case,
    end: u32,
    due: impl Fn(u32) -> Stop<'a>,
  ) -> Result<(), String> {
    let list = numbers(&case.chart);
    let enough = room(case.chart.len());
    for budget in budgets(case, end) {
      self.compare_stop(&list, enough, budget, due(budget))?;
    }
    let endless = u32::MAX;
    self.compare_stop(&list, enough + SPARE, endless, due(endless))?;
    for budget in [0, endless] {
      for lent in [0, enough.saturating_sub(1)] {
        if lent < enough {
          self.compare_refusal(&list, lent, budget, (8, 0))?;
        }
      }
      for (list, refusal) in damaged(&case.chart) {
        for lent in [0, plenty(&list)] {
          self.compare_refusal(&list, lent, budget, refusal)?;
        }
      }
    }
    Ok(())
  }

  /// The answer of a sweep that is not refused, and every lent byte.
  fn compare_stop(self, list: &[i32], lent: usize, budget: u32, due: Stop) -> Result<(), String> {
    let content = lent::with_pairs(&lent::bytes(lent), &due.list[..due.swept.pairs]);
    self.compare_call(list, lent, budget, self.whose, (due.swept, content))
  }

  /// "A refusal .. writes nothing into lent memory."
  fn compare_refusal(
    self,
    list: &[i32],
    lent: usize,
    budget: u32,
    refusal: (u8, usize),
  ) -> Result<(), String> {
    let expected = (Swept::refused(refusal), lent::bytes(lent));
    self.compare_call(list, lent, budget, "scope", expected)
  }

  fn compare_call(
    self,
    list: &[i32],
    lent: usize,
    budget: u32,
    whose: &str,
    expected: (Swept, Vec<u8>),
  ) -> Result<(), String> {
    let mut bytes = lent::bytes(lent);
    let swept = (self.library)(list, budget, &mut bytes);
    let call = || {
      format!(
        "{} of {list:?} with budget {budget} into {lent} bytes",
        self.call
      )
    };
    agree(call, whose, expected, "library", (swept, bytes))
  }
}

/// Every one up to past the end of a small chart; a few of a large one.
fn budgets(case: &Case, end: u32) -> Vec<u32> {
  let mut budgets: Vec<u32> = if case.is_small() {
    (0..=end + 1).collect()
  } else {
    vec![0, 1, end / 2, end.saturating_sub(1), end, end + 1]
  };
  budgets.extend(ENDLESS);
  budgets
}

/// What the Rust's steps say of a sweep with this budget.
pub fn stopped(run: &Run, complete: bool, budget: u32) -> Swept {
  let done = run.steps.len().min(budget as usize);
  let last = run.steps[..done].last();
  Swept {
    number: 0,
    place: 0,
    pairs: last.map_or(0, |step| step.listed),
    steps: done as u32,
    ended: done == run.steps.len(),
    complete,
    last: last.map(|step| step.visited),
    examined: run.steps[..done]
      .iter()
      .map(|step| step.examined.len() as u64)
      .sum(),
  }
}
