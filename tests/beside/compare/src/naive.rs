//! All pairs: the Rust over i64, over exact numbers, the model, and the library into lent bytes.

use crate::case::{Case, same};
use crate::list_call::Asked;
use crate::{library, model};

/// Of so many pieces every two are asked in exact numbers too.
const MOST_EXACT: usize = 64;

pub fn compare(case: &Case) -> Result<(), String> {
  let call = || "all pairs".to_string();
  let list = case.original.naive();
  if case.chart.len() <= MOST_EXACT && !case.swift {
    same(call, &list, "Rust, exact", &case.original.naive_exact())?;
  }
  same(call, &list, "model", &model::naive(&case.chart))?;
  let asked = Asked {
    call: "all pairs",
    library: library::all_pairs,
  };
  asked.compare(case, Ok(&list))
}
