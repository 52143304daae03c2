//! The order of points whose coordinates are fractions, on the chart's ends and crossings.

use crate::answers::Point;
use crate::case::{Case, same};
use crate::{library, model, original};

/// So many points of a chart are compared with each other.
const MOST_POINTS: usize = 12;

pub fn compare(case: &Case) -> Result<(), String> {
  let points = points(case);
  for p in &points {
    for q in &points {
      let call = || format!("order of {p:?} and {q:?}");
      let order = original::order(p, q);
      same(call, order, "library", library::order(p, q))?;
      same(call, order, "model", p.cmp(q))?;
    }
  }
  Ok(())
}

fn points(case: &Case) -> Vec<Point> {
  let chart = &case.chart;
  let crossings = case.pairs().filter(|(a, b)| a < b);
  let crossings = crossings.filter_map(|(a, b)| model::crossing(&chart[a], &chart[b]));
  let first_end = |piece: &[i32; 5]| Point::whole(piece[1].into(), piece[2].into());
  let ends = chart.iter().map(first_end);
  crossings
    .take(MOST_POINTS - 2)
    .chain(ends.take(2))
    .collect()
}
