//! Makes a chart on which an answer differs as small as it can while one still does.

use crate::answers::{Chart, has_length};

/// A chart that is wrong, and of which no part or simpler form that is tried here is.
pub fn smallest(mut chart: Chart, is_wrong: impl Fn(&Chart) -> bool) -> Chart {
  loop {
    let found = simpler(&chart).find(&is_wrong);
    let Some(simpler) = found else {
      return chart;
    };
    chart = simpler;
  }
}

fn simpler(chart: &Chart) -> impl Iterator<Item = Chart> {
  without_pieces(chart).chain(with_a_simpler_number(chart))
}

/// Without half of the pieces that stand together, without a quarter, and so on down to one.
fn without_pieces(chart: &Chart) -> impl Iterator<Item = Chart> {
  let halves = std::iter::successors(Some(chart.len() / 2), |size| Some(size / 2));
  let sizes = halves.take_while(|size| *size > 1).chain([1]);
  sizes.flat_map(move |size| {
    (0..chart.len()).step_by(size).map(move |from| {
      let mut fewer = chart.clone();
      fewer.drain(from..(from + size).min(chart.len()));
      fewer
    })
  })
}

fn with_a_simpler_number(chart: &Chart) -> impl Iterator<Item = Chart> {
  let places = (0..chart.len()).flat_map(|i| (0..5).map(move |k| (i, k)));
  places.flat_map(move |(i, k)| {
    let v = chart[i][k];
    let smaller = match k {
      0 => vec![3; usize::from(v != 3)],
      _ => nearer_to_zero(v),
    };
    let with = move |s| {
      let mut simpler = chart.clone();
      simpler[i][k] = s;
      simpler
    };
    let charts = smaller.into_iter().map(with);
    charts.filter(move |c| has_length(&c[i]))
  })
}

/// Less all of it, half, a quarter and so on down to one: far steps first, so that few are needed.
fn nearer_to_zero(v: i32) -> Vec<i32> {
  let parts = std::iter::successors(Some(v), |part| Some(part / 2));
  let parts = parts.take_while(|part| *part != 0);
  parts.map(|part| v - part).collect()
}
