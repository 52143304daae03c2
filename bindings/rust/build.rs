//! Links libchart_c.a, which `make` proves and writes: to target/staticlib of this repository, or wherever STATICLIB
//! says. The crate's sizes are those of the library's header.

use std::fs;
use std::path::PathBuf;

/// The sizes that stand in the header as plain numbers; the others follow from them.
const SIZES: [&str; 7] =
  ["MOST_PIECES", "LIMIT", "PIECE_NUMBERS", "MOST_FOLDED", "OPEN_PLACES", "MOST_CHARTS", "RESULT_NUMBERS"];

fn take_sizes() {
  let header = PathBuf::from(env!("CARGO_MANIFEST_DIR")).join("../../crates/chart_c/include/mirtalughe.h");
  println!("cargo::rerun-if-changed={}", header.display());
  let text = fs::read_to_string(&header).unwrap_or_else(|e| panic!("{}: {e}", header.display()));
  for name in SIZES {
    let define = format!("#define MIRTALUGHE_{name} ");
    let line = text.lines().find_map(|line| line.strip_prefix(&define));
    let number =
      line.and_then(|line| line.split(' ').next()).unwrap_or_else(|| panic!("no {name} in the header"));
    println!("cargo::rustc-env=MIRTALUGHE_{name}={number}");
  }
}

fn main() {
  take_sizes();
  println!("cargo::rerun-if-env-changed=STATICLIB");
  let here = PathBuf::from(env!("CARGO_MANIFEST_DIR")).join("../../target/staticlib");
  let folder = std::env::var_os("STATICLIB").map_or(here, PathBuf::from);
  let library = folder.join("libchart_c.a");
  if !library.is_file() {
    println!(
      "cargo::error={} is not there: run `make`, or set STATICLIB to its folder",
      library.display()
    );
    return;
  }
  println!("cargo::rerun-if-changed={}", library.display());
  println!("cargo::rustc-link-search=native={}", folder.display());
}
