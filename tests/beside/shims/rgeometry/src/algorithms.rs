pub mod intersection {
  pub mod bentley_ottmann;
  pub mod naive;
  pub mod record;
  /// bentley_ottmann.rs once more, with the lines that steps.sed adds.
  pub mod steps;
}
