//! Stands in for the three names of rand 0.9 that point.rs mentions. Nothing here draws a number.

pub trait Rng {
  fn random<T>(&mut self) -> T
  where
    distr::StandardUniform: distr::Distribution<T>,
  {
    distr::Distribution::sample(&distr::StandardUniform, self)
  }
}

pub mod distr {
  pub struct StandardUniform;

  pub trait Distribution<T> {
    fn sample<R: crate::Rng + ?Sized>(&self, rng: &mut R) -> T;
  }
}
