pub trait Intersects<Other = Self> {
  type Result;
  fn intersect(self, other: Other) -> Option<Self::Result>;
}
