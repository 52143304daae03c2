mod directed_edge;
mod line;
mod line_segment;
mod point;
mod vector;

pub use directed_edge::{DirectedEdge, DirectedEdgeView};
pub use line::*;
pub use line_segment::*;
pub use point::Point;
pub use vector::Vector;
