//! Stands for the root of `core::math`: it only gathers the five files.

mod base_math;
mod circle_circle_intersect;
mod line_circle_intersect;
mod line_line_intersect;
mod vector2;

pub use base_math::*;
pub use circle_circle_intersect::*;
pub use line_circle_intersect::*;
pub use line_line_intersect::*;
pub use vector2::*;
