//! Stands for the root of `core`.

pub mod math;
pub mod traits;

pub use static_aabb2d_index::Control;
