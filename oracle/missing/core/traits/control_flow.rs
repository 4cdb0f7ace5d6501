//! Stands for the trait `ControlFlow`. It is the index's own, so that one answer serves both.

pub use static_aabb2d_index::ControlFlow;
