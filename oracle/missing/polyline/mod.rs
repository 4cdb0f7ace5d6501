//! Stands for the root of `polyline`: it gathers the files.
//!
//! Three helpers pass through `watch`, so that a comparison can see what they are asked, and can
//! answer in their place: `seg_split_at_point`, `seg_closest_point` and `seg_midpoint`. Built without
//! `--cfg watched` they are the crate's own and nothing stands between, which is what a benchmark
//! wants.

pub mod internal;
mod pline;
mod pline_seg;
mod pline_seg_intersect;
mod pline_types;
mod pline_vertex;
mod pline_view;
mod traits;
#[cfg(watched)]
pub mod watch;

pub use pline::Polyline;
pub(crate) use pline_seg::arc_seg_bounding_box;
pub use pline_seg::{
    SplitResult, seg_arc_radius_and_center, seg_bounding_box, seg_fast_approx_bounding_box,
    seg_length, seg_tangent_vector,
};
#[cfg(not(watched))]
pub use pline_seg::{seg_closest_point, seg_midpoint, seg_split_at_point};
pub use pline_seg_intersect::*;
pub use pline_types::*;
pub use pline_vertex::PlineVertex;
pub use pline_view::*;
pub use traits::*;
#[cfg(watched)]
pub use watch::{seg_closest_point, seg_midpoint, seg_split_at_point};

/// The crate's own helpers, with nothing between.
pub mod own {
    pub use super::pline_seg::{seg_closest_point, seg_midpoint, seg_split_at_point};
}
