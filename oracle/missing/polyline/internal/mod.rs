//! Stands for the root of `polyline::internal`.

pub mod pline_boolean;
pub mod pline_contains;
pub mod pline_intersects;
pub mod pline_offset;

// Made by the build: the bytes of `pline_boolean.rs`, then those of our `lookup.rs`. So the private
// function that orders the cuts can be asked. Nothing else uses this second copy.
pub mod pline_boolean_and_lookup;
