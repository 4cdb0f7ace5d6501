//! Solofanju: proved mask tools, from Rust.
//!
//! A mask is a closed [`Outline`]: vertices, and between them straight segments or arcs. This
//! crate makes the union, the intersection and the differences of two masks. The work is done by
//! the archive `libmask.a`, whose entries are proved. This crate lends them their lists, gives
//! their answers as Rust's types, and a refusal as an error ([`Refusal`]). It has no unsafe code
//! but at the boundary.
//!
//! # Two masks
//!
//! The library cuts, prunes and stitches. The host keeps what needs roots or angles: it finds
//! where the outlines meet, splits segments, says what lies inside, and measures areas. It does
//! the last three through the trait [`Host`]. [`StraightHost`] is ready for outlines without arcs.
//!
//! ```
//! use mask_tools::{
//!     Intersection, Intersections, Masks, Mode, Outline, Overlaps, Point, Setting, Settings,
//!     StraightHost, Tolerance,
//! };
//!
//! # fn main() -> Result<(), mask_tools::Refusal> {
//! let a = Outline::straight(&[(0.0, 0.0), (4.0, 0.0), (4.0, 4.0), (0.0, 4.0)]);
//! let b = Outline::straight(&[(2.0, 2.0), (6.0, 2.0), (6.0, 6.0), (2.0, 6.0)]);
//! let crossing = |start_index1, start_index2, x, y| Intersection {
//!     start_index1,
//!     start_index2,
//!     point: Point::new(x, y),
//! };
//!
//! // The tolerances and the area limit, in a record that the operators extend.
//! let mut settings = Settings::new();
//! let edition = settings.enter(Setting {
//!     tolerance: Tolerance::new(1.0 / 1024.0),
//!     area_limit: 0.0,
//! })?;
//!
//! let masks = Masks {
//!     pline1: &a,
//!     pline2: &b,
//!     intersections: &Intersections::from([crossing(1, 0, 4.0, 2.0), crossing(2, 3, 2.0, 4.0)]),
//!     overlaps: &Overlaps::new(),
//!     setting: settings.named(edition),
//! };
//!
//! let both = masks.combine(Mode::Intersection, &mut StraightHost)?;
//! let corners: Vec<(f64, f64)> = both.loops().flatten().map(|v| (v.x, v.y)).collect();
//! assert_eq!(corners, [(4.0, 2.0), (4.0, 4.0), (2.0, 4.0), (2.0, 2.0)]);
//!
//! let either = masks.combine(Mode::Union, &mut StraightHost)?;
//! assert_eq!(either.loops().next().map(|lp| lp.len()), Some(8));
//! # Ok(())
//! # }
//! ```
//!
//! `Tolerance::new` gives both axes the same tolerance. Where the encoders of one are finer, each has
//! its own: `Tolerance { x: 1.0 / 1024.0, y: 1.0 / 4096.0 }`.
//!
//! # Step by step
//!
//! [`Masks::combine`] makes these calls. Each can be made alone:
//!
//! 1. [`cut_order`]: the cuts of an outline, in order.
//! 2. [`split_cuts`]: the host's split at each cut.
//! 3. [`candidates_along`]: the parts between the cuts, and what the host tests of each;
//!    [`candidates`] where the cuts were not asked for.
//! 4. [`prune`]: which of them stay, as slices.
//! 5. [`stitch`]: the loops that the slices make.
//! 6. [`area_pass`]: which loops are not below the area limit.
//!
//! Where the masks and their cuts are straight and in whole microdegrees, [`straight_slices`] takes the
//! place of the first four for both outlines, and the host is asked for areas alone.
//! [`Masks::is_straight_and_whole`] says which way it goes.
//!
//! [`View`] has the entries over a single part of an outline. [`lent`] has the calls that write
//! lists with room that the caller lends.
//!
//! # Start anywhere
//!
//! [`View::from_slice_points`] gives the part of an outline between two points of it, and
//! [`View::from_new_start`] starts an outline at a point of it. Each is one call with a [`Host`] that
//! splits; outlines may be open here.
//!
//! # Outlines that change
//!
//! An outline has an edition, and what is cut from it keeps that edition: a [`View`], and with it each
//! candidate, overlap and slice. Slices of one edition are not stitched with an outline of another:
//! that is [`Refusal::Edition`], and the way out is to cut again. [`View::reopen`] and
//! [`View::unmoved`] are for slices that are to be kept; docs/REOPENING.md says when that is honest.
//!
//! ```
//! use mask_tools::{Intersection, Intersections, Masks, Mode, Outline, Overlaps, Point, Refusal};
//! use mask_tools::{Setting, Settings, Source, StraightHost, Tolerance, Vertex};
//!
//! # fn main() -> Result<(), mask_tools::Refusal> {
//! let a = Outline::straight(&[(0.0, 0.0), (4.0, 0.0), (4.0, 4.0), (0.0, 4.0)]);
//! let b = Outline::straight(&[(2.0, 2.0), (6.0, 2.0), (6.0, 6.0), (2.0, 6.0)]);
//! # let crossing = |start_index1, start_index2, x, y| Intersection {
//! #     start_index1,
//! #     start_index2,
//! #     point: Point::new(x, y),
//! # };
//! # let crossings = Intersections::from([crossing(1, 0, 4.0, 2.0), crossing(2, 3, 2.0, 4.0)]);
//! # let no_overlaps = Overlaps::new();
//! # let mut settings = Settings::new();
//! # let tolerance = Tolerance::new(1.0 / 1024.0);
//! # let edition = settings.enter(Setting { tolerance, area_limit: 0.0 })?;
//! let masks = Masks {
//!     pline1: &a,
//!     pline2: &b,
//!     // ..
//! #     intersections: &crossings,
//! #     overlaps: &no_overlaps,
//! #     setting: settings.named(edition),
//! };
//! let of_a = masks.answered(Source::Pline1, &mut StraightHost)?;
//! let of_b = masks.answered(Source::Pline2, &mut StraightHost)?;
//!
//! // A late packet: A has another first corner. Its old candidates are not taken for the new one.
//! let mut corners = a.vertices().to_vec();
//! corners[0] = Vertex::new(1.0, 1.0, 0.0);
//! let late = Masks {
//!     pline1: &a.replaced_by(corners),
//!     ..masks
//! };
//! let found = late.combine_answered(Mode::Union, [&of_a, &of_b], &mut StraightHost);
//! assert_eq!(found, Err(Refusal::Edition));
//! assert!(late.combine(Mode::Union, &mut StraightHost).is_ok());
//! # Ok(())
//! # }
//! ```
//!
//! # Masks in whole microdegrees
//!
//! [`WholeOutline`] is an outline without arcs whose coordinates are whole numbers. Its winding
//! number and its area are exact, and so is [`straight_report`], which totals many of them. Two such
//! masks are cut, asked and pruned in one call, [`straight_slices`], with these winding numbers for the
//! inside answers; [`Masks::combine`] makes it where it can.
//!
//! # Settings by edition
//!
//! [`Settings`] is a record of up to 16 settings, which is extended and never overwritten. A stitch
//! and an area pass name the edition that they use ([`Settings::named`]).
//!
//! # Stitches archived and run again
//!
//! [`Record`] is the record `PBR`: the bytes of a stitch, with all that it takes. [`Record::write`]
//! makes one of what a stitch is made of, and [`Record::replay`] runs it again. Both are proved, and
//! so is that the one undoes the other.
//!
//! # Slices kept between runs
//!
//! [`Store`] keeps up to 896 slices for each of two parties, each with the edition of the outline
//! that it was cut from. It gives a handle for each, lists what is live in the order put, and what
//! it lists goes straight into a stitch. The example `kept_slices` finds those that a late outline has
//! left behind, reopens them or cuts them again, and stitches. Parties and handles are types, so that a
//! handle of one party cannot be taken for one of the other.
//!
//! # Masks that do not meet
//!
//! Outlines that share no point are not cut, so there are no slices and no loops.
//! [`Masks::any_intersects`] tells. Then one vertex of each decides, by the host's inside answer:
//!
//! | | union | intersection | first minus second |
//! |---|---|---|---|
//! | 1 lies in 2 | 2 | 1 | nothing |
//! | 2 lies in 1 | 1 | 2 | 1, with 2 for a hole |
//! | they lie apart | both | nothing | 1 |
//!
//! Where the two outlines run on each other all the way, the union and the intersection are
//! outline 2, and the differences are empty. That too is for the host to see.
//!
//! # Linking
//!
//! The build script takes `libmask.a` from the folder that `MASK_ARCHIVE_DIR` names, else from
//! `target/staticlib` of the repository, where `tools/library` puts it. The archive is for
//! x86-64. Elsewhere `cargo test --lib` still tests what lies above the boundary.

#![deny(missing_docs)]
#![deny(unsafe_code)]
#![warn(rust_2018_idioms)]

mod cuts;
#[allow(unsafe_code)]
mod ffi;
mod host;
pub mod lent;
mod list;
mod masks;
mod outline;
mod record;
mod refusal;
mod settings;
mod slices;
mod start;
mod stitch;
mod store;
mod straight;
mod view;

pub use cuts::{
    candidates, candidates_along, cut_order, Candidate, Candidates, Cut, CutSplit, Cuts,
    Intersection, Intersections, Overlap, Overlaps, Probe, Splits,
};
pub use ffi::{Point, Split, Starts, Vertex};
pub use host::{split_cuts, Host, StraightHost};
pub use list::{Iter, List};
pub use masks::{Combined, Masks};
pub use outline::{Outline, Source, Tolerance};
pub use record::{Record, RecordContents, RecordSlice, RecordVersion, Replay};
pub use refusal::Refusal;
pub use settings::{Named, Setting, Settings};
pub use slices::{prune, Answered, Mode, Slice, Slices};
pub use start::{slice_span, Place, Span};
pub use stitch::{area_pass, stitch, Chain, ChainEnd, Selector, Stitched};
pub use store::{First, Handle, Kept, Listed, Party, Second, Store};
pub use straight::{straight_report, straight_slices, StraightReport, WholeOutline};
pub use view::{OnSegment, Verdict, Vertices, View, Walk};
