//! The archive in Rust: the structs and functions of `include/mask.h`, with a slice where the header
//! has a pointer and a length. The tests of this crate hold both against the header's text.
//!
//! This file is a module of the crate `mask_tools`. The comparison and the benchmark build it as a
//! crate of its own, `archive`, so that an entry is declared once.

#[cfg(not(test))]
#[macro_use]
#[path = "declare.rs"]
mod declare;

/// A position.
#[repr(C)]
#[derive(Debug, Clone, Copy, PartialEq, Default)]
pub struct Point {
    /// Azimuth, or what the host takes for it.
    pub x: f64,
    /// Elevation, or what the host takes for it.
    pub y: f64,
}

/// A vertex of an outline: a position, and the bulge of the segment that starts there. The bulge
/// is 0 for a straight segment, else the segment is an arc.
#[repr(C)]
#[derive(Debug, Clone, Copy, PartialEq, Default)]
pub struct Vertex {
    /// Of its position.
    pub x: f64,
    /// Of its position.
    pub y: f64,
    /// Of the segment from here to the next vertex.
    pub bulge: f64,
}

/// The host's split of a segment at a point.
#[repr(C)]
#[derive(Debug, Clone, Copy, PartialEq, Default)]
pub struct Split {
    /// The segment's start, with the bulge up to the point.
    pub updated_start: Vertex,
    /// The point, with the bulge from there on.
    pub split_vertex: Vertex,
}

/// Slices come in four classes, one after the other: of outline 1, of outline 2, overlaps for 1,
/// overlaps for 2. This says where the last three begin.
#[repr(C)]
#[derive(Debug, Clone, Copy, PartialEq, Eq, Default)]
pub struct Starts {
    /// Where the slices of outline 2 begin.
    pub pline2: usize,
    /// Where the overlaps for outline 1 begin.
    pub pline1_overlapping: usize,
    /// Where the overlaps for outline 2 begin.
    pub pline2_overlapping: usize,
}

/// `mask_view`: a view with its direction as a code.
#[repr(C)]
#[derive(Debug, Clone, Copy, PartialEq, Default)]
pub struct View {
    pub start_index: usize,
    pub end_index_offset: usize,
    pub updated_start: Vertex,
    pub updated_end_bulge: f64,
    pub end_point: Point,
    pub inverted_direction: u32,
}

/// `mask_vertex_answer`
#[repr(C)]
#[derive(Debug, Clone, Copy, Default)]
pub struct VertexAnswer {
    pub refusal: u32,
    pub found: u32,
    pub vertex: Vertex,
}

/// `mask_view_answer`
#[repr(C)]
#[derive(Debug, Clone, Copy, Default)]
pub struct ViewAnswer {
    pub refusal: u32,
    pub found: u32,
    pub view: View,
}

/// `mask_span_answer`
#[repr(C)]
#[derive(Debug, Clone, Copy, Default)]
pub struct SpanAnswer {
    pub refusal: u32,
    pub moved: u32,
    pub start_index: usize,
    pub traverse_count: usize,
}

/// `mask_verdict_answer`
#[repr(C)]
#[derive(Debug, Clone, Copy, Default)]
pub struct VerdictAnswer {
    pub refusal: u32,
    pub verdict: u32,
    pub offset: usize,
    pub source_length: usize,
    pub point: Point,
    pub vertex: Vertex,
    pub updated_bulge: f64,
    pub expected: f64,
}

/// `mask_reopen_answer`
#[repr(C)]
#[derive(Debug, Clone, Copy, Default)]
pub struct ReopenAnswer {
    pub refusal: u32,
    pub verdict: u32,
    pub offset: usize,
    pub source_length: usize,
    pub point: Point,
    pub vertex: Vertex,
    pub updated_bulge: f64,
    pub expected: f64,
    pub edition: u32,
}

/// `mask_unmoved_answer`
#[repr(C)]
#[derive(Debug, Clone, Copy, Default)]
pub struct UnmovedAnswer {
    pub refusal: u32,
    pub unmoved: u32,
    pub first: usize,
}

/// `mask_count_answer`
#[repr(C)]
#[derive(Debug, Clone, Copy, Default)]
pub struct CountAnswer {
    pub refusal: u32,
    pub count: usize,
}

/// `mask_prune_answer`
#[repr(C)]
#[derive(Debug, Clone, Copy, Default)]
pub struct PruneAnswer {
    pub refusal: u32,
    pub slices: usize,
    pub starts: Starts,
}

/// `mask_stitch_answer`
#[repr(C)]
#[derive(Debug, Clone, Copy, Default)]
pub struct StitchAnswer {
    pub refusal: u32,
    pub rounds: usize,
    pub loops: usize,
    pub chains: usize,
}

/// `mask_winding_answer`
#[repr(C)]
#[derive(Debug, Clone, Copy, Default)]
pub struct WindingAnswer {
    pub refusal: u32,
    pub winding: i64,
}

/// `mask_area_answer`
#[repr(C)]
#[derive(Debug, Clone, Copy, Default)]
pub struct AreaAnswer {
    pub refusal: u32,
    pub negative: u32,
    pub high: u64,
    pub low: u64,
}

/// `mask_report_answer`
#[repr(C)]
#[derive(Debug, Clone, Copy, Default)]
pub struct ReportAnswer {
    pub refusal: u32,
    pub count: usize,
    pub zero: usize,
    pub high: u64,
    pub low: u64,
}

/// `mask_edition_answer`
#[repr(C)]
#[derive(Debug, Clone, Copy, Default)]
pub struct EditionAnswer {
    pub refusal: u32,
    pub edition: usize,
}

/// `mask_setting_answer`
#[repr(C)]
#[derive(Debug, Clone, Copy, Default)]
pub struct SettingAnswer {
    pub refusal: u32,
    pub tolerance_x: f64,
    pub tolerance_y: f64,
    pub area_limit: f64,
}

/// `mask_replay_answer`
#[repr(C)]
#[derive(Debug, Clone, Copy, Default)]
pub struct ReplayAnswer {
    pub refusal: u32,
    pub version: u32,
    pub slices: usize,
    pub rounds: usize,
    pub loops: usize,
    pub chains: usize,
}

/// `mask_handle_answer`
#[repr(C)]
#[derive(Debug, Clone, Copy, Default)]
pub struct HandleAnswer {
    pub refusal: u32,
    pub handle: usize,
}

/// `mask_done_answer`
#[repr(C)]
#[derive(Debug, Clone, Copy, Default)]
pub struct DoneAnswer {
    pub refusal: u32,
}

#[cfg(not(test))]
pub use entries::*;

/// The archive's functions, with slices for pointers and lengths.
#[cfg(not(test))]
mod entries {
    use super::{
        AreaAnswer, CountAnswer, DoneAnswer, EditionAnswer, HandleAnswer, Point, PruneAnswer,
        ReopenAnswer, ReplayAnswer, ReportAnswer, SettingAnswer, SpanAnswer, Split, StitchAnswer,
        UnmovedAnswer, VerdictAnswer, Vertex, VertexAnswer, View, ViewAnswer, WindingAnswer,
    };

    declare_entries! {
        mask_view_vertex as view_vertex(
            outline: &[f64], vc: usize, view: View, index: usize,
        ) -> VertexAnswer;

        mask_view_vertices as view_vertices(
            outline: &[f64], vc: usize, view: View, vertices: &mut [f64],
        ) -> CountAnswer;

        mask_create as create(
            outline: &[f64], vc: usize, start_index: usize, end_intersect: Point,
            intersect_index: usize, updated_start: Vertex, traverse_count: usize, tolerance_x: f64,
            tolerance_y: f64, split: Split,
        ) -> ViewAnswer;

        mask_create_on_single_segment as create_on_single_segment(
            outline: &[f64], vc: usize, start_index: usize, updated_start: Vertex,
            end_intersect: Point, tolerance_x: f64, tolerance_y: f64,
        ) -> ViewAnswer;

        mask_from_entire_pline as from_entire_pline(
            outline: &[f64], vc: usize, closed: u32,
        ) -> ViewAnswer;

        mask_validate_for_source as validate_for_source(
            outline: &[f64], vc: usize, edition: u32, view: View, view_edition: u32,
            start_on_segment: u32, end_on_segment: u32,
        ) -> VerdictAnswer;

        mask_reopen as reopen(
            outline: &[f64], vc: usize, edition: u32, view: View, view_edition: u32,
            start_on_segment: u32, end_on_segment: u32,
        ) -> ReopenAnswer;

        mask_unmoved as unmoved(
            outline1: &[f64], vc1: usize, outline2: &[f64], vc2: usize, view: View,
        ) -> UnmovedAnswer;

        mask_slice_span as slice_span(
            outline: &[f64], vc: usize, closed: u32, start_index: usize, start_point: Point,
            end_index: usize, end_point: Point, tolerance_x: f64, tolerance_y: f64,
        ) -> SpanAnswer;

        mask_from_slice_points as from_slice_points(
            outline: &[f64], vc: usize, closed: u32, start_index: usize, start_point: Point,
            end_index: usize, end_point: Point, tolerance_x: f64, tolerance_y: f64,
            start_split: Split, end_split: Split,
        ) -> ViewAnswer;

        mask_from_new_start as from_new_start(
            outline: &[f64], vc: usize, closed: u32, start_index: usize, start_point: Point,
            tolerance_x: f64, tolerance_y: f64, start_split: Split, end_split: Split,
        ) -> ViewAnswer;

        mask_cut_order as cut_order(
            outline: &[f64], vc: usize, source: u32, hit_at: &[usize], hit: &[f64], hits: usize,
            lap_at: &[usize], lap: &[f64], laps: usize, tolerance_x: f64, tolerance_y: f64,
            cut_at: &mut [usize], cut: &mut [f64],
        ) -> CountAnswer;

        mask_candidates as candidates(
            outline: &[f64], vc: usize, edition: u32, source: u32, hit_at: &[usize], hit: &[f64],
            hits: usize, lap_at: &[usize], lap: &[f64], laps: usize, splits: &[f64],
            tolerance_x: f64, tolerance_y: f64, cand_at: &mut [usize], cand: &mut [f64],
            probe: &mut [f64], cand_edition: &mut [u32],
        ) -> CountAnswer;

        mask_candidates_along as candidates_along(
            outline: &[f64], vc: usize, edition: u32, source: u32, hit_at: &[usize], hit: &[f64],
            hits: usize, lap_at: &[usize], lap: &[f64], laps: usize, cut_at: &[usize],
            splits: &[f64], tolerance_x: f64, tolerance_y: f64, cand_at: &mut [usize],
            cand: &mut [f64], probe: &mut [f64], cand_edition: &mut [u32],
        ) -> CountAnswer;

        mask_prune as prune(
            mode: u32, opposing: u32, vc1: usize, vc2: usize, cand_at1: &[usize], cand1: &[f64],
            cand_edition1: &[u32], inside1: &[u8], count1: usize, cand_at2: &[usize], cand2: &[f64],
            cand_edition2: &[u32], inside2: &[u8], count2: usize, lap_at: &[usize], lap: &[f64],
            lap_edition: &[u32], laps: usize, slice_at: &mut [usize], slice: &mut [f64],
            slice_edition: &mut [u32],
        ) -> PruneAnswer;

        mask_stitch as stitch(
            outline1: &[f64], vc1: usize, edition1: u32, outline2: &[f64], vc2: usize,
            edition2: u32, slice_at: &[usize], slice: &[f64], slice_edition: &[u32], slices: usize,
            pline2: usize, pline1_overlapping: usize, pline2_overlapping: usize, selector: u32,
            entered: &[usize], settings: &[f64], setting: usize, room: &mut [f64],
            ends: &mut [usize], chain: &mut [usize], chain_ends: &mut [usize],
            chain_how: &mut [usize],
        ) -> StitchAnswer;

        mask_area_pass as area_pass(
            areas: &[f64], loops: usize, entered: &[usize], settings: &[f64], setting: usize,
            kept: &mut [usize],
        ) -> CountAnswer;

        mask_straight_winding as straight_winding(
            outline: &[i64], vc: usize, x: i64, y: i64,
        ) -> WindingAnswer;

        mask_straight_area as straight_area(outline: &[i64], vc: usize) -> AreaAnswer;

        mask_straight_report as straight_report(
            points: &[i64], ends: &[usize], loops: usize,
        ) -> ReportAnswer;

        mask_straight_slices as straight_slices(
            mode: u32, opposing: u32, outline1: &[f64], vc1: usize, edition1: u32, outline2: &[f64],
            vc2: usize, edition2: u32, hit_at: &[usize], hit: &[f64], hits: usize, lap_at: &[usize],
            lap: &[f64], lap_edition: &[u32], laps: usize, tolerance_x: f64, tolerance_y: f64,
            slice_at: &mut [usize], slice: &mut [f64], slice_edition: &mut [u32],
        ) -> PruneAnswer;

        mask_settings_enter as settings_enter(
            entered: &mut [usize], settings: &mut [f64], tolerance_x: f64, tolerance_y: f64,
            area_limit: f64,
        ) -> EditionAnswer;

        mask_settings_ask as settings_ask(
            entered: &[usize], settings: &[f64], edition: usize,
        ) -> SettingAnswer;

        mask_record_write as record_write(
            version: u32, outline1: &[f64], vc1: usize, edition1: u32, outline2: &[f64], vc2: usize,
            edition2: u32, slice_at: &[usize], slice: &[f64], slice_edition: &[u32], slices: usize,
            pline2: usize, pline1_overlapping: usize, pline2_overlapping: usize, selector: u32,
            tolerance_x: f64, tolerance_y: f64, bytes: &mut [u8],
        ) -> CountAnswer;

        mask_record_replay as record_replay(
            bytes: &[u8], room: &mut [f64], ends: &mut [usize], chain: &mut [usize],
            chain_ends: &mut [usize], chain_how: &mut [usize],
        ) -> ReplayAnswer;

        mask_store_put as store_put(
            held: &mut [usize], slice_at: &mut [usize], slice: &mut [f64],
            slice_edition: &mut [u32], party: u32, put_at: &[usize], put: &[f64], put_edition: u32,
        ) -> HandleAnswer;

        mask_store_release as store_release(
            held: &mut [usize], slice_at: &[usize], slice: &[f64], slice_edition: &[u32],
            party: u32, handle: usize,
        ) -> DoneAnswer;

        mask_store_list as store_list(
            held: &[usize], slice_at: &[usize], slice: &[f64], slice_edition: &[u32], party: u32,
            handles: &mut [usize], list_at: &mut [usize], list: &mut [f64],
            list_edition: &mut [u32],
        ) -> CountAnswer;

        mask_store_compact as store_compact(
            held: &mut [usize], slice_at: &mut [usize], slice: &mut [f64],
            slice_edition: &mut [u32], party: u32,
        ) -> DoneAnswer;
    }
}
