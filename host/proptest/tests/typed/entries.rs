//! The entries as `include/mask.h` declares them, written down a second time: what the typed layer
//! is compared with.

use crate::words::{words, Words};
use mask_tools::{Point, Split, Starts, Vertex};

/// What an entry answers: its refusal, and its other fields as words.
pub trait Answer {
    fn refusal(&self) -> u32;
    fn fields(&self) -> Vec<u64>;
}

macro_rules! answers {
    ($($name:ident { $($field:ident: $kind:ty),* })*) => {$(
        #[repr(C)]
        pub struct $name {
            pub refusal: u32,
            $(pub $field: $kind,)*
        }

        impl Answer for $name {
            fn refusal(&self) -> u32 {
                self.refusal
            }

            fn fields(&self) -> Vec<u64> {
                words![$(self.$field),*]
            }
        }
    )*};
}

/// `mask_view`: its direction is a code.
#[repr(C)]
#[derive(Clone, Copy)]
pub struct View {
    pub start_index: usize,
    pub end_index_offset: usize,
    pub updated_start: Vertex,
    pub updated_end_bulge: f64,
    pub end_point: Point,
    pub inverted_direction: u32,
}

#[rustfmt::skip]
answers! {
    VertexAnswer { found: u32, vertex: Vertex }
    ViewAnswer { found: u32, view: View }
    SpanAnswer { moved: u32, start_index: usize, traverse_count: usize }
    VerdictAnswer { verdict: u32, offset: usize, source_length: usize, point: Point, vertex: Vertex, updated_bulge: f64, expected: f64 }
    ReopenAnswer { verdict: u32, offset: usize, source_length: usize, point: Point, vertex: Vertex, updated_bulge: f64, expected: f64,
        edition: u32 }
    UnmovedAnswer { unmoved: u32, first: usize }
    CountAnswer { count: usize }
    PruneAnswer { slices: usize, starts: Starts }
    StitchAnswer { rounds: usize, loops: usize, chains: usize }
    WindingAnswer { winding: i64 }
    AreaAnswer { negative: u32, high: u64, low: u64 }
    ReportAnswer { count: usize, zero: usize, high: u64, low: u64 }
    EditionAnswer { edition: usize }
    SettingAnswer { tolerance_x: f64, tolerance_y: f64, area_limit: f64 }
    ReplayAnswer { version: u32, slices: usize, rounds: usize, loops: usize, chains: usize }
    HandleAnswer { handle: usize }
    DoneAnswer {}
}

#[rustfmt::skip]
declare_entries! {
    mask_view_vertex as view_vertex(outline: &[f64], vc: usize, view: View, index: usize) -> VertexAnswer;
    mask_view_vertices as view_vertices(outline: &[f64], vc: usize, view: View, vertices: &mut [f64]) -> CountAnswer;
    mask_create as create(outline: &[f64], vc: usize, start_index: usize, end_intersect: Point, intersect_index: usize, updated_start: Vertex,
        traverse_count: usize, tolerance_x: f64, tolerance_y: f64, split: Split) -> ViewAnswer;
    mask_create_on_single_segment as create_on_single_segment(outline: &[f64], vc: usize, start_index: usize, updated_start: Vertex, end_intersect: Point, tolerance_x: f64,
        tolerance_y: f64) -> ViewAnswer;
    mask_from_entire_pline as from_entire_pline(outline: &[f64], vc: usize, closed: u32) -> ViewAnswer;
    mask_slice_span as slice_span(outline: &[f64], vc: usize, closed: u32, start_index: usize, start_point: Point, end_index: usize, end_point: Point,
        tolerance_x: f64, tolerance_y: f64) -> SpanAnswer;
    mask_from_slice_points as from_slice_points(outline: &[f64], vc: usize, closed: u32, start_index: usize, start_point: Point, end_index: usize, end_point: Point,
        tolerance_x: f64, tolerance_y: f64, start_split: Split, end_split: Split) -> ViewAnswer;
    mask_from_new_start as from_new_start(outline: &[f64], vc: usize, closed: u32, start_index: usize, start_point: Point, tolerance_x: f64, tolerance_y: f64,
        start_split: Split, end_split: Split) -> ViewAnswer;
    mask_validate_for_source as validate_for_source(outline: &[f64], vc: usize, edition: u32, view: View, view_edition: u32, start_on_segment: u32,
        end_on_segment: u32) -> VerdictAnswer;
    mask_reopen as reopen(outline: &[f64], vc: usize, edition: u32, view: View, view_edition: u32, start_on_segment: u32,
        end_on_segment: u32) -> ReopenAnswer;
    mask_unmoved as unmoved(outline1: &[f64], vc1: usize, outline2: &[f64], vc2: usize, view: View) -> UnmovedAnswer;
    mask_cut_order as cut_order(outline: &[f64], vc: usize, source: u32, hit_at: &[usize], hit: &[f64], hits: usize, lap_at: &[usize], lap: &[f64],
        laps: usize, tolerance_x: f64, tolerance_y: f64, cut_at: &mut [usize], cut: &mut [f64]) -> CountAnswer;
    mask_candidates as candidates(outline: &[f64], vc: usize, edition: u32, source: u32, hit_at: &[usize], hit: &[f64], hits: usize, lap_at: &[usize],
        lap: &[f64], laps: usize, splits: &[f64], tolerance_x: f64, tolerance_y: f64, cand_at: &mut [usize], cand: &mut [f64],
        probe: &mut [f64], cand_edition: &mut [u32]) -> CountAnswer;
    mask_candidates_along as candidates_along(outline: &[f64], vc: usize, edition: u32, source: u32, hit_at: &[usize], hit: &[f64], hits: usize,
        lap_at: &[usize], lap: &[f64], laps: usize, cut_at: &[usize], splits: &[f64], tolerance_x: f64, tolerance_y: f64, cand_at: &mut [usize],
        cand: &mut [f64], probe: &mut [f64], cand_edition: &mut [u32]) -> CountAnswer;
    mask_prune as prune(mode: u32, opposing: u32, vc1: usize, vc2: usize, cand_at1: &[usize], cand1: &[f64], cand_edition1: &[u32], inside1: &[u8],
        count1: usize, cand_at2: &[usize], cand2: &[f64], cand_edition2: &[u32], inside2: &[u8], count2: usize, lap_at: &[usize],
        lap: &[f64], lap_edition: &[u32], laps: usize, slice_at: &mut [usize], slice: &mut [f64], slice_edition: &mut [u32]) -> PruneAnswer;
    mask_stitch as stitch(outline1: &[f64], vc1: usize, edition1: u32, outline2: &[f64], vc2: usize, edition2: u32, slice_at: &[usize], slice: &[f64],
        slice_edition: &[u32], slices: usize, pline2: usize, pline1_overlapping: usize, pline2_overlapping: usize, selector: u32,
        entered: &[usize], settings: &[f64], setting: usize, room: &mut [f64], ends: &mut [usize], chain: &mut [usize],
        chain_ends: &mut [usize], chain_how: &mut [usize]) -> StitchAnswer;
    mask_area_pass as area_pass(areas: &[f64], loops: usize, entered: &[usize], settings: &[f64], setting: usize, kept: &mut [usize]) -> CountAnswer;
    mask_settings_enter as settings_enter(entered: &mut [usize], settings: &mut [f64], tolerance_x: f64, tolerance_y: f64, area_limit: f64) -> EditionAnswer;
    mask_settings_ask as settings_ask(entered: &[usize], settings: &[f64], edition: usize) -> SettingAnswer;
    mask_record_write as record_write(version: u32, outline1: &[f64], vc1: usize, edition1: u32, outline2: &[f64], vc2: usize, edition2: u32,
        slice_at: &[usize], slice: &[f64], slice_edition: &[u32], slices: usize, pline2: usize, pline1_overlapping: usize,
        pline2_overlapping: usize, selector: u32, tolerance_x: f64, tolerance_y: f64, bytes: &mut [u8]) -> CountAnswer;
    mask_record_replay as record_replay(bytes: &[u8], room: &mut [f64], ends: &mut [usize], chain: &mut [usize], chain_ends: &mut [usize],
        chain_how: &mut [usize]) -> ReplayAnswer;
    mask_straight_winding as straight_winding(outline: &[i64], vc: usize, x: i64, y: i64) -> WindingAnswer;
    mask_straight_area as straight_area(outline: &[i64], vc: usize) -> AreaAnswer;
    mask_straight_report as straight_report(points: &[i64], ends: &[usize], loops: usize) -> ReportAnswer;
    mask_straight_slices as straight_slices(mode: u32, opposing: u32, outline1: &[f64], vc1: usize, edition1: u32, outline2: &[f64], vc2: usize, edition2: u32,
        hit_at: &[usize], hit: &[f64], hits: usize, lap_at: &[usize], lap: &[f64], lap_edition: &[u32], laps: usize, tolerance_x: f64,
        tolerance_y: f64, slice_at: &mut [usize], slice: &mut [f64], slice_edition: &mut [u32]) -> PruneAnswer;
    mask_store_put as store_put(held: &mut [usize], slice_at: &mut [usize], slice: &mut [f64], slice_edition: &mut [u32], party: u32, put_at: &[usize],
        put: &[f64], put_edition: u32) -> HandleAnswer;
    mask_store_release as store_release(held: &mut [usize], slice_at: &[usize], slice: &[f64], slice_edition: &[u32], party: u32, handle: usize) -> DoneAnswer;
    mask_store_list as store_list(held: &[usize], slice_at: &[usize], slice: &[f64], slice_edition: &[u32], party: u32, handles: &mut [usize],
        list_at: &mut [usize], list: &mut [f64], list_edition: &mut [u32]) -> CountAnswer;
    mask_store_compact as store_compact(held: &mut [usize], slice_at: &mut [usize], slice: &mut [f64], slice_edition: &mut [u32], party: u32) -> DoneAnswer;
}
