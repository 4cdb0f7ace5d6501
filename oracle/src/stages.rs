//! The ported stages of the original, each as one function on plain values. Nothing is watched here,
//! so a benchmark can time these as they are.

use cavalier_contours::core::math::Vector2;
use cavalier_contours::polyline::internal::pline_boolean::{
    NotXorStitchSelector, OrAndStitchSelector, ProcessForBooleanResult, PruneMode, PrunedSlices,
    SliceStarts, StitchSelector, process_for_boolean, prune_slices, slice_at_intersects,
    stitch_slices_into_closed_polylines,
};
use cavalier_contours::polyline::internal::pline_boolean_and_lookup as opened;
use cavalier_contours::polyline::internal::pline_intersects::OverlappingSlice;
use cavalier_contours::polyline::{
    BooleanPlineSlice, BooleanResultPline, PlineBasicIntersect, PlineCreation, PlineOrientation,
    PlineSource, PlineVertex, PlineView, PlineViewData, Polyline, ViewDataValidation,
};

pub type Info = ProcessForBooleanResult<f64>;
pub type Slice = BooleanPlineSlice<f64>;

/// Cuts segment by segment; of each cut its point and its overlap mark.
pub type Lookup = Vec<(usize, Vec<(Vector2, bool)>)>;

/// A closed outline of three numbers to a vertex.
pub fn outline(numbers: &[f64]) -> Polyline {
    Polyline::from_vertexes(vertices(numbers), true)
}

pub fn vertices(numbers: &[f64]) -> Vec<PlineVertex> {
    let vertex = |v: &[f64]| PlineVertex::new(v[0], v[1], v[2]);
    numbers.chunks_exact(3).map(vertex).collect()
}

pub fn view_data(
    start_index: usize,
    end_index_offset: usize,
    n: &[f64],
    inverted: bool,
) -> PlineViewData {
    PlineViewData {
        start_index,
        end_index_offset,
        updated_start: PlineVertex::new(n[0], n[1], n[2]),
        updated_end_bulge: n[3],
        end_point: Vector2::new(n[4], n[5]),
        inverted_direction: inverted,
    }
}

/// The six numbers of a view, in the order of the lists.
pub fn view_numbers(view: &PlineViewData) -> [f64; 6] {
    let v = view.updated_start;
    let end = view.end_point;
    [v.x, v.y, v.bulge, view.updated_end_bulge, end.x, end.y]
}

/// What two outlines share, from the flat lists. Only the question "opposing or not" is kept of their
/// directions.
pub fn info(hit_at: &[usize], hit: &[f64], lap_at: &[usize], lap: &[f64], opposing: bool) -> Info {
    let one_hit = |(at, p): (&[usize], &[f64])| {
        PlineBasicIntersect::new(at[0], at[1], Vector2::new(p[0], p[1]))
    };
    let one_lap = |(at, n): (&[usize], &[f64])| OverlappingSlice {
        start_indexes: (at[0], at[1]),
        end_indexes: (at[2], at[3]),
        view_data: view_data(at[5], at[6], n, false),
        is_loop: false,
        opposing_directions: at[4] == 1,
    };
    let hits = hit_at.chunks_exact(2).zip(hit.chunks_exact(2));
    let laps = lap_at.chunks_exact(7).zip(lap.chunks_exact(6));
    Info {
        overlapping_slices: laps.map(one_lap).collect(),
        intersects: hits.map(one_hit).collect(),
        pline1_orientation: PlineOrientation::CounterClockwise,
        pline2_orientation: if opposing {
            PlineOrientation::Clockwise
        } else {
            PlineOrientation::CounterClockwise
        },
    }
}

/// The crate's own intersections and joined overlaps.
pub fn find_shared(pline1: &Polyline, pline2: &Polyline, tolerance: f64) -> Info {
    process_for_boolean(
        pline1,
        pline2,
        &pline1.create_approx_aabb_index(),
        tolerance,
    )
}

/// One vertex of a view.
pub fn view_vertex(pline: &Polyline, view: PlineViewData, index: usize) -> Option<PlineVertex> {
    PlineView::new(pline, view).get(index)
}

/// All vertices of a view.
pub fn view_vertices(pline: &Polyline, view: PlineViewData) -> Vec<PlineVertex> {
    PlineView::new(pline, view).iter_vertexes().collect()
}

pub fn create(
    pline: &Polyline,
    start_index: usize,
    end_intersect: Vector2,
    intersect_index: usize,
    updated_start: PlineVertex,
    traverse_count: usize,
    tolerance: f64,
) -> PlineViewData {
    PlineViewData::create(
        pline,
        start_index,
        end_intersect,
        intersect_index,
        updated_start,
        traverse_count,
        tolerance,
    )
}

pub fn create_on_single_segment(
    pline: &Polyline,
    start_index: usize,
    updated_start: PlineVertex,
    end_intersect: Vector2,
    tolerance: f64,
) -> Option<PlineViewData> {
    PlineViewData::create_on_single_segment(
        pline,
        start_index,
        updated_start,
        end_intersect,
        tolerance,
    )
}

pub fn from_entire_pline(pline: &Polyline) -> PlineViewData {
    PlineViewData::from_entire_pline(pline)
}

/// An outline of three numbers to a vertex, open or closed.
pub fn open_or_closed(numbers: &[f64], closed: bool) -> Polyline {
    Polyline::from_vertexes(vertices(numbers), closed)
}

pub fn from_slice_points(
    pline: &Polyline,
    start: (usize, Vector2),
    end: (usize, Vector2),
    tolerance: f64,
) -> Option<PlineViewData> {
    PlineViewData::from_slice_points(pline, start.1, start.0, end.1, end.0, tolerance)
}

pub fn from_new_start(
    pline: &Polyline,
    start: (usize, Vector2),
    tolerance: f64,
) -> Option<PlineViewData> {
    PlineViewData::from_new_start(pline, start.1, start.0, tolerance)
}

pub fn validate<P>(pline: &P, view: &PlineViewData) -> ViewDataValidation<f64>
where
    P: PlineSource<Num = f64>,
{
    view.validate_for_source(pline)
}

/// The cuts of one outline in their order, from the private function in the second copy of its file.
pub fn cut_order(pline: &Polyline, info: Info, second: bool, tolerance: f64) -> Lookup {
    let info = opened::ProcessForBooleanResult {
        overlapping_slices: info.overlapping_slices,
        intersects: info.intersects,
        pline1_orientation: info.pline1_orientation,
        pline2_orientation: info.pline2_orientation,
    };
    opened::cuts_in_order(pline, &info, second, tolerance)
}

/// Every candidate of one outline, whatever its inside answer.
pub fn slice<P>(pline: &P, info: &Info, second: bool, tolerance: f64) -> Vec<Slice>
where
    P: PlineSource<Num = f64>,
{
    let mut slices = Vec::new();
    let keep_all = &mut |_midpoint: Vector2| true;
    slice_at_intersects(pline, info, second, keep_all, &mut slices, tolerance);
    slices
}

/// The mode of a code: 0 Union, 1 Intersection, 2 FirstMinusSecond, 3 SecondMinusFirst.
pub fn mode(code: u64) -> PruneMode {
    match code {
        0 => PruneMode::Union,
        1 => PruneMode::Intersection,
        2 => PruneMode::FirstMinusSecond,
        _ => PruneMode::SecondMinusFirst,
    }
}

pub fn prune<P, R>(
    pline1: &P,
    pline2: &R,
    info: &Info,
    mode_code: u64,
    tolerance: f64,
) -> PrunedSlices<f64>
where
    P: PlineSource<Num = f64>,
    R: PlineSource<Num = f64>,
{
    prune_slices(pline1, pline2, info, mode(mode_code), tolerance)
}

/// One of the two selectors.
pub enum Selector {
    OrAnd(OrAndStitchSelector),
    NotXor(NotXorStitchSelector),
}

impl Selector {
    /// The selector of a code: 0 OrAnd, 1 NotXor.
    pub fn new(code: u64, starts: SliceStarts) -> Selector {
        match code {
            0 => Selector::OrAnd(OrAndStitchSelector::new(starts)),
            _ => Selector::NotXor(NotXorStitchSelector::new(starts)),
        }
    }
}

impl StitchSelector for Selector {
    fn select(&self, current_slice_idx: usize, available_idx: &[usize]) -> Option<usize> {
        match self {
            Selector::OrAnd(selector) => selector.select(current_slice_idx, available_idx),
            Selector::NotXor(selector) => selector.select(current_slice_idx, available_idx),
        }
    }
}

/// The loops of the slices. With a limit, those of small area are dropped.
pub fn stitch<S, O>(
    slices: &[Slice],
    pline1: &Polyline,
    pline2: &Polyline,
    selector: &S,
    tolerance: f64,
    limit: Option<f64>,
) -> Vec<BooleanResultPline<O>>
where
    S: StitchSelector,
    O: PlineCreation<Num = f64>,
{
    stitch_slices_into_closed_polylines(slices, pline1, pline2, selector, tolerance, limit)
}

/// The slices of the flat lists.
pub fn slices(slice_at: &[usize], slice: &[f64]) -> Vec<Slice> {
    let one_slice = |(at, n): (&[usize], &[f64])| Slice {
        view_data: view_data(at[2], at[3], n, at[1] == 1),
        source_is_pline1: at[0] == 1,
        overlapping: false,
    };
    let items = slice_at.chunks_exact(4).zip(slice.chunks_exact(6));
    items.map(one_slice).collect()
}
