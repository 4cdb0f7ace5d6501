// The original's stages on the lists of `ours`. This file is taken in twice: as module `scan`, where
// the spatial index is a plain list, and as module `tree`, where it is a packed tree. `cavalier` is
// the original, built with the one or the other.

use super::ours::{CutRoom, EDITIONS, Pair, Slices, candidates, candidates_along, cut_order};
use cavalier::core::math::Vector2;
use cavalier::polyline::internal::pline_boolean::{
    NotXorStitchSelector, OrAndStitchSelector, ProcessForBooleanResult, PruneMode, SliceStarts,
    process_for_boolean, prune_slices, slice_at_intersects, stitch_slices_into_closed_polylines,
};
use cavalier::polyline::internal::{pline_boolean_and_lookup as lookup, pline_intersects};
use cavalier::polyline::{
    BooleanPlineSlice, BooleanResultPline, PlineOrientation, PlineSource, PlineVertex,
    PlineViewData, Polyline, seg_midpoint, seg_split_at_point,
};
use std::cell::Cell;
use std::hint::black_box;

/// What two outlines share, for the copy of the crate whose cut order can be asked.
pub type OrderInfo = lookup::ProcessForBooleanResult<f64>;

pub type Loops = Vec<BooleanResultPline<Polyline>>;

pub fn polyline(numbers: &[f64]) -> Polyline {
    let vertex = |v: &[f64]| PlineVertex::new(v[0], v[1], v[2]);
    Polyline::from_vertexes(numbers.chunks_exact(3).map(vertex).collect(), true)
}

/// Two outlines and what they share.
pub struct Shared {
    pub plines: [Polyline; 2],
    info: ProcessForBooleanResult<f64>,
    tolerance: f64,
}

fn orientation(info: &ProcessForBooleanResult<f64>) -> [PlineOrientation; 2] {
    [info.pline1_orientation, info.pline2_orientation]
}

impl Shared {
    /// Crossings and overlaps are the crate's own.
    pub fn find(outlines: &[Vec<f64>; 2], tolerance: f64) -> Shared {
        let plines = [polyline(&outlines[0]), polyline(&outlines[1])];
        let index = plines[0].create_approx_aabb_index();
        let info = process_for_boolean(&plines[0], &plines[1], &index, tolerance);
        Shared {
            plines,
            info,
            tolerance,
        }
    }

    /// The intersections listed in a shuffled order.
    pub fn shuffle(&mut self) {
        super::shapes::shuffle(&mut self.info.intersects);
    }

    /// The same as flat lists.
    pub fn pair(&self, outlines: &[Vec<f64>; 2]) -> Pair {
        let mut pair = Pair {
            outlines: outlines.clone(),
            vertex_counts: outlines.each_ref().map(|outline| outline.len() / 3),
            hits: self.info.intersects.len(),
            laps: self.info.overlapping_slices.len(),
            hit_at: Vec::new(),
            hit: Vec::new(),
            lap_at: Vec::new(),
            lap: Vec::new(),
            lap_edition: Vec::new(),
            opposing: self.info.opposing_directions(),
            tolerance: self.tolerance,
        };
        for hit in &self.info.intersects {
            pair.hit_at.extend([hit.start_index1, hit.start_index2]);
            pair.hit.extend([hit.point.x, hit.point.y]);
        }
        for lap in &self.info.overlapping_slices {
            let view = &lap.view_data;
            pair.lap_at
                .extend([lap.start_indexes.0, lap.start_indexes.1]);
            pair.lap_at.extend([lap.end_indexes.0, lap.end_indexes.1]);
            pair.lap_at.push(usize::from(lap.opposing_directions));
            pair.lap_at
                .extend([view.start_index, view.end_index_offset]);
            pair.lap.extend(view_numbers(view));
            pair.lap_edition.push(EDITIONS[1]);
        }
        pair
    }

    /// The same to be asked for its cut order.
    pub fn for_cut_order(&self) -> OrderInfo {
        let overlaps = self.info.overlapping_slices.iter();
        let copied =
            |lap: &pline_intersects::OverlappingSlice<f64>| pline_intersects::OverlappingSlice {
                start_indexes: lap.start_indexes,
                end_indexes: lap.end_indexes,
                view_data: lap.view_data,
                is_loop: lap.is_loop,
                opposing_directions: lap.opposing_directions,
            };
        let [one, two] = orientation(&self.info);
        OrderInfo {
            overlapping_slices: overlaps.map(copied).collect(),
            intersects: self.info.intersects.to_vec(),
            pline1_orientation: one,
            pline2_orientation: two,
        }
    }

    /// Cut order alone: the lookup is built and dropped.
    pub fn cut_order(&self, info: &OrderInfo, outline: usize) {
        let pline = &self.plines[outline];
        lookup::order_cuts(black_box(pline), info, outline == 1, self.tolerance);
    }

    /// The order as our lists hold it, but for the numbers of arrival.
    pub fn listed_order(&self, info: &OrderInfo, outline: usize) -> Vec<(usize, bool, Vector2)> {
        let pline = &self.plines[outline];
        lookup::listed_cuts(pline, info, outline == 1, self.tolerance)
    }

    /// All candidates of one outline.
    pub fn candidates(&self, outline: usize) -> Vec<BooleanPlineSlice<f64>> {
        let mut slices = Vec::new();
        let keep_all = &mut |midpoint: Vector2| {
            let _ = black_box(midpoint);
            true
        };
        slice_at_intersects(
            black_box(&self.plines[outline]),
            &self.info,
            outline == 1,
            keep_all,
            &mut slices,
            self.tolerance,
        );
        slices
    }

    /// Slices and prunes; the winding numbers are the crate's own.
    pub fn prune(&self, mode: u32) -> Vec<BooleanPlineSlice<f64>> {
        let [one, two] = &self.plines;
        let pruned = prune_slices(
            black_box(one),
            two,
            &self.info,
            mode_of(mode),
            self.tolerance,
        );
        pruned.slices_remaining
    }

    /// Slices and prunes; the inside answers are handed in.
    pub fn prune_answered(&self, mode: u32, inside: [&[u8]; 2]) -> Vec<BooleanPlineSlice<f64>> {
        let one = Answered::new(&self.plines[0], inside[1]);
        let two = Answered::new(&self.plines[1], inside[0]);
        let pruned = prune_slices(
            black_box(&one),
            &two,
            &self.info,
            mode_of(mode),
            self.tolerance,
        );
        pruned.slices_remaining
    }

    /// The slices that the crate's own pruning keeps, as flat lists.
    pub fn slices(&self, mode: u32) -> Slices {
        let [one, two] = &self.plines;
        let pruned = prune_slices(one, two, &self.info, mode_of(mode), self.tolerance);
        let mut slices = flat(&pruned.slices_remaining);
        let starts = pruned.starts;
        slices.starts = [
            starts.pline2,
            starts.pline1_overlapping,
            starts.pline2_overlapping,
        ];
        slices
    }

    /// The splits of the cuts, which stand in order in the room, by the crate's own function: one a
    /// cut, and one more a segment with several. Only what is read of them is written.
    pub fn split_cuts(&self, outline: usize, room: &mut CutRoom) {
        let vertices = &self.plines[outline].vertex_data[..];
        let (cut_at, _) = room.cut_at.as_chunks::<3>();
        let (points, _) = room.cut.as_chunks::<2>();
        let (splits, _) = room.splits.as_chunks_mut::<9>();
        let count = cut_at.len();
        let (points, splits) = (&points[..count], &mut splits[..count]);
        let mut i = 0;
        while i < count {
            let segment = cut_at[i][0];
            let start = vertices[segment];
            let end = *vertices.get(segment + 1).unwrap_or(&vertices[0]);
            let first = i;
            let mut running = start;
            while i < count && cut_at[i][0] == segment {
                let point = Vector2::new(points[i][0], points[i][1]);
                let split = seg_split_at_point(running, end, point, self.tolerance);
                set_vertex(&mut splits[i], 0, split.updated_start);
                set_vertex(&mut splits[i], 3, split.split_vertex);
                running = split.split_vertex;
                i += 1;
            }
            let last = i - 1;
            // At a segment's only cut the split of the whole segment is the same one.
            if last > first {
                let point = Vector2::new(points[last][0], points[last][1]);
                running = seg_split_at_point(start, end, point, self.tolerance).split_vertex;
            }
            set_vertex(&mut splits[last], 6, running);
        }
    }

    /// Our candidates with what the original does in the same function: splits and midpoints.
    pub fn our_candidates(&self, pair: &Pair, outline: usize, room: &mut CutRoom) {
        self.split_cuts(outline, room);
        candidates(pair, outline, room);
        self.use_midpoints(room);
    }

    /// The same after the cut order, which is handed in: what a host does.
    pub fn our_candidates_in_order(&self, pair: &Pair, outline: usize, room: &mut CutRoom) {
        cut_order(pair, outline, room);
        self.split_cuts(outline, room);
        candidates_along(pair, outline, room);
        self.use_midpoints(room);
    }

    /// The midpoint of each candidate, by the crate's own function.
    pub fn use_midpoints(&self, room: &CutRoom) {
        for n in room.probe[..6 * room.count].chunks_exact(6) {
            let _ = black_box(probe_midpoint(n));
        }
    }

    /// The inside answers of the candidates in the room, by the crate's own winding numbers.
    pub fn answer_inside(&self, outline: usize, room: &mut CutRoom) {
        let other = &self.plines[1 - outline];
        let probes = room.probe[..6 * room.count].chunks_exact(6);
        for (n, inside) in probes.zip(&mut room.inside) {
            *inside = u8::from(other.winding_number(probe_midpoint(n)) != 0);
        }
    }
}

fn set_vertex(numbers: &mut [f64; 9], at: usize, v: PlineVertex) {
    numbers[at] = v.x;
    numbers[at + 1] = v.y;
    numbers[at + 2] = v.bulge;
}

fn probe_midpoint(n: &[f64]) -> Vector2 {
    let (a, b) = (
        PlineVertex::new(n[0], n[1], n[2]),
        PlineVertex::new(n[3], n[4], n[5]),
    );
    seg_midpoint(a, b)
}

fn mode_of(code: u32) -> PruneMode {
    match code {
        0 => PruneMode::Union,
        1 => PruneMode::Intersection,
        2 => PruneMode::FirstMinusSecond,
        _ => PruneMode::SecondMinusFirst,
    }
}

pub fn view_numbers(view: &PlineViewData) -> [f64; 6] {
    let (v, end) = (view.updated_start, view.end_point);
    [v.x, v.y, v.bulge, view.updated_end_bulge, end.x, end.y]
}

/// Slices as flat lists. Where their classes begin is not set.
pub fn flat(slices: &[BooleanPlineSlice<f64>]) -> Slices {
    let mut result = Slices::default();
    for slice in slices {
        let view = &slice.view_data;
        result.push(
            usize::from(!slice.source_is_pline1),
            view.inverted_direction,
            view.start_index,
            view.end_index_offset,
            view_numbers(view),
        );
    }
    result
}

/// An outline whose winding numbers are handed in: the midpoints come in the order of the candidates.
struct Answered<'a> {
    pline: &'a Polyline,
    inside: &'a [u8],
    next: Cell<usize>,
}

impl<'a> Answered<'a> {
    fn new(pline: &'a Polyline, inside: &'a [u8]) -> Answered<'a> {
        let next = Cell::new(0);
        Answered {
            pline,
            inside,
            next,
        }
    }
}

impl PlineSource for Answered<'_> {
    type Num = f64;
    type OutputPolyline = Polyline;

    fn get_userdata_count(&self) -> usize {
        0
    }

    fn get_userdata_values(&self) -> impl Iterator<Item = u64> + '_ {
        std::iter::empty()
    }

    #[inline]
    fn vertex_count(&self) -> usize {
        self.pline.vertex_data.len()
    }

    #[inline]
    fn is_closed(&self) -> bool {
        true
    }

    #[inline]
    fn get(&self, index: usize) -> Option<PlineVertex> {
        self.pline.vertex_data.get(index).copied()
    }

    #[inline]
    fn at(&self, index: usize) -> PlineVertex {
        self.pline.vertex_data[index]
    }

    #[inline]
    fn winding_number(&self, point: Vector2) -> i32 {
        let _ = black_box(point);
        let at = self.next.get();
        self.next.set(at + 1);
        i32::from(self.inside[at])
    }
}

/// What the original's stitch is given.
pub struct Stitch {
    plines: [Polyline; 2],
    slices: Vec<BooleanPlineSlice<f64>>,
    starts: [usize; 3],
    tolerance: f64,
}

impl Stitch {
    pub fn new(outlines: &[Vec<f64>; 2], slices: &Slices, tolerance: f64) -> Stitch {
        let items = slices
            .slice_at
            .chunks_exact(4)
            .zip(slices.slice.chunks_exact(6));
        let slice = |(at, n): (&[usize], &[f64])| BooleanPlineSlice {
            view_data: PlineViewData {
                start_index: at[2],
                end_index_offset: at[3],
                updated_start: PlineVertex::new(n[0], n[1], n[2]),
                updated_end_bulge: n[3],
                end_point: Vector2::new(n[4], n[5]),
                inverted_direction: at[1] == 1,
            },
            source_is_pline1: at[0] == 1,
            overlapping: false,
        };
        Stitch {
            plines: [polyline(&outlines[0]), polyline(&outlines[1])],
            slices: items.map(slice).collect(),
            starts: slices.starts,
            tolerance,
        }
    }

    pub fn run(&self, selector: u32) -> Loops {
        let [one, two] = &self.plines;
        let [pline2, pline1_overlapping, pline2_overlapping] = self.starts;
        let starts = SliceStarts {
            pline2,
            pline1_overlapping,
            pline2_overlapping,
        };
        let slices = black_box(&self.slices);
        if selector == 0 {
            let selector = OrAndStitchSelector::new(starts);
            stitch_slices_into_closed_polylines(slices, one, two, &selector, self.tolerance, None)
        } else {
            let selector = NotXorStitchSelector::new(starts);
            stitch_slices_into_closed_polylines(slices, one, two, &selector, self.tolerance, None)
        }
    }
}
