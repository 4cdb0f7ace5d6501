//! Our stages, with room that is lent once and used again in every call. Nothing is allocated in a
//! call.

use archive::{PruneAnswer, StitchAnswer, Vertex, View};

/// The editions of the two outlines.
pub const EDITIONS: [u32; 2] = [1, 2];

/// Two outlines and what they share, as flat lists, with the counts beside them: a host has both at
/// hand. The crossings and overlaps are the original's own.
pub struct Pair {
    pub outlines: [Vec<f64>; 2],
    pub vertex_counts: [usize; 2],
    pub hits: usize,
    pub laps: usize,
    pub hit_at: Vec<usize>,
    pub hit: Vec<f64>,
    pub lap_at: Vec<usize>,
    pub lap: Vec<f64>,
    pub lap_edition: Vec<u32>,
    pub opposing: bool,
    pub tolerance: f64,
}

impl Pair {
    pub fn cuts(&self) -> usize {
        self.hits + 2 * self.laps
    }
}

/// Room for the cuts and candidates of one outline.
pub struct CutRoom {
    pub cut_at: Vec<usize>,
    pub cut: Vec<f64>,
    pub splits: Vec<f64>,
    pub cand_at: Vec<usize>,
    pub cand: Vec<f64>,
    pub probe: Vec<f64>,
    pub cand_edition: Vec<u32>,
    pub inside: Vec<u8>,
    /// How many candidates there are.
    pub count: usize,
}

impl CutRoom {
    pub fn new(cuts: usize) -> CutRoom {
        CutRoom {
            cut_at: vec![0; 3 * cuts],
            cut: vec![0.0; 2 * cuts],
            splits: vec![0.0; 9 * cuts],
            cand_at: vec![0; 2 * cuts],
            cand: vec![0.0; 6 * cuts],
            probe: vec![0.0; 6 * cuts],
            cand_edition: vec![0; cuts],
            inside: vec![0; cuts],
            count: 0,
        }
    }
}

pub fn cut_order(pair: &Pair, outline: usize, room: &mut CutRoom) {
    let answer = archive::cut_order(
        &pair.outlines[outline],
        pair.vertex_counts[outline],
        outline as u32 + 1,
        &pair.hit_at,
        &pair.hit,
        pair.hits,
        &pair.lap_at,
        &pair.lap,
        pair.laps,
        pair.tolerance,
        pair.tolerance,
        &mut room.cut_at,
        &mut room.cut,
    );
    assert!(answer.refusal == 0 && answer.count == pair.cuts());
}

/// The splits are those in the room.
pub fn candidates(pair: &Pair, outline: usize, room: &mut CutRoom) {
    let answer = archive::candidates(
        &pair.outlines[outline],
        pair.vertex_counts[outline],
        EDITIONS[outline],
        outline as u32 + 1,
        &pair.hit_at,
        &pair.hit,
        pair.hits,
        &pair.lap_at,
        &pair.lap,
        pair.laps,
        &room.splits,
        pair.tolerance,
        pair.tolerance,
        &mut room.cand_at,
        &mut room.cand,
        &mut room.probe,
        &mut room.cand_edition,
    );
    assert_eq!(answer.refusal, 0);
    room.count = answer.count;
}

/// The same, with the order that is in the room.
pub fn candidates_along(pair: &Pair, outline: usize, room: &mut CutRoom) {
    let answer = archive::candidates_along(
        &pair.outlines[outline],
        pair.vertex_counts[outline],
        EDITIONS[outline],
        outline as u32 + 1,
        &pair.hit_at,
        &pair.hit,
        pair.hits,
        &pair.lap_at,
        &pair.lap,
        pair.laps,
        &room.cut_at,
        &room.splits,
        pair.tolerance,
        pair.tolerance,
        &mut room.cand_at,
        &mut room.cand,
        &mut room.probe,
        &mut room.cand_edition,
    );
    assert_eq!(answer.refusal, 0);
    room.count = answer.count;
}

/// Slices, and where their classes begin.
#[derive(Default)]
pub struct Slices {
    pub slice_at: Vec<usize>,
    pub slice: Vec<f64>,
    pub slice_edition: Vec<u32>,
    pub starts: [usize; 3],
}

impl Slices {
    pub fn room(slices: usize) -> Slices {
        Slices {
            slice_at: vec![0; 4 * slices],
            slice: vec![0.0; 6 * slices],
            slice_edition: vec![0; slices],
            starts: [0; 3],
        }
    }

    pub fn count(&self) -> usize {
        self.slice_at.len() / 4
    }

    /// One more slice of the outline, 0 or 1.
    pub fn push(
        &mut self,
        outline: usize,
        inverted: bool,
        start: usize,
        offset: usize,
        n: [f64; 6],
    ) {
        let inverted = usize::from(inverted);
        self.slice_at.extend([outline + 1, inverted, start, offset]);
        self.slice.extend(n);
        self.slice_edition.push(EDITIONS[outline]);
    }
}

pub fn prune(pair: &Pair, mode: u32, rooms: &[CutRoom; 2], slices: &mut Slices) -> PruneAnswer {
    let [one, two] = rooms;
    let answer = archive::prune(
        mode,
        u32::from(pair.opposing),
        pair.vertex_counts[0],
        pair.vertex_counts[1],
        &one.cand_at[..2 * one.count],
        &one.cand[..6 * one.count],
        &one.cand_edition[..one.count],
        &one.inside[..one.count],
        one.count,
        &two.cand_at[..2 * two.count],
        &two.cand[..6 * two.count],
        &two.cand_edition[..two.count],
        &two.inside[..two.count],
        two.count,
        &pair.lap_at,
        &pair.lap,
        &pair.lap_edition,
        pair.laps,
        &mut slices.slice_at,
        &mut slices.slice,
        &mut slices.slice_edition,
    );
    assert_eq!(answer.refusal, 0);
    answer
}

/// Room for the slices of the one call, exactly as long as its need.
pub fn straight_room(pair: &Pair) -> Slices {
    Slices::room(2 * pair.cuts() + 2 * pair.laps)
}

pub fn straight_slices(pair: &Pair, mode: u32, slices: &mut Slices) -> PruneAnswer {
    let [one, two] = &pair.outlines;
    let answer = archive::straight_slices(
        mode,
        u32::from(pair.opposing),
        one,
        pair.vertex_counts[0],
        EDITIONS[0],
        two,
        pair.vertex_counts[1],
        EDITIONS[1],
        &pair.hit_at,
        &pair.hit,
        pair.hits,
        &pair.lap_at,
        &pair.lap,
        &pair.lap_edition,
        pair.laps,
        pair.tolerance,
        pair.tolerance,
        &mut slices.slice_at,
        &mut slices.slice,
        &mut slices.slice_edition,
    );
    assert_eq!(answer.refusal, 0);
    answer
}

/// The outlines of a pair in whole numbers, x and y in turn.
pub fn whole_outlines(pair: &Pair) -> [Vec<i64>; 2] {
    pair.outlines.each_ref().map(|outline| {
        let positions = outline.chunks_exact(3).flat_map(|v| [v[0], v[1]]);
        positions.map(|n| n as i64).collect()
    })
}

/// The inside answers of the candidates in the room, by `mask_straight_winding` of the other outline.
pub fn answer_inside(other: &[i64], room: &mut CutRoom) {
    let probes = room.probe[..6 * room.count].chunks_exact(6);
    for (n, inside) in probes.zip(&mut room.inside) {
        let (x, y) = (n[0] as i64 + n[3] as i64, n[1] as i64 + n[4] as i64);
        let answer = archive::straight_winding(other, other.len() / 2, x, y);
        assert_eq!(answer.refusal, 0);
        *inside = u8::from(answer.winding != 0);
    }
}

/// The splits of straight segments at the cuts in the room: positions stay, bulges are +0.
pub fn straight_splits(pair: &Pair, outline: usize, room: &mut CutRoom) {
    let vertices = &pair.outlines[outline];
    for (p, split) in room.splits.chunks_exact_mut(9).enumerate() {
        let segment = room.cut_at[3 * p];
        let running = match p > 0 && room.cut_at[3 * p - 3] == segment {
            true => &room.cut[2 * p - 2..2 * p],
            false => &vertices[3 * segment..3 * segment + 2],
        };
        let cut = &room.cut[2 * p..2 * p + 2];
        split[..2].copy_from_slice(running);
        split[3..5].copy_from_slice(cut);
        split[6..8].copy_from_slice(cut);
    }
}

/// Room for a stitch.
pub struct StitchRoom {
    pub vertices: Vec<f64>,
    pub ends: Vec<usize>,
    chain: Vec<usize>,
    chain_ends: Vec<usize>,
    chain_how: Vec<usize>,
}

impl StitchRoom {
    /// Exactly the need, so that all of it is written or cleared.
    pub fn new(slices: &Slices) -> StitchRoom {
        let count = slices.count();
        let offsets = slices.slice_at.chunks_exact(4).map(|at| at[3] + 1);
        StitchRoom {
            vertices: vec![0.0; 3 * (1 + offsets.sum::<usize>())],
            ends: vec![0; count],
            chain: vec![0; count],
            chain_ends: vec![0; count],
            chain_how: vec![0; count],
        }
    }
}

/// A record of settings with one of them entered, the same tolerance on both axes.
pub struct Record {
    entered: [usize; 1],
    settings: [f64; 48],
    edition: usize,
}

impl Record {
    pub fn new(tolerance: f64, limit: f64) -> Record {
        let (mut entered, mut settings) = ([0], [0.0; 48]);
        let answer =
            archive::settings_enter(&mut entered, &mut settings, tolerance, tolerance, limit);
        assert_eq!(answer.refusal, 0);
        Record {
            entered,
            settings,
            edition: answer.edition,
        }
    }
}

pub fn stitch(
    outlines: &[Vec<f64>; 2],
    slices: &Slices,
    selector: u32,
    record: &Record,
    room: &mut StitchRoom,
) -> StitchAnswer {
    let [pline2, overlaps1, overlaps2] = slices.starts;
    let answer = archive::stitch(
        &outlines[0],
        outlines[0].len() / 3,
        EDITIONS[0],
        &outlines[1],
        outlines[1].len() / 3,
        EDITIONS[1],
        &slices.slice_at,
        &slices.slice,
        &slices.slice_edition,
        slices.count(),
        pline2,
        overlaps1,
        overlaps2,
        selector,
        &record.entered,
        &record.settings,
        record.edition,
        &mut room.vertices,
        &mut room.ends,
        &mut room.chain,
        &mut room.chain_ends,
        &mut room.chain_how,
    );
    assert_eq!(answer.refusal, 0);
    answer
}

pub fn area_pass(areas: &[f64], record: &Record, kept: &mut [usize]) -> usize {
    let answer = archive::area_pass(
        areas,
        areas.len(),
        &record.entered,
        &record.settings,
        record.edition,
        kept,
    );
    assert_eq!(answer.refusal, 0);
    answer.count
}

pub fn view_vertices(outline: &[f64], view: View, vertices: &mut [f64]) -> usize {
    let answer = archive::view_vertices(outline, outline.len() / 3, view, vertices);
    assert_eq!(answer.refusal, 0);
    answer.count
}

pub fn view_vertex(outline: &[f64], view: View, index: usize) -> Vertex {
    let answer = archive::view_vertex(outline, outline.len() / 3, view, index);
    assert!(answer.refusal == 0 && answer.found == 1);
    answer.vertex
}
