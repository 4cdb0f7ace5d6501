//! The entries that write lists, with room that the caller lends. A caller who makes the same call
//! again and again can lend the same room each time; nothing is allocated here.
//!
//! The lists to be written are flat, laid out as `include/mask.h` says. Where a call is accepted,
//! the items are written from the start on, then 0 up to the need; what lies beyond the need is
//! left as it was. Where the room is smaller than the need, the call is refused with
//! [`Refusal::Room`]; a refused call writes nothing.
//!
//! The functions of the same names at the top of this crate lend room of their own. Those here refuse
//! as they do, and then with [`Refusal::Room`], which is looked at last.

use crate::ffi;
use crate::{
    Candidates, Intersections, Mode, Named, Outline, Overlaps, RecordVersion, Refusal, Selector,
    Slices, Source, Splits, Starts, Tolerance, View,
};

/// Writes all vertices of a view, and gives their number, [`View::vertex_count`].
///
/// Room for a vertex: `vertices` 3 (x, y, bulge).
pub fn view_vertices(
    view: &View,
    source: &Outline,
    vertices: &mut [f64],
) -> Result<usize, Refusal> {
    let answer = ffi::view_vertices(
        source.numbers(),
        source.vertex_count(),
        (*view).into(),
        vertices,
    );
    Refusal::check(answer.refusal, answer.count)
}

/// The need of [`cut_order`] and of [`candidates`] in items: one for each cut.
pub fn cuts_needed(intersections: &Intersections, overlaps: &Overlaps) -> usize {
    intersections.len() + 2 * overlaps.len()
}

/// The need of [`prune`] in slices.
pub fn slices_needed(candidates: [&Candidates; 2], overlaps: &Overlaps) -> usize {
    candidates[0].len() + candidates[1].len() + 2 * overlaps.len()
}

/// The need of [`straight_slices`] in slices: that of [`prune`] with a candidate for each cut of each
/// outline.
pub fn straight_slices_needed(intersections: &Intersections, overlaps: &Overlaps) -> usize {
    2 * cuts_needed(intersections, overlaps) + 2 * overlaps.len()
}

/// The need of [`stitch`] in vertices: one more than the sum of (offset + 1), and 0 where there
/// are no slices.
pub fn vertices_needed(slices: &Slices) -> usize {
    let first = usize::from(!slices.is_empty());
    slices.iter().fold(first, |need, slice| {
        need.saturating_add(slice.view.end_index_offset.saturating_add(1))
    })
}

/// Writes the cuts of one outline in their order, and gives their number.
///
/// Room for a cut: `cut_at` 3 (segment, overlap mark, number of arrival), `cut` 2 (x, y).
pub fn cut_order(
    outline: &Outline,
    source: Source,
    intersections: &Intersections,
    overlaps: &Overlaps,
    tolerance: Tolerance,
    cut_at: &mut [usize],
    cut: &mut [f64],
) -> Result<usize, Refusal> {
    let answer = ffi::cut_order(
        outline.numbers(),
        outline.vertex_count(),
        source.code(),
        intersections.indexes(),
        intersections.numbers(),
        intersections.len(),
        overlaps.indexes(),
        overlaps.numbers(),
        overlaps.len(),
        tolerance.x,
        tolerance.y,
        cut_at,
        cut,
    );
    Refusal::check(answer.refusal, answer.count)
}

/// Room for candidates, for each cut:
#[derive(Debug)]
pub struct CandidateRoom<'a> {
    /// 2: start, offset.
    pub cand_at: &'a mut [usize],
    /// 6: updated start x, y, bulge, end bulge, end x, y.
    pub cand: &'a mut [f64],
    /// 6: the two vertices whose midpoint the host tests, x, y, bulge each.
    pub probe: &'a mut [f64],
    /// 1: the outline's edition.
    pub cand_edition: &'a mut [u32],
}

/// Writes the candidates of one outline, and gives their number.
pub fn candidates(
    outline: &Outline,
    source: Source,
    intersections: &Intersections,
    overlaps: &Overlaps,
    splits: &Splits,
    tolerance: Tolerance,
    room: CandidateRoom<'_>,
) -> Result<usize, Refusal> {
    let answer = ffi::candidates(
        outline.numbers(),
        outline.vertex_count(),
        outline.edition(),
        source.code(),
        intersections.indexes(),
        intersections.numbers(),
        intersections.len(),
        overlaps.indexes(),
        overlaps.numbers(),
        overlaps.len(),
        splits.numbers(),
        tolerance.x,
        tolerance.y,
        room.cand_at,
        room.cand,
        room.probe,
        room.cand_edition,
    );
    Refusal::check(answer.refusal, answer.count)
}

/// The same with the order as [`cut_order`] wrote it, 3 numbers to a cut. It is a hint: the answer
/// is that of [`candidates`] whatever it holds and however long it is.
#[allow(clippy::too_many_arguments)] // those of `candidates`, and the hint
pub fn candidates_along(
    outline: &Outline,
    source: Source,
    intersections: &Intersections,
    overlaps: &Overlaps,
    cut_at: &[usize],
    splits: &Splits,
    tolerance: Tolerance,
    room: CandidateRoom<'_>,
) -> Result<usize, Refusal> {
    let answer = ffi::candidates_along(
        outline.numbers(),
        outline.vertex_count(),
        outline.edition(),
        source.code(),
        intersections.indexes(),
        intersections.numbers(),
        intersections.len(),
        overlaps.indexes(),
        overlaps.numbers(),
        overlaps.len(),
        cut_at,
        splits.numbers(),
        tolerance.x,
        tolerance.y,
        room.cand_at,
        room.cand,
        room.probe,
        room.cand_edition,
    );
    Refusal::check(answer.refusal, answer.count)
}

/// Room for slices, for each of [`slices_needed`] or [`straight_slices_needed`]:
#[derive(Debug)]
pub struct SliceRoom<'a> {
    /// 4: source, inverted, start, offset.
    pub slice_at: &'a mut [usize],
    /// 6: updated start x, y, bulge, end bulge, end x, y.
    pub slice: &'a mut [f64],
    /// 1: the edition of the outline that the slice was cut from.
    pub slice_edition: &'a mut [u32],
}

/// What [`prune`] or [`straight_slices`] wrote.
#[derive(Debug, Clone, Copy, PartialEq, Eq)]
pub struct Pruned {
    /// How many slices.
    pub slices: usize,
    /// Where the classes begin.
    pub starts: Starts,
}

/// Writes the slices that `mode` keeps. Beside the candidates of each outline stand the host's
/// answers, 1 for inside and 0 for outside; any other number is refused with [`Refusal::Code`].
pub fn prune(
    mode: Mode,
    opposing: bool,
    vertex_counts: [usize; 2],
    answered: [(&Candidates, &[u8]); 2],
    overlaps: &Overlaps,
    room: SliceRoom<'_>,
) -> Result<Pruned, Refusal> {
    let [(candidates1, inside1), (candidates2, inside2)] = answered;
    let answer = ffi::prune(
        mode.code(),
        u32::from(opposing),
        vertex_counts[0],
        vertex_counts[1],
        candidates1.indexes(),
        candidates1.numbers(),
        candidates1.editions(),
        inside1,
        candidates1.len(),
        candidates2.indexes(),
        candidates2.numbers(),
        candidates2.editions(),
        inside2,
        candidates2.len(),
        overlaps.indexes(),
        overlaps.numbers(),
        overlaps.editions(),
        overlaps.len(),
        room.slice_at,
        room.slice,
        room.slice_edition,
    );
    let pruned = Pruned {
        slices: answer.slices,
        starts: answer.starts,
    };
    Refusal::check(answer.refusal, pruned)
}

/// Writes the slices that `mode` keeps of two straight masks in whole microdegrees: candidates,
/// inside answers and pruning in one call.
pub fn straight_slices(
    mode: Mode,
    opposing: bool,
    outlines: [&Outline; 2],
    intersections: &Intersections,
    overlaps: &Overlaps,
    tolerance: Tolerance,
    room: SliceRoom<'_>,
) -> Result<Pruned, Refusal> {
    let [pline1, pline2] = outlines;
    let answer = ffi::straight_slices(
        mode.code(),
        u32::from(opposing),
        pline1.numbers(),
        pline1.vertex_count(),
        pline1.edition(),
        pline2.numbers(),
        pline2.vertex_count(),
        pline2.edition(),
        intersections.indexes(),
        intersections.numbers(),
        intersections.len(),
        overlaps.indexes(),
        overlaps.numbers(),
        overlaps.editions(),
        overlaps.len(),
        tolerance.x,
        tolerance.y,
        room.slice_at,
        room.slice,
        room.slice_edition,
    );
    let pruned = Pruned {
        slices: answer.slices,
        starts: answer.starts,
    };
    Refusal::check(answer.refusal, pruned)
}

/// Room for a stitch.
#[derive(Debug)]
pub struct StitchRoom<'a> {
    /// 3 for each vertex of [`vertices_needed`]: x, y, bulge; loop after loop.
    pub room: &'a mut [f64],
    /// 1 for each slice: of each loop, how many vertices all loops up to and with it have.
    pub ends: &'a mut [usize],
    /// 1 for each slice: the numbers of the slices, chain after chain.
    pub chain: &'a mut [usize],
    /// 1 for each slice: of each chain, how many slices all chains up to and with it have.
    pub chain_ends: &'a mut [usize],
    /// 1 for each slice: how each chain ended. 0 closed, 1 too small, 2 no candidate, 3 not
    /// selected.
    pub chain_how: &'a mut [usize],
}

/// What [`stitch`] wrote.
#[derive(Debug, Clone, Copy, PartialEq, Eq)]
pub struct StitchCounts {
    /// How many rounds were made: as many as there are slices.
    pub rounds: usize,
    /// How many loops.
    pub loops: usize,
    /// How many chains.
    pub chains: usize,
}

/// Writes the loops that the slices make, and the chains.
pub fn stitch(
    pline1: &Outline,
    pline2: &Outline,
    slices: &Slices,
    selector: Selector,
    setting: Named<'_>,
    room: StitchRoom<'_>,
) -> Result<StitchCounts, Refusal> {
    let (entered, settings) = setting.settings.lists();
    let answer = ffi::stitch(
        pline1.numbers(),
        pline1.vertex_count(),
        pline1.edition(),
        pline2.numbers(),
        pline2.vertex_count(),
        pline2.edition(),
        slices.list.indexes(),
        slices.list.numbers(),
        slices.list.editions(),
        slices.len(),
        slices.starts.pline2,
        slices.starts.pline1_overlapping,
        slices.starts.pline2_overlapping,
        selector.code(),
        entered,
        settings,
        setting.edition,
        room.room,
        room.ends,
        room.chain,
        room.chain_ends,
        room.chain_how,
    );
    let counts = StitchCounts {
        rounds: answer.rounds,
        loops: answer.loops,
        chains: answer.chains,
    };
    Refusal::check(answer.refusal, counts)
}

/// Writes the numbers of the loops whose area, whatever its sign, is not less than the setting's
/// limit, and gives their number.
/// Room: one for each area.
pub fn area_pass(areas: &[f64], setting: Named<'_>, kept: &mut [usize]) -> Result<usize, Refusal> {
    let (entered, settings) = setting.settings.lists();
    let answer = ffi::area_pass(areas, areas.len(), entered, settings, setting.edition, kept);
    Refusal::check(answer.refusal, answer.count)
}

/// The need of [`record_write`] in bytes: the record's length.
pub fn record_bytes_needed(
    version: RecordVersion,
    vertex_counts: [usize; 2],
    slices: usize,
) -> usize {
    let (head, slice) = match version {
        RecordVersion::One => (26, 54),
        RecordVersion::Two => (42, 58),
    };
    let vertices = vertex_counts[0].saturating_add(vertex_counts[1]);
    let body = vertices.saturating_mul(24);
    slices
        .saturating_mul(slice)
        .saturating_add(body)
        .saturating_add(head)
}

/// Writes the record of a stitch, and gives its length: [`Record::write`](crate::Record::write).
pub fn record_write(
    version: RecordVersion,
    pline1: &Outline,
    pline2: &Outline,
    slices: &Slices,
    selector: Selector,
    tolerance: Tolerance,
    bytes: &mut [u8],
) -> Result<usize, Refusal> {
    let answer = ffi::record_write(
        version.number(),
        pline1.numbers(),
        pline1.vertex_count(),
        pline1.edition(),
        pline2.numbers(),
        pline2.vertex_count(),
        pline2.edition(),
        slices.list.indexes(),
        slices.list.numbers(),
        slices.list.editions(),
        slices.len(),
        slices.starts.pline2,
        slices.starts.pline1_overlapping,
        slices.starts.pline2_overlapping,
        selector.code(),
        tolerance.x,
        tolerance.y,
        bytes,
    );
    Refusal::check(answer.refusal, answer.count)
}

/// What [`record_replay`] wrote.
#[derive(Debug, Clone, Copy, PartialEq, Eq)]
pub struct ReplayCounts {
    /// The record's version.
    pub version: RecordVersion,
    /// How many slices it holds.
    pub slices: usize,
    /// What the stitch of them wrote.
    pub stitched: StitchCounts,
}

/// Runs the stitch again that a record holds, whatever the bytes:
/// [`Record::replay`](crate::Record::replay). Room for the most that a record needs is
/// [`Record::MOST_ROOM`](crate::Record::MOST_ROOM) vertices and
/// [`Record::MOST_SLICES`](crate::Record::MOST_SLICES) slices.
pub fn record_replay(bytes: &[u8], room: StitchRoom<'_>) -> Result<ReplayCounts, Refusal> {
    let answer = ffi::record_replay(
        bytes,
        room.room,
        room.ends,
        room.chain,
        room.chain_ends,
        room.chain_how,
    );
    Refusal::check(answer.refusal, answer)?;
    Ok(ReplayCounts {
        version: RecordVersion::of_number(answer.version),
        slices: answer.slices,
        stitched: StitchCounts {
            rounds: answer.rounds,
            loops: answer.loops,
            chains: answer.chains,
        },
    })
}
