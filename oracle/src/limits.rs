//! The limits: each entry with the largest counts that are accepted.

use crate::call::{Call, words_of};
use crate::cases::{self, CandidateLists, CreateCase, Shared, Slices, ViewCase};
use crate::random::Random;
use crate::tally::{Family, Tally};
use crate::theirs::{self, PruneSource};
use std::f64::consts::TAU;

const FAMILY: Family = Family::Limits;
const VERTICES: usize = 1024;
const HITS: usize = 512;
const LAPS: usize = 128;
const CANDIDATES: usize = 768;
const SLICES: usize = 1792;
const TOLERANCE: f64 = 1.0 / 1024.0;

pub fn scenario(tally: &mut Tally, rng: &mut Random) {
    let outlines = [ring(rng), ring(rng)];
    views(tally, rng, &outlines[0]);
    cuts(tally, rng, &outlines);
    prunes(tally, rng, &outlines);
    stitches(tally, rng, &outlines);
    areas(tally, rng);
}

fn ring(rng: &mut Random) -> Vec<f64> {
    let corner = |i: usize| {
        let angle = TAU * i as f64 / VERTICES as f64;
        let radius = rng.between(900.0, 1000.0);
        [
            radius * angle.cos(),
            radius * angle.sin(),
            rng.between(-1.0, 1.0),
        ]
    };
    (0..VERTICES).flat_map(corner).collect()
}

fn views(tally: &mut Tally, rng: &mut Random, outline: &[f64]) {
    for closed in [false, true] {
        tally.compare(FAMILY, &cases::from_entire_pline(outline, closed));
    }
    for inverted in [false, true] {
        let view = ViewCase {
            start: rng.pick(&[0, VERTICES - 1, 500]),
            offset: VERTICES,
            numbers: std::array::from_fn(|_| rng.between(-1.0, 1.0)),
            inverted,
        };
        for index in [
            0,
            1,
            500,
            VERTICES - 1,
            VERTICES,
            VERTICES + 1,
            VERTICES + 2,
        ] {
            tally.compare(FAMILY, &cases::view_vertex(outline, &view, index));
        }
        tally.compare(FAMILY, &cases::view_vertices(rng, outline, &view));
        tally.compare(FAMILY, &cases::validate(outline, &view, true, true));
    }
    let start = VERTICES - 1;
    let end = [outline[3 * start], outline[3 * start + 1]];
    let case = CreateCase {
        start,
        end,
        intersect_index: start,
        updated_start: [0.0, 0.0, 0.5],
        traverse_count: VERTICES,
        tolerance: TOLERANCE.into(),
        split: [0.25; 6],
    };
    tally.compare(FAMILY, &cases::create(outline, &case));
    let call = cases::create_on_single_segment(outline, start, &[0.0, 0.0, 0.5], &end, TOLERANCE);
    tally.compare(FAMILY, &call);
}

fn point(rng: &mut Random) -> [f64; 2] {
    [rng.between(-1000.0, 1000.0), rng.between(-1000.0, 1000.0)]
}

/// Hits and laps spread over the outlines, or on few segments of them, or all on one.
fn shared(rng: &mut Random, hits: usize, laps: usize) -> Shared {
    let segments = rng.pick(&[VERTICES, VERTICES, 100, 1]);
    let mut shared = Shared::default();
    for _ in 0..hits {
        shared
            .hit_at
            .extend([rng.below(segments), rng.below(segments)]);
        shared.hit.extend(point(rng));
    }
    for _ in 0..laps {
        for _ in 0..4 {
            shared.lap_at.push(rng.below(segments));
        }
        let view = [rng.below(2), rng.below(VERTICES), rng.from(0, VERTICES)];
        shared.lap_at.extend(view);
        shared.lap.extend(point(rng));
        shared.lap.extend([rng.part(), rng.part()]);
        shared.lap.extend(point(rng));
    }
    shared.lap_edition = (0..laps as u64).collect();
    shared
}

fn splits(rng: &mut Random, cuts: usize) -> Vec<f64> {
    (0..9 * cuts)
        .map(|_| rng.between(-1000.0, 1000.0))
        .collect()
}

fn cuts(tally: &mut Tally, rng: &mut Random, outlines: &[Vec<f64>; 2]) {
    let shared = shared(rng, HITS, LAPS);
    for (which, outline) in outlines.iter().enumerate() {
        let source = which as u64 + 1;
        let call = cases::cut_order(rng, outline, source, &shared, TOLERANCE);
        tally.compare(FAMILY, &call);
        let splits = splits(rng, shared.cuts());
        let call = cases::candidates(rng, outline, source, &shared, &splits, TOLERANCE);
        tally.compare(FAMILY, &call);
    }
}

/// 768 candidates of each outline. More hits are needed than `mask_candidates` takes, so the
/// candidates are the original's.
fn prunes(tally: &mut Tally, rng: &mut Random, outlines: &[Vec<f64>; 2]) {
    let shared = shared(rng, CANDIDATES - LAPS, LAPS);
    let splits = [splits(rng, shared.cuts()), splits(rng, shared.cuts())];
    let mut lists = Vec::new();
    for which in 0..2 {
        let source = which as u64 + 1;
        let call = cases::candidates(
            rng,
            &outlines[which],
            source,
            &shared,
            &splits[which],
            TOLERANCE,
        );
        let found = theirs::answer(&call);
        let count = found.answer[1] as usize;
        tally.claim("768 candidates of one outline", count == CANDIDATES, || {
            format!("{count} only")
        });
        lists.push(CandidateLists {
            at: found.lent[0][..2 * count].to_vec(),
            numbers: found.lent[1][..6 * count].to_vec(),
            edition: found.lent[3][..count].to_vec(),
            inside: (0..count).map(|_| rng.below(2) as u64).collect(),
        });
    }
    for mode in 0..4 {
        let call = cases::prune(
            rng,
            mode,
            mode % 2 == 1,
            [VERTICES; 2],
            &lists[0],
            &lists[1],
            &shared,
        );
        tally.compare_with(FAMILY, &call, || {
            let source = PruneSource {
                outline1: &outlines[0],
                outline2: &outlines[1],
                hit_at: &shared.hit_at,
                hit: &shared.hit,
                splits1: &splits[0],
                splits2: &splits[1],
                tolerance: TOLERANCE,
            };
            theirs::prune_of(&call, &source)
        });
    }
}

/// 1,792 slices: each closed on itself, one chain of all, all at one point, and a mixture of few
/// points. Now and then with the largest offset, so that the room is the largest too.
fn stitches(tally: &mut Tally, rng: &mut Random, outlines: &[Vec<f64>; 2]) {
    let corner = |i: usize| [i as f64, 0.5 * i as f64];
    let itself = |i: usize| (corner(i), corner(i));
    let in_line = |i: usize| (corner(i), corner((i + 1) % SLICES));
    let one_point = |_: usize| ([1.0, 1.0], [1.0, 1.0]);
    let longest = if rng.once_in(4) { VERTICES } else { 8 };
    let all: [&dyn Fn(usize) -> ([f64; 2], [f64; 2]); 3] = [&itself, &in_line, &one_point];
    for ends in all {
        let call = stitch(rng, outlines, longest, ends);
        tally.compare(FAMILY, &call);
    }
    let mixed: Vec<_> = (0..SLICES)
        .map(|_| (corner(rng.below(40)), corner(rng.below(40))))
        .collect();
    let call = stitch(rng, outlines, 8, &|i| mixed[i]);
    tally.compare(FAMILY, &call);
}

fn stitch(
    rng: &mut Random,
    outlines: &[Vec<f64>; 2],
    longest: usize,
    ends: &dyn Fn(usize) -> ([f64; 2], [f64; 2]),
) -> Call {
    let mut slice_at = Vec::new();
    let mut slice = Vec::new();
    for i in 0..SLICES {
        let (begin, end) = ends(i);
        let offset = if longest == VERTICES {
            longest
        } else {
            rng.from(0, longest)
        };
        let at = [rng.from(1, 2), 0, rng.below(VERTICES), offset];
        slice_at.extend(at.map(|n| n as u64));
        let numbers = [begin[0], begin[1], rng.part(), rng.part(), end[0], end[1]];
        slice.extend(words_of(&numbers));
    }
    let mut starts: [u64; 3] = std::array::from_fn(|_| rng.from(0, SLICES) as u64);
    starts.sort_unstable();
    let selector = rng.below(2) as u64;
    let outlines = [&outlines[0][..], &outlines[1][..]];
    let slices = Slices {
        at: &slice_at,
        numbers: &slice,
        editions: &cases::matching(outlines, &slice_at),
        starts,
    };
    cases::stitch(rng, outlines, &slices, selector, TOLERANCE)
}

fn areas(tally: &mut Tally, rng: &mut Random) {
    let areas: Vec<f64> = (0..SLICES).map(|_| rng.between(0.0, 2.0)).collect();
    tally.compare(FAMILY, &cases::area_pass(rng, &areas, 1.0));
}
