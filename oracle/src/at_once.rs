//! The family of straight masks: outlines without arcs in whole microdegrees whose cuts are whole too, by the
//! one call for candidates, inside answers and pruning. Its slices are compared with those of the three calls
//! in turn, bit for bit, and with the original's own slicing and pruning; its loops with those of the crate's
//! own Or, And, Not and Xor. Where the original differs, sums of 128 bits say why: it took a midpoint on an
//! edge by another rule, it rounded, or it kept a bulge of -0. Then the original, told the exact answers and
//! the splits of the request, must give our slices.

use crate::cases::Shared;
use crate::random::Random;
use crate::realistic::{Pair, bits, parted};
use crate::shapes;
use crate::stages::{self, Info};
use crate::straight::{self, Corner};
use crate::tally::{Tally, caught};
use crate::theirs::{HostOutline, with_host};
use cavalier_contours::core::math::Vector2;
use cavalier_contours::polyline::internal::pline_boolean::{PrunedSlices, polyline_boolean};
use cavalier_contours::polyline::watch::Host;
use cavalier_contours::polyline::{
    BooleanOp, BooleanResultInfo, BooleanResultPline, PlineBooleanOptions, PlineSource,
    PlineVertex, Polyline, SplitResult,
};
use std::collections::BTreeMap;
use std::fmt;

const MOST: f64 = 400_000_000.0;
const EDITIONS: [u32; 2] = [0xed17_1001, 0xed17_1002];

const ON_EDGE: &str = "a midpoint on an edge of the other outline";
const ROUNDED: &str = "a midpoint beside an edge, where the original's products are rounded";
const MINUS_ZERO: &str = "a split of a segment whose bulge is -0, which keeps it";

const MEET: &str = "pairs that meet, with whole cuts";
const APART: &str = "pairs that do not meet, or run on each other all the way";
const NOT_WHOLE: &str =
    "pairs with a cut that is not whole: only their slices, with cuts rounded to whole";
const OFFSET: &str = "pairs refused with 7: the crate's joined overlap is longer than the outline";
const CALLS: &str = "calls of mask_straight_slices";
const OPERATIONS: &str = "whole operations of the crate";
const SAME_LOOPS: &str = "of them with the same loops";
const OTHER_LOOPS: &str = "of them with other loops, explained below";
const SLICED: &str = "the original's slices";
const SAME_SLICES: &str = "of them the same";
const CANDIDATES: &str = "candidates asked";
const OTHER_INSIDE: &str = "of them where the original's inside answer is another";

/// What was counted.
#[derive(Debug, Clone, Default)]
pub struct Counts {
    counted: BTreeMap<&'static str, u64>,
    /// Of the slices, of the loops and of the candidates, by cause.
    causes: [BTreeMap<&'static str, u64>; 3],
}

impl Counts {
    pub fn is_empty(&self) -> bool {
        self.counted.is_empty()
    }

    pub fn calls(&self) -> u64 {
        self.of(CALLS)
    }

    fn of(&self, name: &'static str) -> u64 {
        self.counted.get(name).copied().unwrap_or(0)
    }

    fn add(&mut self, name: &'static str, count: usize) {
        *self.counted.entry(name).or_default() += count as u64;
    }

    fn cause(&mut self, of: usize, causes: &[&'static str]) {
        for cause in causes {
            *self.causes[of].entry(cause).or_default() += 1;
        }
    }
}

const SLICES: usize = 0;
const LOOPS: usize = 1;
const ASKED: usize = 2;

impl fmt::Display for Counts {
    fn fmt(&self, f: &mut fmt::Formatter<'_>) -> fmt::Result {
        let names = [
            MEET,
            NOT_WHOLE,
            APART,
            OFFSET,
            CALLS,
            OPERATIONS,
            SAME_LOOPS,
            OTHER_LOOPS,
            SLICED,
            SAME_SLICES,
            CANDIDATES,
            OTHER_INSIDE,
        ];
        for name in names {
            writeln!(f, "{:>10} {name}", self.of(name))?;
        }
        let of = [
            "slices differ by",
            "loops differ by",
            "inside answers differ by",
        ];
        for (of, causes) in of.iter().zip(&self.causes) {
            for (cause, count) in causes {
                writeln!(f, "{count:>10} {of} {cause}")?;
            }
        }
        Ok(())
    }
}

/// One pair of straight outlines: the slices of every mode, and the four operations.
pub fn scenario(tally: &mut Tally, rng: &mut Random) {
    let [a, b] = pair(rng);
    let tolerance = rng.pick(&[1e-5, 1.0 / 1024.0, 0.25, 1.0, 1e-12]);
    let Some(case) = caught(|| Case::new(a, b, tolerance)) else {
        return;
    };
    case.run(tally, rng.pick(&[0.0, 0.0, 0.5, 1e6]));
}

// ---- Outlines

fn is_whole(number: &f64) -> bool {
    number.abs() <= MOST && number.trunc() == *number
}

/// Corners on a grid of few lines, in any order: they cross and run on themselves.
fn scattered(rng: &mut Random, step: f64, lines: usize, most: usize) -> Vec<f64> {
    let mut at = || step * (rng.below(lines) as f64 - (lines / 2) as f64);
    let corners: Vec<[f64; 2]> = (0..most).map(|_| [at(), at()]).collect();
    let count = rng.from(2, most);
    corners[..count]
        .iter()
        .flat_map(|p| [p[0], p[1], 0.0])
        .collect()
}

/// A diamond: its sides cross those of others, and lines of the same grid, at whole points.
fn diamond(rng: &mut Random) -> Vec<f64> {
    let mut whole = |most: usize| 4.0 * rng.below(most) as f64;
    let (x, y, r) = (whole(6), whole(6), 4.0 + whole(4));
    vec![x + r, y, 0.0, x, y + r, 0.0, x - r, y, 0.0, x, y - r, 0.0]
}

/// A point between two others whose triangle with them has this doubled area, times what both steps have in
/// common: as near to their line as whole numbers come.
fn beside(p: [f64; 2], q: [f64; 2], area: i64) -> [f64; 2] {
    let (dx, dy) = ((q[0] - p[0]) as i64, (q[1] - p[1]) as i64);
    if dx == 0 {
        return [p[0] + area as f64, (p[1] + q[1]) / 2.0].map(f64::round);
    }
    // dx * y - dy * x is the greatest common divisor, of either sign.
    let (mut a, mut b) = ((dx, 1, 0), (dy, 0, 1));
    while b.0 != 0 {
        let times = a.0 / b.0;
        (a, b) = (b, (a.0 - times * b.0, a.1 - times * b.1, a.2 - times * b.2));
    }
    let (step_x, step_y) = (i128::from(dx / a.0), i128::from(dy / a.0));
    let (x, y) = (
        -i128::from(a.2) * i128::from(area),
        i128::from(a.1) * i128::from(area),
    );
    let steps = (i128::from(dx) / 2 - x) / step_x;
    [
        p[0] + (x + steps * step_x) as f64,
        p[1] + (y + steps * step_y) as f64,
    ]
}

/// Two outlines through the same far corners. What else they have lies within a fraction of a microdegree of
/// the lines between those, so that its side is told only where nothing is rounded.
fn close_lines(rng: &mut Random) -> [Vec<f64>; 2] {
    let count = rng.from(3, 4);
    let mut far = || (rng.below(2 * MOST as usize + 1) as f64) - MOST;
    let corners: Vec<[f64; 2]> = (0..count).map(|_| [far(), far()]).collect();
    [0; 2].map(|_| {
        let mut outline = Vec::new();
        for (i, p) in corners.iter().enumerate() {
            outline.extend([p[0], p[1], 0.0]);
            let q = corners[(i + 1) % corners.len()];
            if rng.once_in(2) {
                let [x, y] = beside(*p, q, rng.pick(&[-40, -7, -2, -1, 1, 2, 7, 40]));
                if [x, y].iter().all(is_whole) {
                    outline.extend([x, y, 0.0]);
                }
            }
        }
        outline
    })
}

/// Both outlines so many times as large.
fn stretched(rng: &mut Random, outlines: [Vec<f64>; 2]) -> [Vec<f64>; 2] {
    let factor = rng.pick(&[1.0, 1.0, 1.0, 2.0, 1000.0, 123_457.0, 1e6]);
    outlines.map(|mut outline| {
        for v in outline.chunks_exact_mut(3) {
            v[0] *= factor;
            v[1] *= factor;
        }
        outline
    })
}

/// Bulges of either zero.
fn with_zeros(rng: &mut Random, mut outline: Vec<f64>) -> Vec<f64> {
    let all = rng.below(10);
    for v in outline.chunks_exact_mut(3) {
        v[2] = match all {
            0 => -0.0,
            1 => rng.pick(&[0.0, -0.0]),
            _ => 0.0,
        };
    }
    outline
}

fn pair(rng: &mut Random) -> [Vec<f64>; 2] {
    let largest = rng.pick(&[6, 8, 12, 24]);
    let outlines = match rng.below(8) {
        0..=2 => {
            let drawn = loop {
                let drawn = shapes::square_pair(rng, largest);
                let straight = |o: &Vec<f64>| o.chunks_exact(3).all(|v| v[2] == 0.0);
                if drawn.iter().all(straight) {
                    break drawn;
                }
            };
            stretched(rng, drawn)
        }
        3 => {
            let drawn = [
                diamond(rng),
                if rng.once_in(2) {
                    diamond(rng)
                } else {
                    scattered(rng, 4.0, 6, 6)
                },
            ];
            stretched(rng, drawn)
        }
        4 => {
            let drawn = [0; 2].map(|_| scattered(rng, 1.0, 4, 8));
            stretched(rng, drawn)
        }
        5 | 6 => {
            let step = rng.pick(&[12.0, 60.0, 5040.0, 720_720.0, 1e7]);
            [0; 2].map(|_| scattered(rng, step, 9, 5))
        }
        _ => close_lines(rng),
    };
    outlines.map(|outline| with_zeros(rng, outline))
}

// ---- Slices

/// Slices in the form of the lists, editions beside them.
#[derive(Debug, Clone, PartialEq)]
struct Slices {
    at: Vec<usize>,
    numbers: Vec<u64>,
    starts: [usize; 3],
}

fn words(numbers: &[f64]) -> Vec<u64> {
    numbers.iter().map(|n| n.to_bits()).collect()
}

fn slices_of(pruned: &PrunedSlices<f64>) -> Slices {
    let starts = pruned.starts;
    let mut slices = Slices {
        at: Vec::new(),
        numbers: Vec::new(),
        starts: [
            starts.pline2,
            starts.pline1_overlapping,
            starts.pline2_overlapping,
        ],
    };
    for s in &pruned.slices_remaining {
        let view = &s.view_data;
        let source = if s.source_is_pline1 { 1 } else { 2 };
        let inverted = usize::from(view.inverted_direction);
        slices
            .at
            .extend([source, inverted, view.start_index, view.end_index_offset]);
        slices.numbers.extend(words(&stages::view_numbers(view)));
    }
    slices
}

/// The splits of request K11: "the parts keep their positions and have bulge +0".
struct StraightSplits;

impl Host for StraightSplits {
    fn split(&mut self, v1: PlineVertex, _: PlineVertex, point: Vector2) -> Option<SplitResult> {
        Some(SplitResult {
            updated_start: PlineVertex::new(v1.x, v1.y, 0.0),
            split_vertex: PlineVertex::new(point.x, point.y, 0.0),
        })
    }

    fn closest(&mut self, _: PlineVertex, _: PlineVertex, _: Vector2) -> Option<Vector2> {
        None
    }

    fn midpoint(&mut self, _: PlineVertex, _: PlineVertex) {}
}

/// One outline by the calls before the prune: its candidates, and the inside answer of each.
struct Side {
    at: Vec<usize>,
    numbers: Vec<f64>,
    editions: Vec<u32>,
    /// The doubled midpoint of each candidate's two vertices.
    midpoints: Vec<Corner>,
    inside: Vec<bool>,
}

/// Two outlines, what they share, and both again in whole numbers.
struct Case {
    outlines: [Vec<f64>; 2],
    plines: [Polyline; 2],
    whole: [Vec<Corner>; 2],
    info: Info,
    shared: Shared,
    tolerance: f64,
    cuts_are_whole: bool,
}

fn corners(outline: &[f64]) -> Vec<Corner> {
    outline
        .chunks_exact(3)
        .map(|v| (v[0] as i64, v[1] as i64))
        .collect()
}

fn opposing(info: &Info) -> u32 {
    u32::from(info.opposing_directions())
}

impl Case {
    /// The crate's own intersections and overlaps; where a cut is not whole, all are rounded.
    fn new(a: Vec<f64>, b: Vec<f64>, tolerance: f64) -> Case {
        let pair = Pair::new(a.clone(), b.clone(), tolerance);
        let mut shared = pair.shared;
        let cuts_are_whole = shared.hit.iter().chain(&shared.lap).all(is_whole);
        let mut info = pair.info;
        if !cuts_are_whole {
            for number in shared.hit.iter_mut().chain(&mut shared.lap) {
                *number = number.round();
            }
            let (hits, laps) = (&shared.hit_at, &shared.lap_at);
            info = stages::info(
                hits,
                &shared.hit,
                laps,
                &shared.lap,
                info.opposing_directions(),
            );
        }
        Case {
            plines: [stages::outline(&a), stages::outline(&b)],
            whole: [corners(&a), corners(&b)],
            outlines: [a, b],
            info,
            shared,
            tolerance,
            cuts_are_whole,
        }
    }

    fn run(&self, tally: &mut Tally, limit: f64) {
        let counts = &mut tally.straight;
        if !self.info.any_intersects() || self.info.completely_overlapping() {
            return counts.add(APART, 1);
        }
        if self.longer_than_the_outline() {
            counts.add(OFFSET, 1);
            let refusal = self.at_once(0).map(|_| 0).unwrap_or_else(|refusal| refusal);
            return tally.claim(
                "straight: an offset above the vertex count is 7",
                refusal == 7,
                || self.text(),
            );
        }
        counts.add(if self.cuts_are_whole { MEET } else { NOT_WHOLE }, 1);
        let Some(sides) = self.sides(tally) else {
            return tally.claim("straight: the calls before the prune accept", false, || {
                self.text()
            });
        };
        let answers = self.answers(tally, &sides);
        let modes = [0, 1, 2, 3].map(|mode| self.mode(tally, mode, &sides, &answers));
        if self.cuts_are_whole {
            self.operations(tally, &modes, limit);
        }
    }

    fn longer_than_the_outline(&self) -> bool {
        let vc2 = self.plines[1].vertex_count();
        self.shared.lap_at.chunks_exact(7).any(|at| at[6] > vc2)
    }

    fn text(&self) -> String {
        let [a, b] = &self.outlines;
        let (s, t) = (&self.shared, self.tolerance);
        format!(
            "a = {a:?} b = {b:?} hit_at = {:?} hit = {:?} lap_at = {:?} lap = {:?} t = {t:?}",
            s.hit_at, s.hit, s.lap_at, s.lap
        )
    }

    fn lap_editions(&self) -> Vec<u32> {
        vec![EDITIONS[1]; self.shared.laps()]
    }

    /// The one call, in room with words that must stay beyond the need; or its refusal.
    fn at_once(&self, mode: u64) -> Result<Slices, u32> {
        let (s, t) = (&self.shared, self.tolerance);
        let need = 2 * s.cuts() + 2 * s.laps();
        let beyond = 3;
        let mut at = vec![usize::MAX; 4 * need + beyond];
        let mut numbers = vec![f64::NAN; 6 * need + beyond];
        let mut editions = vec![u32::MAX; need + beyond];
        let [a, b] = &self.outlines;
        let told = archive::straight_slices(
            mode as u32,
            opposing(&self.info),
            a,
            a.len() / 3,
            EDITIONS[0],
            b,
            b.len() / 3,
            EDITIONS[1],
            &s.hit_at,
            &s.hit,
            s.hits(),
            &s.lap_at,
            &s.lap,
            &self.lap_editions(),
            s.laps(),
            t,
            t,
            &mut at,
            &mut numbers,
            &mut editions,
        );
        if told.refusal != 0 {
            return Err(told.refusal);
        }
        let count = told.slices;
        let expected: Vec<u32> = (0..count)
            .map(|i| EDITIONS[usize::from(i >= told.starts.pline2)])
            .collect();
        assert!(editions[..count] == expected, "another edition");
        assert!(at[4 * count..4 * need].iter().all(|word| *word == 0));
        assert!(
            numbers[6 * count..6 * need]
                .iter()
                .all(|n| n.to_bits() == 0)
        );
        assert!(editions[count..need].iter().all(|edition| *edition == 0));
        assert!(at[4 * need..].iter().all(|word| *word == usize::MAX));
        assert!(numbers[6 * need..].iter().all(|n| n.is_nan()));
        assert!(editions[need..].iter().all(|edition| *edition == u32::MAX));
        let starts = told.starts;
        Ok(Slices {
            at: at[..4 * count].to_vec(),
            numbers: words(&numbers[..6 * count]),
            starts: [
                starts.pline2,
                starts.pline1_overlapping,
                starts.pline2_overlapping,
            ],
        })
    }

    /// Order of cuts, straight splits, candidates and winding numbers of both outlines, each a call.
    fn sides(&self, tally: &mut Tally) -> Option<[Side; 2]> {
        Some([self.side(tally, 0)?, self.side(tally, 1)?])
    }

    fn side(&self, tally: &mut Tally, which: usize) -> Option<Side> {
        let (s, t) = (&self.shared, self.tolerance);
        let (outline, source, cuts) = (&self.outlines[which], which as u32 + 1, s.cuts());
        let vc = outline.len() / 3;
        let (mut cut_at, mut cut) = (vec![0; 3 * cuts], vec![0.0; 2 * cuts]);
        let (hits, laps) = (s.hits(), s.laps());
        let order = archive::cut_order(
            outline,
            vc,
            source,
            &s.hit_at,
            &s.hit,
            hits,
            &s.lap_at,
            &s.lap,
            laps,
            t,
            t,
            &mut cut_at,
            &mut cut,
        );
        if order.refusal != 0 {
            return None;
        }
        let mut splits = Vec::new();
        for p in 0..cuts {
            let corner = 3 * cut_at[3 * p];
            let running = match p > 0 && cut_at[3 * p - 3] == cut_at[3 * p] {
                true => &cut[2 * p - 2..2 * p],
                false => &outline[corner..corner + 2],
            };
            let here = &cut[2 * p..2 * p + 2];
            for part in [running, here, here] {
                splits.extend([part[0], part[1], 0.0]);
            }
        }
        let (mut at, mut numbers) = (vec![0; 2 * cuts], vec![0.0; 6 * cuts]);
        let (mut probes, mut editions) = (vec![0.0; 6 * cuts], vec![0; cuts]);
        let edition = EDITIONS[which];
        let found = archive::candidates(
            outline,
            vc,
            edition,
            source,
            &s.hit_at,
            &s.hit,
            hits,
            &s.lap_at,
            &s.lap,
            laps,
            &splits,
            t,
            t,
            &mut at,
            &mut numbers,
            &mut probes,
            &mut editions,
        );
        if found.refusal != 0 {
            return None;
        }
        let count = found.count;
        let doubled = |p: &[f64]| ((p[0] as i64) + p[3] as i64, (p[1] as i64) + p[4] as i64);
        let midpoints: Vec<Corner> = probes.chunks_exact(6).take(count).map(doubled).collect();
        let inside = midpoints
            .iter()
            .map(|p| straight::ours(&self.whole[1 - which], *p) != 0);
        tally.straight.add(CANDIDATES, count);
        Some(Side {
            at: at[..2 * count].to_vec(),
            numbers: numbers[..6 * count].to_vec(),
            editions: editions[..count].to_vec(),
            inside: inside.collect(),
            midpoints,
        })
    }

    /// The prune after them.
    fn in_turn(&self, mode: u64, sides: &[Side; 2]) -> Option<Slices> {
        let s = &self.shared;
        let need = sides[0].inside.len() + sides[1].inside.len() + 2 * s.laps();
        let (mut at, mut numbers) = (vec![0; 4 * need], vec![0.0; 6 * need]);
        let mut editions = vec![0; need];
        let inside = sides.each_ref().map(|side| -> Vec<u8> {
            side.inside.iter().map(|inside| u8::from(*inside)).collect()
        });
        let [one, two] = sides;
        let told = archive::prune(
            mode as u32,
            opposing(&self.info),
            self.outlines[0].len() / 3,
            self.outlines[1].len() / 3,
            &one.at,
            &one.numbers,
            &one.editions,
            &inside[0],
            one.inside.len(),
            &two.at,
            &two.numbers,
            &two.editions,
            &inside[1],
            two.inside.len(),
            &s.lap_at,
            &s.lap,
            &self.lap_editions(),
            s.laps(),
            &mut at,
            &mut numbers,
            &mut editions,
        );
        let starts = told.starts;
        (told.refusal == 0).then(|| Slices {
            at: at[..4 * told.slices].to_vec(),
            numbers: words(&numbers[..6 * told.slices]),
            starts: [
                starts.pline2,
                starts.pline1_overlapping,
                starts.pline2_overlapping,
            ],
        })
    }

    /// The exact inside answers, and why the original's are others. The archive's own are compared with them.
    fn answers(&self, tally: &mut Tally, sides: &[Side; 2]) -> Answers {
        let mut answers = Answers::default();
        for (which, side) in sides.iter().enumerate() {
            let (other, pline) = (&self.whole[1 - which], &self.plines[1 - which]);
            for (p, told) in side.midpoints.iter().zip(&side.inside) {
                let exact = straight::exact(other, *p) != 0;
                tally.claim(
                    "straight: inside answers are the exact ones",
                    exact == *told,
                    || self.text(),
                );
                answers.exact[which].push(exact);
                let midpoint = Vector2::new(p.0 as f64 / 2.0, p.1 as f64 / 2.0);
                if (pline.winding_number(midpoint) != 0) == exact {
                    continue;
                }
                let cause = match () {
                    () if straight::on_edge(other, *p) => Some(ON_EDGE),
                    () if straight::is_rounded(other, *p) => Some(ROUNDED),
                    () => None,
                };
                tally.claim(
                    "straight: an inside answer that differs has a cause",
                    cause.is_some(),
                    || format!("{p:?} in {other:?}"),
                );
                tally.straight.add(OTHER_INSIDE, 1);
                tally.straight.cause(ASKED, cause.as_slice());
                answers
                    .causes
                    .extend(cause.filter(|cause| !answers.causes.contains(cause)));
            }
        }
        answers
    }

    /// The original's slices. It is told what is given here; the rest is its own.
    fn original(&self, mode: u64, splits: bool, inside: Option<&[Vec<bool>; 2]>) -> Option<Slices> {
        let t = self.tolerance;
        let outline = |which: usize| match inside {
            // A candidate of one outline is looked up in the other.
            Some(inside) => {
                HostOutline::answering(&self.outlines[which], inside[1 - which].clone())
            }
            None => HostOutline::new(&self.outlines[which]),
        };
        let (pline1, pline2) = (outline(0), outline(1));
        caught(|| {
            let prune = || stages::prune(&pline1, &pline2, &self.info, mode, t);
            slices_of(&if splits {
                with_host(StraightSplits, prune)
            } else {
                prune()
            })
        })
    }

    /// The slices of one mode, and what makes the original's others.
    fn mode(
        &self,
        tally: &mut Tally,
        mode: u64,
        sides: &[Side; 2],
        answers: &Answers,
    ) -> Option<Mode> {
        tally.straight.add(CALLS, 1);
        let ours = self.at_once(mode).ok();
        let turn = self.in_turn(mode, sides);
        let same = ours.is_some() && ours == turn;
        tally.claim(
            "straight: the three calls in turn give the same slices",
            same,
            || format!("mode {mode} {}", self.text()),
        );
        let ours = ours?;
        let is_ours = |slices: Option<Slices>| slices.as_ref() == Some(&ours);
        tally.straight.add(SLICED, 1);
        let exact = Some(&answers.exact);
        let causes = if is_ours(self.original(mode, false, None)) {
            tally.straight.add(SAME_SLICES, 1);
            Vec::new()
        } else if is_ours(self.original(mode, true, None)) {
            vec![MINUS_ZERO]
        } else if is_ours(self.original(mode, false, exact)) {
            answers.causes.clone()
        } else {
            let told = self.original(mode, true, exact);
            tally.claim(
                "straight: told splits and answers, the original gives the same",
                is_ours(told),
                || format!("mode {mode} {}", self.text()),
            );
            [&answers.causes[..], &[MINUS_ZERO]].concat()
        };
        tally.straight.cause(SLICES, &causes);
        Some(Mode {
            slices: ours,
            causes,
        })
    }

    /// The archive's loops of the slices, those that the area pass keeps.
    fn loops(&self, slices: &Slices, selector: u32, limit: f64) -> Option<Vec<Vec<f64>>> {
        let t = self.tolerance;
        let [a, b] = &self.outlines;
        let numbers: Vec<f64> = slices.numbers.iter().map(|n| f64::from_bits(*n)).collect();
        let count = numbers.len() / 6;
        let editions: Vec<u32> = (0..count)
            .map(|i| EDITIONS[usize::from(i >= slices.starts[0])])
            .collect();
        let mut settings = [0.0; 48];
        settings[..3].copy_from_slice(&[t, t, limit]);
        let vertices: usize = slices.at.chunks_exact(4).map(|at| at[3] + 1).sum();
        let mut room = vec![0.0; if count == 0 { 0 } else { 3 * (vertices + 1) }];
        let [mut ends, mut chain, mut chain_ends, mut how] = [0; 4].map(|_| vec![0; count]);
        let stitched = archive::stitch(
            a,
            a.len() / 3,
            EDITIONS[0],
            b,
            b.len() / 3,
            EDITIONS[1],
            &slices.at,
            &numbers,
            &editions,
            count,
            slices.starts[0],
            slices.starts[1],
            slices.starts[2],
            selector,
            &[1],
            &settings,
            1,
            &mut room,
            &mut ends,
            &mut chain,
            &mut chain_ends,
            &mut how,
        );
        if stitched.refusal != 0 {
            return None;
        }
        let mut from = 0;
        let loops: Vec<Vec<f64>> = ends[..stitched.loops]
            .iter()
            .map(|end| {
                let l = room[3 * from..3 * end].to_vec();
                from = *end;
                l
            })
            .collect();
        let areas: Vec<f64> = loops.iter().map(|l| stages::outline(l).area()).collect();
        let mut kept = vec![0; loops.len()];
        let passed = archive::area_pass(&areas, areas.len(), &[1], &settings, 1, &mut kept);
        (passed.refusal == 0).then(|| {
            kept[..passed.count]
                .iter()
                .map(|n| loops[*n].clone())
                .collect()
        })
    }

    /// Or, And, Not and Xor of the crate beside the loops of the slices.
    fn operations(&self, tally: &mut Tally, modes: &[Option<Mode>; 4], limit: f64) {
        let operations = [
            (BooleanOp::Or, &modes[..1]),
            (BooleanOp::And, &modes[1..2]),
            (BooleanOp::Not, &modes[2..3]),
            (BooleanOp::Xor, &modes[2..]),
        ];
        for (operation, modes) in operations {
            let mut ours = Some(Vec::new());
            let mut causes: Vec<&'static str> = Vec::new();
            for mode in modes {
                let Some(mode) = mode else {
                    return;
                };
                let selector = u32::from(!matches!(operation, BooleanOp::Or | BooleanOp::And));
                let loops = self.loops(&mode.slices, selector, limit);
                ours = ours.zip(loops).map(|(all, more)| [all, more].concat());
                causes.extend(
                    mode.causes
                        .iter()
                        .filter(|c| !causes.contains(c))
                        .copied()
                        .collect::<Vec<_>>(),
                );
            }
            let Some(ours) = ours else {
                return tally.claim("straight: stitch and area pass accept", false, || {
                    self.text()
                });
            };
            self.operation(tally, operation, &ours, &causes, limit);
        }
    }

    fn operation(
        &self,
        tally: &mut Tally,
        operation: BooleanOp,
        ours: &[Vec<f64>],
        causes: &[&'static str],
        limit: f64,
    ) {
        let [pline1, pline2] = &self.plines;
        let options = PlineBooleanOptions {
            pline1_aabb_index: None,
            pos_equal_eps: self.tolerance,
            collapsed_area_eps: Some(limit),
        };
        let whole = || polyline_boolean::<_, _, Polyline, _>(pline1, pline2, operation, &options);
        let Some(result) = caught(whole) else {
            return tally.claim(
                "straight: the crate's operation does not stop",
                false,
                || self.text(),
            );
        };
        assert!(result.result_info == BooleanResultInfo::Intersected);
        let numbers = |r: &BooleanResultPline<Polyline>| -> Vec<f64> {
            let one = |v: &PlineVertex| [v.x, v.y, v.bulge];
            r.pline.vertex_data.iter().flat_map(one).collect()
        };
        let positive: Vec<_> = result.pos_plines.iter().map(numbers).collect();
        let negative: Vec<_> = result.neg_plines.iter().map(numbers).collect();
        let (p, n) = match operation {
            BooleanOp::Or => parted(ours, self.info.pline2_orientation),
            _ => (ours.to_vec(), Vec::new()),
        };
        tally.straight.add(OPERATIONS, 1);
        let same = bits(&p) == bits(&positive) && bits(&n) == bits(&negative);
        if same {
            return tally.straight.add(SAME_LOOPS, 1);
        }
        tally.straight.add(OTHER_LOOPS, 1);
        tally.straight.cause(LOOPS, causes);
        tally.claim(
            "straight: other loops come of other slices",
            !causes.is_empty(),
            || format!("{operation:?} limit {limit} {}", self.text()),
        );
    }
}

/// Of each outline's candidates the exact answers; and why the original's are others, where they are.
#[derive(Default)]
struct Answers {
    exact: [Vec<bool>; 2],
    causes: Vec<&'static str>,
}

/// The slices of a mode, and why the original's are others.
struct Mode {
    slices: Slices,
    causes: Vec<&'static str>,
}

/// How large a pair is: its vertices, then its numbers.
fn size(case: &Case) -> (usize, i128) {
    let numbers = case.outlines.iter().flatten();
    let total = numbers.map(|n| n.abs() as i128).sum();
    (case.outlines.iter().map(Vec::len).sum(), total)
}

/// The smallest of many drawn pairs, none of area zero, whose slices differ by one cause alone, with its mode.
fn smallest(
    cause: &str,
    draw: fn(&mut Random) -> [Vec<f64>; 2],
    tolerance: f64,
) -> Option<(Case, u64)> {
    let mut rng = Random::new(11);
    let mut found: Option<(Case, u64)> = None;
    for _ in 0..60_000 {
        let [a, b] = draw(&mut rng);
        let Some(case) = caught(|| Case::new(a, b, tolerance)) else {
            continue;
        };
        let known = found
            .as_ref()
            .is_some_and(|(known, _)| size(known) <= size(&case));
        if known || !case.cuts_are_whole || case.longer_than_the_outline() {
            continue;
        }
        if !case.info.any_intersects() || case.info.completely_overlapping() {
            continue;
        }
        if case.plines.iter().any(|pline| pline.area() == 0.0) {
            continue;
        }
        let tally = &mut Tally::default();
        let Some(sides) = case.sides(tally) else {
            continue;
        };
        let answers = case.answers(tally, &sides);
        let differs = |mode: &u64| {
            let told = case.mode(&mut Tally::default(), *mode, &sides, &answers);
            told.is_some_and(|told| told.causes == [cause])
        };
        if let Some(mode) = (0..4).find(differs) {
            found = Some((case, mode));
        }
    }
    found
}

fn slices_text(slices: &Slices) -> String {
    let one = |(at, n): (&[usize], &[u64])| {
        let n: Vec<String> = n
            .iter()
            .map(|n| format!("{:?}", f64::from_bits(*n)))
            .collect();
        format!("{at:?} {}", n.join(" "))
    };
    let items = slices
        .at
        .chunks_exact(4)
        .zip(slices.numbers.chunks_exact(6));
    items.map(one).collect::<Vec<_>>().join("; ")
}

/// The differences, each at the smallest input that was found.
pub fn show() {
    let zeros = |rng: &mut Random| {
        let [mut a, b] = [0; 2].map(|_| scattered(rng, 2.0, 4, 4));
        a.chunks_exact_mut(3).for_each(|v| v[2] = -0.0);
        [a, b]
    };
    let small = |rng: &mut Random| [0; 2].map(|_| scattered(rng, 2.0, 4, 4));
    for (cause, found) in [
        (ON_EDGE, smallest(ON_EDGE, small, 1e-5)),
        (ROUNDED, smallest(ROUNDED, close_lines, 1e-12)),
        (MINUS_ZERO, smallest(MINUS_ZERO, zeros, 1e-5)),
    ] {
        println!("straight masks: {cause}");
        let Some((case, mode)) = found else {
            println!("  none was found");
            continue;
        };
        println!("  mode {mode}, {}", case.text());
        let original = case.original(mode, false, None);
        println!(
            "  original: {}",
            original.as_ref().map(slices_text).unwrap_or_default()
        );
        let ours = case.at_once(mode);
        println!(
            "  archive:  {}",
            ours.as_ref().map(slices_text).unwrap_or_default()
        );
    }
    println!();
}
