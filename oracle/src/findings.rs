//! The known differences and the faults met on the way, each shown at its smallest input: what
//! document 01 says, what the original does, what the archive does.

use crate::call::{Call, Outcome};
use crate::cases::{self, Shared};
use crate::random::Random;
use crate::realistic::Pair;
use crate::stages;
use crate::tally::Tally;
use crate::{at_once, late, ours, refusal, straight, theirs};
use cavalier_contours::polyline::internal::pline_boolean::polyline_boolean;
use cavalier_contours::polyline::{
    BooleanOp, BooleanResultPline, PlineBooleanOptions, PlineSource, PlineVertex, Polyline,
};

const TOLERANCE: f64 = 1.0 / 1024.0;

/// Prints them all.
pub fn show() {
    straight::show();
    at_once::show();
    late::show();
    ties();
    joined_overlap(
        "a union gets a spike",
        &[[0.0, 0.0], [4.0, 0.0], [4.0, 4.0], [0.0, 4.0]],
        &[[2.0, 0.0], [6.0, 0.0], [6.0, 2.0], [1.0, 2.0], [1.0, 0.0]],
    );
    joined_overlap(
        "a union loses a corner",
        &[[-0.5, 4.5], [4.0, 0.5], [2.0, 0.5]],
        &[[4.0, 0.5], [-0.5, 4.5], [1.0, 0.5]],
    );
    joined_overlap(
        "two triangles, the fewest vertices found",
        &[[2.0, 1.0], [3.0, 0.0], [0.0, 1.0]],
        &[[0.0, 1.0], [4.0, 1.0], [3.0, 0.0]],
    );
    joined_overlap(
        "the offset passes the vertex count (the second outline runs back on itself)",
        &[
            [0.0, 0.0],
            [2.0, 0.0],
            [2.0, 1.0],
            [1.0, 1.0],
            [1.0, 2.0],
            [0.0, 2.0],
        ],
        &[
            [1.0, 2.0],
            [1.0, 1.0],
            [2.0, 1.0],
            [2.0, 0.0],
            [2.0, 2.0],
            [0.0, 2.0],
        ],
    );
}

fn both(call: &Call) -> (Outcome, Outcome) {
    let ours = ours::answer(call).expect("nothing else is written");
    let theirs = match refusal::expected(call) {
        0 => theirs::answer(call),
        number => Outcome::refused(call, number),
    };
    (theirs, ours)
}

/// 33 intersections on the first segment of (0,0) (8,0): one at (2,0), then 32 at a distance of 1, to
/// the left and to the right in turn.
fn tied(count: usize) -> Call {
    let mut shared = Shared::default();
    for k in 0..count {
        let x = match k {
            0 => 2.0,
            _ if k % 2 == 1 => -1.0,
            _ => 1.0,
        };
        shared.hit_at.extend([0, 0]);
        shared.hit.extend([x, 0.0]);
    }
    let outline = [0.0, 0.0, 0.0, 8.0, 0.0, 0.0];
    cases::cut_order(&mut Random::new(1), &outline, 1, &shared, 0.5)
}

fn ties() {
    let places = |outcome: &Outcome, count: usize| -> String {
        let xs = outcome.lent[1].chunks_exact(2).take(count);
        let xs: Vec<String> = xs.map(|p| f64::from_bits(p[0]).to_string()).collect();
        xs.join(" ")
    };
    println!(
        "ties: outline (0,0) (8,0); intersections on segment 0 at (2,0), (-1,0), (1,0), (-1,0), .."
    );
    println!("  document 01: equal distances keep the order of arrival, so -1 1 -1 1 .. 2");
    for count in [32, 33] {
        let (theirs, ours) = both(&tied(count));
        println!("  {count} cuts, original: x = {}", places(&theirs, count));
        println!("  {count} cuts, archive:  x = {}", places(&ours, count));
    }
    println!();
}

pub fn outline_of(points: &[[f64; 2]]) -> Vec<f64> {
    points.iter().flat_map(|p| [p[0], p[1], 0.0]).collect()
}

pub fn loop_text(l: &[f64]) -> String {
    let corners = l.chunks_exact(3).map(|v| format!("({},{})", v[0], v[1]));
    let corners: Vec<String> = corners.collect();
    format!("{} area {}", corners.join(" "), stages::outline(l).area())
}

/// The crate's whole union.
fn union_of_the_crate(a: &[f64], b: &[f64]) -> Vec<Vec<f64>> {
    let options = PlineBooleanOptions {
        pline1_aabb_index: None,
        pos_equal_eps: TOLERANCE,
        collapsed_area_eps: None,
    };
    let (a, b) = (stages::outline(a), stages::outline(b));
    let result = polyline_boolean::<_, _, Polyline, _>(&a, &b, BooleanOp::Or, &options);
    let numbers = |r: &BooleanResultPline<Polyline>| -> Vec<f64> {
        let one = |v: &PlineVertex| [v.x, v.y, v.bulge];
        r.pline.vertex_data.iter().flat_map(one).collect()
    };
    let all = result.pos_plines.iter().chain(&result.neg_plines);
    all.map(numbers).collect()
}

pub fn verdict_text(verdict: u64) -> &'static str {
    match verdict {
        0 => "refused",
        1 => "1, no segments",
        2 => "2, offset out of range",
        3 => "3, start not on segment",
        4 => "4, end not on segment",
        5 => "5, end on final vertex",
        6 => "6, bulge mismatch",
        _ => "7, valid",
    }
}

fn show_laps(pair: &Pair) {
    for lap in 0..pair.shared.laps() {
        let at = &pair.shared.lap_at[7 * lap..7 * lap + 7];
        let n = &pair.shared.lap[6 * lap..6 * lap + 6];
        let verdict = pair.verdict(&mut Tally::default(), 1, &pair.lap_view(lap));
        println!(
            "    from ({},{}) on segment {} of B to ({},{}) on segment {}; view start {}, offset {}: \
             verdict {}",
            n[0],
            n[1],
            at[1],
            n[4],
            n[5],
            at[3],
            at[5],
            at[6],
            verdict_text(verdict)
        );
    }
}

fn show_union(pair: &Pair) {
    match pair.union(&mut Tally::default(), &mut Random::new(1)) {
        Ok(loops) => {
            for l in loops {
                println!("    {}", loop_text(&l));
            }
        }
        Err(number) => println!("    refused, number {number}"),
    }
}

/// Two outlines whose last overlap is joined to the first one.
fn joined_overlap(what: &str, a: &[[f64; 2]], b: &[[f64; 2]]) {
    let (a, b) = (outline_of(a), outline_of(b));
    println!("joined overlap: {what}, t = 1/1024");
    println!("  A = {}", loop_text(&a));
    println!("  B = {}", loop_text(&b));
    println!("  overlaps that the crate joined, and the archive's verdict on their views:");
    let mut pair = Pair::new(a.clone(), b.clone(), TOLERANCE);
    show_laps(&pair);
    println!("  the crate's union:");
    for l in union_of_the_crate(&a, &b) {
        println!("    {}", loop_text(&l));
    }
    println!("  the archive's union of the same overlaps:");
    show_union(&pair);
    pair.repair_overlaps();
    println!("  overlaps with the view's start and offset put right:");
    show_laps(&pair);
    println!("  the archive's union of those:");
    show_union(&pair);
    println!();
}
