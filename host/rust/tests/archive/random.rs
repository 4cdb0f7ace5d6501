//! Drawn masks: what must hold of any union, intersection and difference. The seed is fixed.

use crate::shapes::{
    area, combine, covered, crossings, finely, masks, named, reversed, total_area, Draw, FINE,
};
use mask_tools::{ChainEnd, Combined, Masks, Mode, Outline, Overlaps, StraightHost, Vertex};
use std::f64::consts::TAU;

/// Points on an ellipse in order: a convex outline, anticlockwise.
fn convex(draw: &mut Draw) -> Outline {
    let vertices = 3 + draw.below(20);
    let (x, y) = (draw.between(-3.0, 3.0), draw.between(-3.0, 3.0));
    let (wide, high) = (draw.between(1.0, 6.0), draw.between(1.0, 6.0));
    ring(draw, vertices, |angle, _| {
        (x + wide * angle.cos(), y + high * angle.sin())
    })
}

/// A star with points of drawn lengths: seldom convex.
fn star(draw: &mut Draw) -> Outline {
    let vertices = 5 + draw.below(30);
    let (x, y) = (draw.between(-2.0, 2.0), draw.between(-2.0, 2.0));
    ring(draw, vertices, |angle, length| {
        let radius = 1.0 + 5.0 * length;
        (x + radius * angle.cos(), y + radius * angle.sin())
    })
}

fn ring(draw: &mut Draw, vertices: usize, at: impl Fn(f64, f64) -> (f64, f64)) -> Outline {
    let step = TAU / vertices as f64;
    let positions: Vec<(f64, f64)> = (0..vertices)
        .map(|i| {
            let angle = step * (i as f64 + draw.between(0.0, 0.9));
            at(angle, draw.between(0.0, 1.0))
        })
        .collect();
    Outline::straight(&positions)
}

fn all_modes(pline1: &Outline, pline2: &Outline) -> [Combined; 4] {
    Mode::ALL.map(|mode| combine(pline1, pline2, mode))
}

fn near(a: f64, b: f64) -> bool {
    (a - b).abs() < 1e-6
}

/// Every chain closed, every round counted, every slice in one chain.
fn assert_whole(combined: &Combined) {
    let stitched = &combined.stitched;
    assert_eq!(stitched.rounds(), combined.slices.len());
    assert!(stitched.chains().all(|chain| chain.end == ChainEnd::Closed));
    assert_eq!(stitched.loop_count(), stitched.chain_count());
    let mut seen: Vec<usize> = stitched.chains().flat_map(|c| c.slices.to_vec()).collect();
    seen.sort_unstable();
    assert!(seen.into_iter().eq(0..combined.slices.len()));
}

/// The areas of the four results go together.
fn assert_areas(pline1: &Outline, pline2: &Outline, found: &[Combined; 4]) {
    let (area1, area2) = (area(pline1.vertices()).abs(), area(pline2.vertices()).abs());
    let [union, both, first, second] = [0, 1, 2, 3].map(|i| total_area(&found[i]));
    assert!(near(union + both, area1 + area2), "{union} {both}");
    assert!(near(first, area1 - both), "{first} {both}");
    assert!(near(second, area2 - both), "{second} {both}");
}

/// Drawn points lie in a result where they lie in the two outlines as its mode says.
fn assert_points(draw: &mut Draw, pline1: &Outline, pline2: &Outline, found: &[Combined; 4]) {
    for _ in 0..20 {
        let (x, y) = (draw.between(-8.0, 8.0), draw.between(-8.0, 8.0));
        let in1 = covered([pline1.vertices()], x, y);
        let in2 = covered([pline2.vertices()], x, y);
        let expected = [in1 || in2, in1 && in2, in1 && !in2, in2 && !in1];
        let in_found = [0, 1, 2, 3].map(|i| covered(found[i].loops(), x, y));
        assert_eq!(in_found, expected, "at {x} {y}");
    }
}

/// Draws pairs until so many of them meet, and checks each, in each pair of directions.
fn check_pairs(seed: u64, count: usize, outline: fn(&mut Draw) -> Outline) -> usize {
    let mut draw = Draw(seed);
    let (mut met, mut most) = (0, 0);
    while met < count {
        let (pline1, pline2) = (outline(&mut draw), outline(&mut draw));
        let cuts = crossings(&pline1, &pline2).len();
        if cuts == 0 {
            continue;
        }
        met += 1;
        most = most.max(cuts);
        let pline1 = if met % 2 == 0 {
            reversed(&pline1)
        } else {
            pline1
        };
        let pline2 = if met % 4 < 2 {
            reversed(&pline2)
        } else {
            pline2
        };
        let found = all_modes(&pline1, &pline2);
        found.iter().for_each(assert_whole);
        assert_areas(&pline1, &pline2, &found);
        assert_points(&mut draw, &pline1, &pline2, &found);
    }
    most
}

#[test]
fn convex_masks() {
    assert!(check_pairs(1, 400, convex) >= 8);
}

#[test]
fn masks_of_any_shape() {
    assert!(check_pairs(2, 200, star) >= 20);
}

#[test]
fn a_union_of_convex_masks_is_one_loop() {
    let mut draw = Draw(3);
    for _ in 0..200 {
        let (pline1, pline2) = (convex(&mut draw), convex(&mut draw));
        let found = combine(&pline1, &pline2, Mode::Union);
        let expected = usize::from(!crossings(&pline1, &pline2).is_empty());
        assert_eq!(found.loops().count(), expected);
        let found = combine(&pline1, &pline2, Mode::Intersection);
        assert_eq!(found.loops().count(), expected);
    }
}

#[test]
fn changing_places_changes_the_difference_only() {
    let mut draw = Draw(4);
    for _ in 0..100 {
        let (pline1, pline2) = (star(&mut draw), star(&mut draw));
        let there = all_modes(&pline1, &pline2).map(|found| total_area(&found));
        let back = all_modes(&pline2, &pline1).map(|found| total_area(&found));
        let expected = [back[0], back[1], back[3], back[2]];
        assert!(there.iter().zip(expected).all(|(a, b)| near(*a, b)));
    }
}

#[test]
fn the_area_limit_drops_what_is_below_it() {
    let mut draw = Draw(5);
    for _ in 0..100 {
        let (pline1, pline2) = (star(&mut draw), star(&mut draw));
        let hits = crossings(&pline1, &pline2);
        let limit = draw.between(0.0, 3.0);
        let laps = Overlaps::new();
        let all = Masks {
            setting: finely(),
            ..masks(&pline1, &pline2, &hits, &laps)
        };
        let limited = Masks {
            setting: named(FINE, limit),
            ..all
        };
        for mode in Mode::ALL {
            let all = all.combine(mode, &mut StraightHost).unwrap();
            let kept = limited.combine(mode, &mut StraightHost).unwrap();
            let large = |lp: &&[Vertex]| area(lp).abs() >= limit;
            assert!(kept.loops().eq(all.loops().filter(large)));
        }
    }
}
