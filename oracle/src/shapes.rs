//! Outlines as they occur: stars, rectangles, steps of a horizon, combs, circles, and second outlines
//! that share edges with a first one. An outline is a list of x, y, bulge.

use crate::random::Random;
use std::f64::consts::TAU;

fn add(outline: &mut Vec<f64>, x: f64, y: f64, bulge: f64) {
    outline.extend([x, y, bulge]);
}

/// Corners round a centre, each at its own distance. Some segments are arcs.
fn star(rng: &mut Random, largest: usize) -> Vec<f64> {
    let corners = rng.from(3, largest);
    let (cx, cy) = (rng.between(-3.0, 3.0), rng.between(-3.0, 3.0));
    let with_arcs = rng.once_in(2);
    let mut outline = Vec::new();
    for i in 0..corners {
        let angle = TAU * (i as f64 + 0.8 * rng.part()) / corners as f64;
        let radius = rng.between(1.0, 6.0);
        let arc = with_arcs && rng.once_in(3);
        let bulge = if arc { rng.between(-0.7, 0.7) } else { 0.0 };
        add(
            &mut outline,
            cx + radius * angle.cos(),
            cy + radius * angle.sin(),
            bulge,
        );
    }
    outline
}

fn whole(rng: &mut Random, first: i64, last: i64) -> f64 {
    (first + rng.below((last - first + 1) as usize) as i64) as f64
}

/// A rectangle on whole numbers, so that two of them often share edges. Some have rounded corners.
fn rectangle(rng: &mut Random) -> Vec<f64> {
    let (x, y) = (whole(rng, -4, 4), whole(rng, -4, 4));
    let (w, h) = (whole(rng, 1, 6), whole(rng, 1, 6));
    let mut outline = Vec::new();
    if rng.once_in(4) && w > 1.0 && h > 1.0 {
        let (r, quarter) = (0.5, (TAU / 16.0).tan());
        add(&mut outline, x + r, y, 0.0);
        add(&mut outline, x + w - r, y, quarter);
        add(&mut outline, x + w, y + r, 0.0);
        add(&mut outline, x + w, y + h - r, quarter);
        add(&mut outline, x + w - r, y + h, 0.0);
        add(&mut outline, x + r, y + h, quarter);
        add(&mut outline, x, y + h - r, 0.0);
        add(&mut outline, x, y + r, quarter);
    } else {
        add(&mut outline, x, y, 0.0);
        add(&mut outline, x + w, y, 0.0);
        add(&mut outline, x + w, y + h, 0.0);
        add(&mut outline, x, y + h, 0.0);
    }
    outline
}

/// A horizon: azimuth runs along x, and every few degrees the elevation steps up or down.
fn horizon(rng: &mut Random, largest: usize) -> Vec<f64> {
    let steps = rng.from(1, (largest / 2).max(2) - 1);
    let width = rng.pick(&[1.0, 2.0, 5.0]);
    let left = whole(rng, -3, 3);
    let mut outline = Vec::new();
    add(&mut outline, left, 0.0, 0.0);
    add(&mut outline, left + width * steps as f64, 0.0, 0.0);
    let mut last = 0.0;
    for i in (0..steps).rev() {
        let mut elevation = whole(rng, 1, 5);
        if elevation == last {
            elevation += 1.0;
        }
        let right = left + width * (i + 1) as f64;
        if last != 0.0 {
            add(&mut outline, right, last, 0.0);
        }
        add(&mut outline, right, elevation, 0.0);
        last = elevation;
    }
    add(&mut outline, left, last, 0.0);
    outline
}

/// A comb: teeth of one width on a common back.
fn comb(rng: &mut Random, largest: usize) -> Vec<f64> {
    let teeth = rng.from(1, (largest / 4).max(1));
    let (x, y) = (whole(rng, -4, 2), whole(rng, -3, 3));
    let height = whole(rng, 2, 4);
    let mut outline = Vec::new();
    add(&mut outline, x, y, 0.0);
    add(&mut outline, x + 2.0 * teeth as f64, y, 0.0);
    for i in (0..teeth).rev() {
        let left = x + 2.0 * i as f64;
        add(&mut outline, left + 2.0, y + 1.0, 0.0);
        add(&mut outline, left + 1.0, y + 1.0, 0.0);
        add(&mut outline, left + 1.0, y + height, 0.0);
        add(&mut outline, left, y + height, 0.0);
    }
    outline
}

/// Two arcs that make a circle, or a lens.
fn circle(rng: &mut Random) -> Vec<f64> {
    let (x, y) = (whole(rng, -4, 4), whole(rng, -4, 4));
    let width = whole(rng, 1, 6);
    let bulge = rng.pick(&[1.0, 1.0, 0.5, 0.2]);
    vec![x, y, bulge, x + width, y, bulge]
}

/// A zigzag band, which other outlines cut many times.
fn zigzag(rng: &mut Random, largest: usize) -> Vec<f64> {
    let turns = rng.from(2, (largest / 2).max(3) - 1);
    let (x, y) = (rng.between(-5.0, 0.0), rng.between(-2.0, 2.0));
    let thickness = rng.between(0.1, 1.0);
    let mut outline = Vec::new();
    let height = |i: usize| if i % 2 == 0 { 0.0 } else { 3.0 };
    for i in 0..turns {
        add(&mut outline, x + i as f64, y + height(i), 0.0);
    }
    for i in (0..turns).rev() {
        add(&mut outline, x + i as f64, y + height(i) + thickness, 0.0);
    }
    outline
}

/// The same outline the other way round.
pub fn reversed(outline: &[f64]) -> Vec<f64> {
    let count = outline.len() / 3;
    let mut result = Vec::new();
    for i in (0..count).rev() {
        let bulge = outline[3 * ((i + count - 1) % count) + 2];
        add(&mut result, outline[3 * i], outline[3 * i + 1], -bulge);
    }
    result
}

/// The same outline, begun at another vertex.
fn turned(outline: &[f64], first: usize) -> Vec<f64> {
    let mut result = outline.to_vec();
    result.rotate_left(3 * first);
    result
}

fn moved(outline: &[f64], dx: f64, dy: f64) -> Vec<f64> {
    let moved = |v: &[f64]| [v[0] + dx, v[1] + dy, v[2]];
    outline.chunks_exact(3).flat_map(moved).collect()
}

fn stretched(outline: &[f64], factor: f64) -> Vec<f64> {
    let stretched = |v: &[f64]| [v[0] * factor, v[1] * factor, v[2]];
    outline.chunks_exact(3).flat_map(stretched).collect()
}

fn any(rng: &mut Random, largest: usize) -> Vec<f64> {
    match rng.below(8) {
        0 | 1 => star(rng, largest.max(3)),
        2 | 3 => rectangle(rng),
        4 => horizon(rng, largest),
        5 => comb(rng, largest),
        6 => circle(rng),
        _ => zigzag(rng, largest),
    }
}

/// The first outline with one vertex taken out or moved: most of its edges are shared.
fn near_copy(rng: &mut Random, first: &[f64]) -> Vec<f64> {
    let count = first.len() / 3;
    let mut second = turned(first, rng.below(count));
    let at = 3 * rng.below(count);
    if count > 3 && rng.once_in(2) {
        second.drain(at..at + 3);
    } else {
        second[at] += whole(rng, -2, 2);
        second[at + 1] += whole(rng, -2, 2);
    }
    second
}

/// Two outlines on whole numbers whose sides run along the axes, some with rounded corners.
pub fn square_pair(rng: &mut Random, largest: usize) -> [Vec<f64>; 2] {
    let any = |rng: &mut Random| match rng.below(3) {
        0 => rectangle(rng),
        1 => horizon(rng, largest),
        _ => comb(rng, largest),
    };
    let mut first = any(rng);
    let mut second = match rng.below(4) {
        0 => moved(&first, whole(rng, -2, 2), whole(rng, -2, 2)),
        1 => near_copy(rng, &first),
        _ => any(rng),
    };
    if rng.once_in(3) {
        first = reversed(&first);
    }
    if rng.once_in(3) {
        second = reversed(&second);
    }
    [first, second]
}

/// Two outlines of at most about `largest` vertices each.
pub fn pair(rng: &mut Random, largest: usize) -> [Vec<f64>; 2] {
    let mut first = any(rng, largest);
    let mut second = match rng.below(6) {
        0 => moved(&first, whole(rng, -2, 2), whole(rng, -2, 2)),
        1 => moved(&first, rng.between(-1.0, 1.0), rng.between(-1.0, 1.0)),
        2 => near_copy(rng, &first),
        _ => any(rng, largest),
    };
    if rng.once_in(3) {
        first = reversed(&first);
    }
    if rng.once_in(3) {
        second = reversed(&second);
    }
    let factor = rng.pick(&[1.0, 1.0, 1.0, 0.125, 1000.0, 1.0 / 3.0]);
    [stretched(&first, factor), stretched(&second, factor)]
}
