//! The family of starts: the view between two points of an outline, and from a new start. An outline of
//! 2 to 6 vertices, open and closed; every pair of its indexes; on each segment its two vertices, points
//! between them, points just on and just off a vertex, and points on both sides of it. Each pair of points
//! is spanned, sliced with the crate's own splits, made as the span asks for them, and sliced with splits
//! that no geometry gives. One outline in three has two tolerances that mostly differ.

use crate::call::{Axes, Call, Outcome};
use crate::cases::{self, Place};
use crate::hostile;
use crate::random::Random;
use crate::stages;
use crate::tally::{Family, Tally};
use crate::theirs;
use cavalier_contours::core::math::Vector2;
use cavalier_contours::polyline::{PlineSource, PlineVertex, Polyline, SplitResult, own};

const FAMILY: Family = Family::Starts;

/// One outline, with all its pairs of points.
pub fn scenario(tally: &mut Tally, rng: &mut Random) {
    let tolerance = match rng.once_in(3) {
        true => hostile::axes(rng),
        false => rng.pick(&[1.0 / 1024.0, 1e-5, 0.5, 1.0]).into(),
    };
    let outline = outline(rng, tolerance);
    for closed in [true, false] {
        every_pair(tally, rng, &outline, closed, tolerance);
    }
    for call in corners() {
        tally.compare(FAMILY, &call);
    }
}

fn every_pair(tally: &mut Tally, rng: &mut Random, outline: &[f64], closed: bool, tolerance: Axes) {
    let case = Case::new(outline, closed, tolerance);
    let places = case.places();
    for start in &places {
        case.new_start(tally, rng, *start);
        for end in &places {
            case.slice(tally, rng, [*start, *end]);
        }
    }
}

/// Vertices on whole numbers, or close to the one before; some segments are arcs.
fn outline(rng: &mut Random, tolerance: Axes) -> Vec<f64> {
    let count = rng.from(2, 6);
    let with_arcs = rng.once_in(2);
    let mut outline: Vec<f64> = Vec::new();
    for i in 0..count {
        let mut x = rng.below(9) as f64 - 4.0;
        let mut y = rng.below(9) as f64 - 4.0;
        if i > 0 && rng.once_in(6) {
            x = outline[3 * i - 3] + tolerance.x * rng.pick(&[0.0, 0.5, 1.0, 1.5]);
            y = outline[3 * i - 2];
        }
        let bulge = match with_arcs && rng.once_in(2) {
            true => rng.pick(&[1.0, -1.0, 0.5, -0.25, 0.1]),
            false => 0.0,
        };
        outline.extend([x, y, bulge]);
    }
    outline
}

/// An outline, open or closed, and the tolerances.
struct Case<'a> {
    outline: &'a [f64],
    closed: bool,
    pline: Polyline,
    tolerance: Axes,
}

fn split_numbers(split: &SplitResult) -> [f64; 6] {
    let (a, b) = (split.updated_start, split.split_vertex);
    [a.x, a.y, a.bulge, b.x, b.y, b.bulge]
}

fn vector(point: [f64; 2]) -> Vector2 {
    Vector2::new(point[0], point[1])
}

/// Any split: small numbers, now and then the very points and vertices of the call.
fn any_split(rng: &mut Random, near: &[[f64; 2]]) -> [f64; 6] {
    let position = |rng: &mut Random| match rng.below(3) {
        0 => [rng.below(9) as f64 - 4.0, rng.below(9) as f64 - 4.0],
        _ => near[rng.below(near.len())],
    };
    let (a, b) = (position(rng), position(rng));
    [
        a[0],
        a[1],
        rng.between(-1.0, 1.0),
        b[0],
        b[1],
        rng.between(-1.0, 1.0),
    ]
}

impl<'a> Case<'a> {
    fn new(outline: &'a [f64], closed: bool, tolerance: impl Into<Axes>) -> Case<'a> {
        Case {
            outline,
            closed,
            pline: stages::open_or_closed(outline, closed),
            tolerance: tolerance.into(),
        }
    }

    fn next(&self, index: usize) -> PlineVertex {
        self.pline.at(self.pline.next_wrapping_index(index))
    }

    /// The points of every segment, an open outline's last one, back to vertex 0, among them.
    fn places(&self) -> Vec<Place> {
        let t = self.tolerance;
        let mut places = Vec::new();
        for index in 0..self.pline.vertex_count() {
            let (v1, v2) = (self.pline.at(index), self.next(index));
            let (dx, dy) = (v2.x - v1.x, v2.y - v1.y);
            let along = |part: f64| [v1.x + part * dx, v1.y + part * dy];
            let middle = own::seg_midpoint(v1, v2);
            let beside = |side: f64| {
                let half = along(0.5);
                [half[0] - side * dy, half[1] + side * dx]
            };
            let points = [
                [v1.x, v1.y],
                [v2.x, v2.y],
                [v1.x + 0.5 * t.x, v1.y],
                [v2.x - 0.5 * t.x, v2.y + 0.5 * t.y],
                [v2.x, v2.y + t.y],
                along(0.25),
                along(0.75),
                [middle.x, middle.y],
                beside(0.125),
                beside(-0.125),
            ];
            places.extend(points.map(|point| Place { index, point }));
        }
        places
    }

    fn split(&self, v1: PlineVertex, v2: PlineVertex, at: [f64; 2]) -> SplitResult {
        own::seg_split_at_point(v1, v2, vector(at), self.tolerance.x)
    }

    /// The crate's own splits, by the tolerance of x, of the segments that the span names.
    fn own_splits(&self, span: &Outcome, ends: [Place; 2]) -> [[f64; 6]; 2] {
        let (moved, start) = (span.answer[1] == 1, span.answer[2] as usize);
        let (v1, v2) = (self.pline.at(start), self.next(start));
        let first = self.split(v1, v2, ends[0].point);
        let last = if span.answer[3] == 0 {
            let running = if moved { v1 } else { first.split_vertex };
            self.split(running, v2, ends[1].point)
        } else {
            let end = ends[1].index;
            self.split(self.pline.at(end), self.next(end), ends[1].point)
        };
        [split_numbers(&first), split_numbers(&last)]
    }

    fn near(&self, ends: &[Place]) -> Vec<[f64; 2]> {
        let mut near: Vec<[f64; 2]> = ends.iter().map(|end| end.point).collect();
        near.extend(ends.iter().map(|end| {
            let v = self.next(end.index);
            [v.x, v.y]
        }));
        near
    }

    fn slice(&self, tally: &mut Tally, rng: &mut Random, ends: [Place; 2]) {
        let (outline, closed, t) = (self.outline, self.closed, self.tolerance);
        let span = tally.compare(FAMILY, &cases::slice_span(outline, closed, ends, t));
        if span.answer[0] != 0 {
            let splits = [any_split(rng, &self.near(&ends)); 2];
            let call = cases::from_slice_points(outline, closed, ends, t, splits);
            tally.compare(FAMILY, &call);
            return;
        }
        let splits = self.own_splits(&span, ends);
        let call = cases::from_slice_points(outline, closed, ends, t, splits);
        let place = |end: Place| (end.index, vector(end.point));
        tally.compare_with(FAMILY, &call, || {
            let view = stages::from_slice_points(&self.pline, place(ends[0]), place(ends[1]), t.x);
            theirs::with_own_splits(view)
        });
        let near = self.near(&ends);
        let splits = [any_split(rng, &near), any_split(rng, &near)];
        let call = cases::from_slice_points(outline, closed, ends, t, splits);
        tally.compare(FAMILY, &call);
    }

    /// The two points whose span tells what a new start asks for.
    fn new_ends(&self, start: Place) -> [Place; 2] {
        if self.closed {
            return [start, start];
        }
        let index = self.pline.vertex_count() - 1;
        let last = self.pline.at(index);
        let point = [last.x, last.y];
        [start, Place { index, point }]
    }

    fn new_start(&self, tally: &mut Tally, rng: &mut Random, start: Place) {
        let (outline, closed, t) = (self.outline, self.closed, self.tolerance);
        let ends = self.new_ends(start);
        let span = tally.compare(FAMILY, &cases::slice_span(outline, closed, ends, t));
        let splits = self.own_splits(&span, ends);
        let call = cases::from_new_start(outline, closed, start, t, splits);
        tally.compare_with(FAMILY, &call, || {
            let start = (start.index, vector(start.point));
            theirs::with_own_splits(stages::from_new_start(&self.pline, start, t.x))
        });
        let near = self.near(&ends);
        let splits = [any_split(rng, &near), any_split(rng, &near)];
        tally.compare(
            FAMILY,
            &cases::from_new_start(outline, closed, start, t, splits),
        );
    }
}

/// Every corner at its smallest input, on (0,0) (4,0) and on outlines with a third vertex close by: the
/// examples that are proved by computation, and a refusal of each number. All are straight, so the host's
/// split is the point itself.
pub fn corners() -> Vec<Call> {
    let mut calls = Vec::new();
    let line = [0.0, 0.0, 0.0, 4.0, 0.0, 0.0];
    let third = |x: f64| [0.0, 0.0, 0.0, 4.0, 0.0, 0.0, x, 0.0, 0.0];
    let on = |index: usize, x: f64| Place {
        index,
        point: [x, 0.0],
    };
    let fine = 1.0 / 1024.0;
    let up = Place {
        index: 0,
        point: [0.0, 3.0],
    };
    for (closed, start, end) in [
        (false, on(0, 4.0), on(1, 2.0)),
        (false, on(1, 0.0), on(1, 2.0)),
        (true, on(1, 0.0), on(1, 2.0)),
        (true, on(0, 4.0), on(0, 2.0)),
        (true, on(0, 1.0), on(0, 3.0)),
        (true, on(0, 3.0), on(0, 1.0)),
        (true, on(0, 3.0), up),
        (true, on(0, 1.0), on(0, 1.0)),
        (false, on(0, 3.0), on(0, 1.0)),
        (true, on(0, 3.0), on(1, 3.0)),
        (true, on(0, 1.0), on(1, 4.0)),
        (false, on(1, 1.0), on(0, 1.0)),
    ] {
        sliced(&mut calls, &line, closed, [start, end], fine);
    }
    for (closed, start, end) in [
        (true, on(0, 4.75), on(1, 3.5)),
        (true, on(0, 3.0), on(0, 2.5)),
        (false, on(0, 3.0), on(1, 3.5)),
        (true, on(0, 3.0), on(1, 3.5)),
    ] {
        sliced(&mut calls, &line, closed, [start, end], 1.0);
    }
    sliced(
        &mut calls,
        &third(4.75),
        true,
        [on(0, 3.5), on(2, 4.75)],
        1.0,
    );
    sliced(
        &mut calls,
        &third(5.0),
        true,
        [on(0, 4.5), on(2, 5.25)],
        1.0,
    );
    for (closed, start) in [
        (true, on(0, 1.0)),
        (true, on(0, 0.0)),
        (true, on(0, 4.0)),
        (true, on(1, 0.0)),
        (false, on(0, 1.0)),
        (false, on(0, 0.0)),
        (false, on(0, 4.0)),
        (false, on(1, 4.0)),
        (false, on(1, 2.0)),
    ] {
        let case = Case::new(&line, closed, fine);
        let ends = case.new_ends(start);
        let span = theirs::answer(&cases::slice_span(&line, closed, ends, fine));
        let splits = case.own_splits(&span, ends);
        calls.push(cases::from_new_start(&line, closed, start, fine, splits));
    }
    calls
}

/// The span of two points and the view between them, with the crate's own splits. Where the call is
/// refused any splits do.
fn sliced(calls: &mut Vec<Call>, outline: &[f64], closed: bool, ends: [Place; 2], t: f64) {
    let case = Case::new(outline, closed, t);
    let call = cases::slice_span(outline, closed, ends, t);
    let span = theirs::answer(&call);
    let splits = case.own_splits(&span, ends);
    calls.push(call);
    calls.push(cases::from_slice_points(outline, closed, ends, t, splits));
}
