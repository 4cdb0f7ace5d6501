//! Views that start anywhere: every corner, in one call each.

use crate::shapes::{a, T};
use mask_tools::{
    slice_span, Host, Outline, Place, Point, Probe, Refusal, Source, Span, Split, StraightHost,
    Tolerance, Vertex, View,
};

const ONE: Tolerance = Tolerance::new(1.0);

/// Two vertices: segment 0 runs from 0 to 4, segment 1 back.
fn line() -> Outline {
    Outline::straight(&[(0.0, 0.0), (4.0, 0.0)])
}

fn on(index: usize, x: f64) -> Place {
    Place::new(index, Point::new(x, 0.0))
}

fn span(moved: bool, start_index: usize, traverse_count: usize) -> Span {
    Span {
        moved,
        start_index,
        traverse_count,
    }
}

/// The view from x = `start` on, over so many vertices more, to x = `end`.
fn view(start_index: usize, end_index_offset: usize, start: f64, end: f64) -> Option<View> {
    Some(View {
        start_index,
        end_index_offset,
        updated_start: Vertex::new(start, 0.0, 0.0),
        end_point: Point::new(end, 0.0),
        ..View::default()
    })
}

fn slice(outline: &Outline, closed: bool, start: Place, end: Place, t: Tolerance) -> Option<View> {
    View::from_slice_points(outline, closed, start, end, t, &mut StraightHost).unwrap()
}

fn new_start(closed: bool, start: Place) -> Option<View> {
    View::from_new_start(&line(), closed, start, T, &mut StraightHost).unwrap()
}

#[test]
fn every_corner_of_two_points() {
    let (open, closed) = (false, true);
    for (is_closed, start, end, t, spanned, sliced) in [
        // The start moves forward, unless an open outline's can't.
        (
            open,
            on(0, 4.0),
            on(1, 2.0),
            T,
            span(true, 1, 0),
            view(1, 0, 4.0, 2.0),
        ),
        (
            open,
            on(1, 0.0),
            on(1, 2.0),
            T,
            span(false, 1, 0),
            view(1, 0, 0.0, 2.0),
        ),
        (
            closed,
            on(1, 0.0),
            on(1, 2.0),
            T,
            span(true, 0, 1),
            view(0, 1, 0.0, 2.0),
        ),
        (
            closed,
            on(0, 4.0),
            on(0, 2.0),
            T,
            span(true, 1, 1),
            view(1, 1, 4.0, 2.0),
        ),
        // On one segment distances decide.
        (
            closed,
            on(0, 1.0),
            on(0, 3.0),
            T,
            span(false, 0, 0),
            view(0, 0, 1.0, 3.0),
        ),
        (
            closed,
            on(0, 3.0),
            on(0, 1.0),
            T,
            span(false, 0, 2),
            view(0, 2, 3.0, 1.0),
        ),
        (
            closed,
            on(0, 4.75),
            on(1, 3.5),
            ONE,
            span(true, 1, 2),
            view(1, 1, 4.0, 3.5),
        ),
        // They do not where the points agree, nor on an open outline.
        (closed, on(0, 1.0), on(0, 1.0), T, span(false, 0, 0), None),
        (closed, on(0, 3.0), on(0, 2.5), ONE, span(false, 0, 0), None),
        (
            open,
            on(0, 3.0),
            on(0, 1.0),
            T,
            span(false, 0, 0),
            view(0, 0, 3.0, 1.0),
        ),
        // A traverse of 1.
        (open, on(0, 3.0), on(1, 3.5), ONE, span(false, 0, 1), None),
        (closed, on(0, 3.0), on(1, 3.5), ONE, span(false, 0, 1), None),
        (
            closed,
            on(0, 3.0),
            on(1, 3.0),
            T,
            span(false, 0, 1),
            view(0, 1, 3.0, 3.0),
        ),
        (
            closed,
            on(0, 1.0),
            on(1, 4.0),
            T,
            span(false, 0, 1),
            view(0, 0, 1.0, 4.0),
        ),
    ] {
        let line = line();
        let found = slice_span(&line, is_closed, start, end, t);
        assert_eq!(found, Ok(spanned), "{start:?} {end:?}");
        let found = slice(&line, is_closed, start, end, t);
        assert_eq!(found, sliced, "{start:?} {end:?}");
    }
}

#[test]
fn equal_distances_wrap() {
    let end = Place::new(0, Point::new(0.0, 3.0));
    let round = slice(&line(), true, on(0, 3.0), end, T).unwrap();
    assert_eq!((round.start_index, round.end_index_offset), (0, 2));
}

#[test]
fn the_updated_start_is_compared_not_the_point() {
    let third = |x: f64| Outline::straight(&[(0.0, 0.0), (4.0, 0.0), (x, 0.0)]);
    let found = slice(&third(4.75), true, on(0, 3.5), on(2, 4.75), ONE);
    assert_eq!(found, None);
    let found = slice(&third(5.0), true, on(0, 4.5), on(2, 5.25), ONE);
    assert_eq!(found, view(1, 0, 4.0, 5.25));
}

#[test]
fn every_corner_of_a_new_start() {
    let (open, closed) = (false, true);
    for (is_closed, start, made) in [
        (closed, on(0, 1.0), view(0, 2, 1.0, 1.0)),
        (closed, on(0, 0.0), view(0, 1, 0.0, 0.0)),
        (closed, on(0, 4.0), view(1, 1, 4.0, 4.0)),
        (closed, on(1, 0.0), view(0, 1, 0.0, 0.0)),
        (open, on(0, 1.0), view(0, 0, 1.0, 4.0)),
        (open, on(0, 0.0), view(0, 0, 0.0, 4.0)),
        (open, on(0, 4.0), None),
        (open, on(1, 4.0), None),
        (open, on(1, 2.0), view(1, 0, 2.0, 4.0)),
    ] {
        assert_eq!(new_start(is_closed, start), made, "{start:?}");
    }
}

#[test]
fn at_its_own_start_an_outline_is_whole() {
    let square = a();
    for closed in [true, false] {
        let whole = View::from_entire_pline(&square, closed).unwrap();
        let start = on(0, 0.0);
        let found = View::from_new_start(&square, closed, start, T, &mut StraightHost);
        assert_eq!(found, Ok(Some(whole)));
    }
    let found = View::from_new_start(&square, true, on(3, 0.0), T, &mut StraightHost);
    assert_eq!(
        found,
        Ok(Some(View::from_entire_pline(&square, true).unwrap()))
    );
}

#[test]
fn once_round_has_every_vertex() {
    let square = a();
    let v = square.vertices();
    let start = Place::new(2, Point::new(1.0, 4.0));
    let round = View::from_new_start(&square, true, start, T, &mut StraightHost);
    let round = round.unwrap().unwrap();
    let vertices: Vec<Vertex> = (0..round.vertex_count())
        .map(|index| round.get_vertex(&square, index).unwrap().unwrap())
        .collect();
    let at = Vertex::new(1.0, 4.0, 0.0);
    assert_eq!(vertices, [at, v[3], v[0], v[1], v[2], at]);
}

/// A host whose every split is this one.
struct Fixed(Split);

impl Host for Fixed {
    fn split(&mut self, _: Vertex, _: Vertex, _: Point) -> Split {
        self.0
    }

    fn inside(&mut self, _: Source, _: &Outline, _: Probe) -> bool {
        unreachable!("no probe is tested here")
    }

    fn area(&mut self, _: &[Vertex]) -> f64 {
        unreachable!("no area is measured here")
    }
}

#[test]
fn arcs_take_the_bulges_of_the_splits() {
    let circle: Outline = [Vertex::new(0.0, 0.0, 1.0), Vertex::new(2.0, 0.0, 1.0)].into();
    let below = Place::new(0, Point::new(1.0, -1.0));
    let quarter = 0.5f64.sqrt() / (1.0 + 0.5f64.sqrt());
    let mut host = Fixed(Split {
        updated_start: Vertex::new(0.0, 0.0, quarter),
        split_vertex: Vertex::new(1.0, -1.0, quarter),
    });
    let round = View::from_new_start(&circle, true, below, T, &mut host);
    let round = round.unwrap().unwrap();
    assert_eq!((round.start_index, round.end_index_offset), (0, 2));
    assert_eq!(round.updated_start, Vertex::new(1.0, -1.0, quarter));
    assert_eq!(round.updated_end_bulge, quarter);
}

#[test]
fn each_axis_has_its_own_tolerance() {
    let line = line();
    let (start, end) = (Place::new(0, Point::new(4.25, 0.25)), on(1, 2.0));
    for (x, y, moved) in [(0.5, 0.5, true), (0.5, 0.25, false), (0.25, 0.5, false)] {
        let span = slice_span(&line, true, start, end, Tolerance { x, y }).unwrap();
        assert_eq!(span.moved, moved);
    }
}

#[test]
fn refusals() {
    let line = line();
    let slice = |outline: &Outline, start, end, t: f64, closed| {
        let t = Tolerance::new(t);
        View::from_slice_points(outline, closed, start, end, t, &mut StraightHost)
    };
    let (start, end) = (on(0, 1.0), on(1, 1.0));
    assert!(slice(&line, start, end, 0.5, false).is_ok());
    let short = Outline::straight(&[(0.0, 0.0)]);
    assert_eq!(slice(&short, start, end, 0.5, true), Err(Refusal::Outline));
    for bad in [0.0, 1.5, f64::NAN] {
        assert_eq!(slice(&line, start, end, bad, true), Err(Refusal::Tolerance));
        for tolerance in [Tolerance { x: bad, y: 0.5 }, Tolerance { x: 0.5, y: bad }] {
            let span = slice_span(&line, true, start, end, tolerance);
            assert_eq!(span, Err(Refusal::Tolerance));
        }
    }
    let nan = Place::new(0, Point::new(f64::NAN, 0.0));
    assert_eq!(slice(&line, nan, end, 0.5, true), Err(Refusal::Number));
    assert_eq!(
        slice(&line, start, on(2, 1.0), 0.5, true),
        Err(Refusal::Index)
    );
    assert_eq!(slice(&line, end, start, 0.5, false), Err(Refusal::Backward));
    assert!(slice(&line, end, start, 0.5, true).is_ok());
    assert_eq!(
        slice(&line, on(2, 1.0), start, 0.5, false),
        Err(Refusal::Index)
    );

    let new_start = |start, host: &mut dyn Host| {
        View::from_new_start(&line, false, start, Tolerance::new(0.5), host)
    };
    assert_eq!(
        new_start(on(2, 1.0), &mut StraightHost),
        Err(Refusal::Index)
    );
    assert_eq!(new_start(nan, &mut StraightHost), Err(Refusal::Number));
    let mut bad = Fixed(Split {
        updated_start: Vertex::new(0.0, 0.0, f64::INFINITY),
        split_vertex: Vertex::default(),
    });
    assert_eq!(new_start(start, &mut bad), Err(Refusal::Number));
}
