//! The entries over views, and the verdicts.

use crate::shapes::{a, T};
use mask_tools::{OnSegment, Outline, Point, Split, Verdict, Vertex, View, Walk};

/// A triangle with three different bulges.
fn triangle() -> Outline {
    [
        Vertex::new(0.0, 0.0, 0.25),
        Vertex::new(4.0, 0.0, 0.5),
        Vertex::new(0.0, 3.0, 0.75),
    ]
    .into()
}

/// The vertices one by one, which are those of one call, from either end.
fn vertices(view: View, outline: &Outline) -> Vec<Vertex> {
    let one_by_one: Vec<Vertex> = (0..view.vertex_count())
        .map(|index| view.get_vertex(outline, index).unwrap().unwrap())
        .collect();
    let all = view.vertices(outline).unwrap();
    assert_eq!(all.as_slice(), one_by_one);
    assert!(all.rev().eq(one_by_one.iter().rev().copied()));
    one_by_one
}

#[test]
fn a_whole_outline_closed_and_open() {
    let t = triangle();
    let v = t.vertices();
    let closed = View::from_entire_pline(&t, true).unwrap();
    let end = Vertex::new(0.0, 0.0, 0.0);
    assert_eq!(vertices(closed, &t), [v[0], v[1], v[2], end]);
    assert_eq!(closed.get_vertex(&t, 4), Ok(None));
    assert_eq!(closed.get_vertex(&t, usize::MAX), Ok(None));
    let open = View::from_entire_pline(&t, false).unwrap();
    let end = Vertex::new(0.0, 3.0, 0.0);
    assert_eq!(vertices(open, &t), [v[0], v[1], end]);
}

#[test]
fn an_inverted_view_negates_the_bulges() {
    let t = triangle();
    let whole = View::from_entire_pline(&t, true).unwrap();
    let back = View {
        inverted_direction: true,
        ..whole
    };
    let expected = [
        Vertex::new(0.0, 0.0, -0.75),
        Vertex::new(0.0, 3.0, -0.5),
        Vertex::new(4.0, 0.0, -0.25),
        Vertex::new(0.0, 0.0, 0.0),
    ];
    assert_eq!(vertices(back, &t), expected);
}

fn walk_to(end_intersect: Point) -> Walk {
    Walk {
        start_index: 0,
        updated_start: Vertex::new(1.0, 0.0, 0.125),
        end_intersect,
        intersect_index: 2,
        traverse_count: 2,
        split: Split {
            updated_start: Vertex::new(0.0, 3.0, 0.375),
            split_vertex: Vertex::default(),
        },
    }
}

#[test]
fn create_ends_inside_a_segment_or_on_its_vertex() {
    let t = triangle();
    let inside = View::create(&t, &walk_to(Point::new(0.0, 1.0)), T).unwrap();
    assert_eq!(
        (inside.end_index_offset, inside.updated_end_bulge),
        (2, 0.375)
    );
    let on_vertex = View::create(&t, &walk_to(Point::new(0.0, 3.0)), T).unwrap();
    assert_eq!(on_vertex.end_index_offset, 1);
    assert_eq!(on_vertex.updated_end_bulge, 0.5);
    assert_eq!(on_vertex.updated_start, Vertex::new(1.0, 0.0, 0.125));
    assert_eq!(on_vertex.end_point, Point::new(0.0, 3.0));
    assert!(!on_vertex.inverted_direction);
}

#[test]
fn on_a_single_segment() {
    let start = Vertex::new(1.0, 0.0, 0.0);
    let to = |x| View::create_on_single_segment(&a(), 0, start, Point::new(x, 0.0), T).unwrap();
    let expected = View {
        updated_start: start,
        end_point: Point::new(3.0, 0.0),
        ..View::default()
    };
    assert_eq!(to(3.0), Some(expected));
    assert_eq!(to(1.0), None);
    assert_eq!(to(1.0 + 1.0 / 2048.0), None);
    assert!(to(1.0 + 1.0 / 1024.0).is_some());
}

/// A view from (1,0) on A's segment 0 to (4,1) on its segment 1.
fn round_the_corner() -> View {
    View {
        start_index: 0,
        end_index_offset: 1,
        updated_start: Vertex::new(1.0, 0.0, 0.0),
        updated_end_bulge: 0.0,
        end_point: Point::new(4.0, 1.0),
        inverted_direction: false,
        edition: a().edition(),
    }
}

fn verdict(view: View, outline: &Outline, start: bool, end: bool) -> Verdict {
    view.validate_for_source(outline, OnSegment { start, end })
        .unwrap()
}

#[test]
fn a_view_that_fits() {
    let view = round_the_corner();
    assert_eq!(verdict(view, &a(), true, true), Verdict::IsValid);
    let back = View {
        inverted_direction: true,
        ..view
    };
    assert_eq!(verdict(back, &a(), true, true), Verdict::IsValid);
}

#[test]
fn no_segments() {
    let view = round_the_corner();
    for outline in [Outline::default(), Outline::straight(&[(1.0, 1.0)])] {
        let found = verdict(view, &outline, true, true);
        assert_eq!(found, Verdict::SourceHasNoSegments);
    }
}

#[test]
fn an_offset_out_of_range() {
    let far = View {
        end_index_offset: 5,
        ..round_the_corner()
    };
    let expected = Verdict::OffsetOutOfRange {
        offset: 5,
        source_length: 4,
    };
    assert_eq!(verdict(far, &a(), true, true), expected);
}

#[test]
fn ends_off_their_segments() {
    let view = round_the_corner();
    let start_point = Point::new(1.0, 0.0);
    let expected = Verdict::UpdatedStartNotOnSegment { start_point };
    assert_eq!(verdict(view, &a(), false, false), expected);
    let end_point = Point::new(4.0, 1.0);
    let expected = Verdict::EndPointNotOnSegment { end_point };
    assert_eq!(verdict(view, &a(), true, false), expected);

    // Near a vertex of its segment an end needs no word of the host.
    let from_vertex = View {
        updated_start: Vertex::new(0.0, 0.0005, 0.0),
        ..view
    };
    assert_eq!(verdict(from_vertex, &a(), false, true), Verdict::IsValid);
}

#[test]
fn the_end_on_the_final_vertex() {
    let end_point = Point::new(4.0, 0.000_001);
    let view = View {
        end_point,
        ..round_the_corner()
    };
    let expected = Verdict::EndPointOnFinalOffsetVertex {
        end_point,
        final_offset_vertex: Vertex::new(4.0, 0.0, 0.0),
    };
    assert_eq!(verdict(view, &a(), true, true), expected);
}

#[test]
fn bulges_that_do_not_match() {
    let view = View {
        end_index_offset: 0,
        updated_start: Vertex::new(1.0, 0.0, 0.25),
        updated_end_bulge: 0.5,
        end_point: Point::new(3.0, 0.0),
        ..round_the_corner()
    };
    let expected = Verdict::UpdatedBulgeDoesNotMatch {
        updated_bulge: 0.5,
        expected: 0.25,
    };
    assert_eq!(verdict(view, &a(), true, true), expected);
}
