//! Unions, intersections and differences of two masks: crossings, holes, overlaps, no contact.

use crate::shapes::{
    a, area, b, combine, hits, loops_from_least, masks, named, positions, reversed, total_area,
    FINE, T,
};
use mask_tools::{
    ChainEnd, Combined, Host, Intersections, Masks, Mode, Outline, Overlap, Overlaps, Point, Probe,
    Refusal, Source, Split, Stitched, StraightHost, Vertex, View,
};

#[test]
fn all_four_modes_of_the_two_squares() {
    let (a, b) = (a(), b());
    let areas = Mode::ALL.map(|mode| total_area(&combine(&a, &b, mode)));
    assert_eq!(areas, [28.0, 4.0, 12.0, 12.0]);
    let rest = combine(&a, &b, Mode::SecondMinusFirst);
    let expected = [
        (2.0, 4.0),
        (2.0, 6.0),
        (6.0, 6.0),
        (6.0, 2.0),
        (4.0, 2.0),
        (4.0, 4.0),
    ];
    let mut found = loops_from_least(&rest).remove(0);
    if area(rest.loops().next().unwrap()) > 0.0 {
        found[1..].reverse();
    }
    assert_eq!(found, expected);
}

#[test]
fn the_direction_of_an_outline_does_not_change_the_shape() {
    let plain = Mode::ALL.map(|mode| total_area(&combine(&a(), &b(), mode)));
    for (first, second) in [
        (reversed(&a()), b()),
        (a(), reversed(&b())),
        (reversed(&a()), reversed(&b())),
    ] {
        let found = Mode::ALL.map(|mode| total_area(&combine(&first, &second, mode)));
        assert_eq!(found, plain);
    }
}

#[test]
fn answers_serve_every_mode() {
    let (a, b, hits, laps) = (a(), b(), hits(), Overlaps::new());
    let masks = masks(&a, &b, &hits, &laps);
    let answered1 = masks.answered(Source::Pline1, &mut StraightHost).unwrap();
    let answered2 = masks.answered(Source::Pline2, &mut StraightHost).unwrap();
    assert_eq!(answered1.inside, [true, false]);
    assert_eq!(answered2.inside, [false, true]);
    for mode in Mode::ALL {
        let sides = [&answered1, &answered2];
        let found = masks.combine_answered(mode, sides, &mut StraightHost);
        assert_eq!(found, masks.combine(mode, &mut StraightHost));
    }
}

#[test]
fn a_host_can_be_a_trait_object() {
    let host: &mut dyn Host = &mut StraightHost;
    let found = masks(&a(), &b(), &hits(), &Overlaps::new()).combine(Mode::Union, host);
    assert_eq!(found.unwrap().loops().count(), 1);
}

/// A cup and a bar across it.
fn cup_and_bar() -> (Outline, Outline) {
    let cup = [
        (0.0, 0.0),
        (6.0, 0.0),
        (6.0, 6.0),
        (4.0, 6.0),
        (4.0, 2.0),
        (2.0, 2.0),
        (2.0, 6.0),
        (0.0, 6.0),
    ];
    let bar = [(-1.0, 4.0), (7.0, 4.0), (7.0, 5.0), (-1.0, 5.0)];
    (Outline::straight(&cup), Outline::straight(&bar))
}

#[test]
fn a_union_with_a_hole() {
    let (cup, bar) = cup_and_bar();
    let union = combine(&cup, &bar, Mode::Union);
    let mut areas: Vec<f64> = union.loops().map(area).collect();
    areas.sort_by(f64::total_cmp);
    assert_eq!(areas, [-4.0, 36.0]);
    let hole = union.loops().find(|lp| area(lp) < 0.0).unwrap();
    let mut corners = positions(hole);
    corners.sort_by(|p, q| p.partial_cmp(q).unwrap());
    assert_eq!(corners, [(2.0, 2.0), (2.0, 4.0), (4.0, 2.0), (4.0, 4.0)]);
}

#[test]
fn an_intersection_of_two_parts() {
    let (cup, bar) = cup_and_bar();
    let both = combine(&cup, &bar, Mode::Intersection);
    let expected = [
        vec![(0.0, 4.0), (2.0, 4.0), (2.0, 5.0), (0.0, 5.0)],
        vec![(4.0, 4.0), (6.0, 4.0), (6.0, 5.0), (4.0, 5.0)],
    ];
    assert_eq!(loops_from_least(&both), expected);
}

#[test]
fn differences_of_several_parts() {
    let (cup, bar) = cup_and_bar();
    let rest = combine(&cup, &bar, Mode::FirstMinusSecond);
    assert_eq!((rest.loops().count(), total_area(&rest)), (3, 24.0));
    let rest = combine(&cup, &bar, Mode::SecondMinusFirst);
    assert_eq!((rest.loops().count(), total_area(&rest)), (3, 4.0));
    assert_eq!(rest.stitched.rounds(), rest.slices.len());
}

#[test]
fn the_area_limit_leaves_small_loops_out_and_keeps_holes() {
    let (cup, bar) = cup_and_bar();
    let hits = crate::shapes::crossings(&cup, &bar);
    let laps = Overlaps::new();
    let kept = |mode, limit| {
        let masks = Masks {
            setting: named(T, limit),
            ..masks(&cup, &bar, &hits, &laps)
        };
        let found = masks.combine(mode, &mut StraightHost).unwrap();
        assert_eq!(found.loops().count(), found.kept.len());
        (found.kept.len(), found.stitched.loop_count())
    };
    assert_eq!(kept(Mode::Union, 0.0), (2, 2));
    assert_eq!(kept(Mode::Union, 4.0), (2, 2));
    assert_eq!(kept(Mode::Union, 4.5), (1, 2));
    assert_eq!(kept(Mode::Union, 37.0), (0, 2));
    assert_eq!(kept(Mode::FirstMinusSecond, 2.0), (3, 3));
    assert_eq!(kept(Mode::FirstMinusSecond, 2.5), (1, 3));
}

#[test]
fn masks_that_do_not_meet_give_no_slices() {
    let apart = Outline::straight(&[(10.0, 0.0), (12.0, 0.0), (12.0, 2.0)]);
    let within = Outline::straight(&[(1.0, 1.0), (3.0, 1.0), (3.0, 3.0)]);
    for other in [apart, within] {
        for mode in Mode::ALL {
            let (a, none, laps) = (a(), Intersections::new(), Overlaps::new());
            let masks = masks(&a, &other, &none, &laps);
            assert!(!masks.any_intersects());
            let found = masks.combine(mode, &mut StraightHost).unwrap();
            assert!(found.slices.is_empty());
            assert_eq!(found.stitched, Stitched::default());
            assert_eq!(found.loops().count(), 0);
        }
    }
}

/// The overlap of A with a square to its right: on A's segment 1, on that one's segment 3.
pub fn right_of_a() -> (Outline, Overlap) {
    let right = Outline::straight(&[(4.0, 0.0), (8.0, 0.0), (8.0, 4.0), (4.0, 4.0)]);
    let overlap = Overlap {
        start_indexes: (1, 3),
        end_indexes: (1, 3),
        opposing_directions: true,
        view_data: View {
            start_index: 3,
            end_index_offset: 0,
            updated_start: Vertex::new(4.0, 4.0, 0.0),
            updated_end_bulge: 0.0,
            end_point: Point::new(4.0, 0.0),
            inverted_direction: false,
            edition: right.edition(),
        },
    };
    (right, overlap)
}

/// The overlap of A with a smaller square on the left half of its bottom edge, inside A: both run
/// the same way there.
fn corner_of_a() -> (Outline, Overlap) {
    let corner = Outline::straight(&[(0.0, 0.0), (2.0, 0.0), (2.0, 2.0), (0.0, 2.0)]);
    // From (0,2) over (0,0) to (2,0): A's segments 3 and 0, the corner's segments 3 and 0.
    let overlap = Overlap {
        start_indexes: (3, 3),
        end_indexes: (0, 0),
        opposing_directions: false,
        view_data: View {
            start_index: 3,
            end_index_offset: 1,
            updated_start: Vertex::new(0.0, 2.0, 0.0),
            updated_end_bulge: 0.0,
            end_point: Point::new(2.0, 0.0),
            inverted_direction: false,
            edition: corner.edition(),
        },
    };
    (corner, overlap)
}

fn combine_overlapping(other: &Outline, overlap: Overlap, mode: Mode) -> Combined {
    let masks = Masks {
        pline1: &a(),
        pline2: other,
        intersections: &Intersections::new(),
        overlaps: &Overlaps::from([overlap]),
        setting: named(T, 1e-6),
    };
    masks.combine(mode, &mut StraightHost).unwrap()
}

#[test]
fn squares_that_share_an_edge() {
    let (right, overlap) = right_of_a();
    let found = Mode::ALL.map(|mode| combine_overlapping(&right, overlap, mode));
    let areas = [&found[0], &found[1], &found[2], &found[3]].map(total_area);
    assert_eq!(areas, [32.0, 0.0, 16.0, 16.0]);
    let [union, _, first, second] = found;
    let expected = vec![
        (0.0, 0.0),
        (4.0, 0.0),
        (8.0, 0.0),
        (8.0, 4.0),
        (4.0, 4.0),
        (0.0, 4.0),
    ];
    assert_eq!(loops_from_least(&union), [expected]);
    assert_eq!(first.slices.starts.pline1_overlapping, 1);
    assert_eq!(first.slices.len(), 3);
    let endings: Vec<ChainEnd> = first.stitched.chains().map(|chain| chain.end).collect();
    assert_eq!(endings, [ChainEnd::Closed, ChainEnd::NoCandidate]);
    assert_eq!(second.loops().count(), 1);
}

#[test]
fn an_edge_there_and_back_is_a_loop_without_area() {
    let (right, overlap) = right_of_a();
    let union = combine_overlapping(&right, overlap, Mode::Union);
    assert_eq!((union.stitched.loop_count(), union.kept.len()), (2, 1));
    let flat = union.stitched.get_loop(1).unwrap();
    assert_eq!(positions(flat), [(4.0, 0.0), (4.0, 4.0)]);
}

#[test]
fn a_square_in_a_corner_of_another() {
    let (corner, overlap) = corner_of_a();
    let areas = Mode::ALL.map(|mode| total_area(&combine_overlapping(&corner, overlap, mode)));
    assert_eq!(areas, [16.0, 4.0, 12.0, 0.0]);
}

/// Circles of radius 1 about (0,0) and (1,0), of two half arcs each. They cross where x is 1/2.
fn circle(x: f64) -> Outline {
    [
        Vertex::new(x - 1.0, 0.0, 1.0),
        Vertex::new(x + 1.0, 0.0, 1.0),
    ]
    .into()
}

/// A host for arcs of these two circles.
struct Circles;

/// The bulge of the arc of a circle of radius 1 between two points, run anticlockwise.
fn bulge_between(centre: f64, from: Point, to: Point) -> f64 {
    let angle = |p: Point| p.y.atan2(p.x - centre);
    let sweep = (angle(to) - angle(from)).rem_euclid(std::f64::consts::TAU);
    (sweep / 4.0).tan()
}

/// The centre of the circle: 0 or 1.
fn centre_of(p: Point) -> f64 {
    let off = |x: f64| ((p.x - x).hypot(p.y) - 1.0).abs();
    if off(0.0) < off(1.0) {
        0.0
    } else {
        1.0
    }
}

impl Host for Circles {
    fn split(&mut self, from: Vertex, to: Vertex, at: Point) -> Split {
        // Both circles run through `at`. The other end of the segment tells which one it is.
        let centre = centre_of(to.pos());
        Split {
            updated_start: Vertex {
                bulge: bulge_between(centre, from.pos(), at),
                ..from
            },
            split_vertex: Vertex::new(at.x, at.y, bulge_between(centre, at, to.pos())),
        }
    }

    fn inside(&mut self, source: Source, _: &Outline, probe: Probe) -> bool {
        let (from, to) = (probe.start, probe.end);
        let centre = if source == Source::Pline1 { 0.0 } else { 1.0 };
        // The middle of the arc: beside the chord by bulge times half of it.
        let (dx, dy) = ((to.x - from.x) / 2.0, (to.y - from.y) / 2.0);
        let x = from.x + dx + from.bulge * dy;
        let y = from.y + dy - from.bulge * dx;
        (x - centre).hypot(y) < 1.0
    }

    fn area(&mut self, vertices: &[Vertex]) -> f64 {
        let ends = vertices.iter().cycle().skip(1);
        vertices
            .iter()
            .zip(ends)
            .map(|(v1, v2)| {
                let chord = (v2.x - v1.x).hypot(v2.y - v1.y);
                let (b, sweep) = (v1.bulge, 4.0 * v1.bulge.atan());
                let radius = chord * (1.0 + b * b) / (4.0 * b.abs().max(1e-300));
                let bow = if b == 0.0 {
                    0.0
                } else {
                    radius * radius * (sweep - sweep.sin())
                };
                (v1.x * v2.y - v1.y * v2.x + bow) / 2.0
            })
            .sum()
    }
}

#[test]
fn two_circles() {
    let (c1, c2) = (circle(0.0), circle(1.0));
    let high = 0.75f64.sqrt();
    // Of each circle, segment 0 is the lower half and segment 1 the upper one.
    let hits = Intersections::from([
        crate::shapes::hit(0, 0, 0.5, -high),
        crate::shapes::hit(1, 1, 0.5, high),
    ]);
    let laps = Overlaps::new();
    let masks = Masks {
        setting: named(FINE, 1e-6),
        ..masks(&c1, &c2, &hits, &laps)
    };
    let lens = 2.0 * std::f64::consts::FRAC_PI_3 - high;
    let circle = std::f64::consts::PI;
    let expected = [2.0 * circle - lens, lens, circle - lens, circle - lens];
    for (mode, expected) in Mode::ALL.into_iter().zip(expected) {
        let found = masks.combine(mode, &mut Circles).unwrap();
        let areas: Vec<f64> = found.loops().map(|lp| Circles.area(lp).abs()).collect();
        assert_eq!(areas.len(), 1, "{mode:?}");
        assert!((areas[0] - expected).abs() < 1e-9, "{mode:?}: {areas:?}");
    }
}

/// A host that answers a number that is not one.
struct Broken;

impl Host for Broken {
    fn split(&mut self, from: Vertex, _: Vertex, _: Point) -> Split {
        Split {
            updated_start: from,
            split_vertex: Vertex::new(f64::NAN, 0.0, 0.0),
        }
    }

    fn inside(&mut self, _: Source, _: &Outline, _: Probe) -> bool {
        false
    }

    fn area(&mut self, _: &[Vertex]) -> f64 {
        f64::NAN
    }
}

#[test]
fn a_broken_host_is_refused() {
    let (a, b, hits, laps) = (a(), b(), hits(), Overlaps::new());
    let masks = masks(&a, &b, &hits, &laps);
    let found = masks.answered(Source::Pline1, &mut Broken);
    assert_eq!(found.err(), Some(Refusal::Number));
    // Masks that are not whole go by the host's splits, the others by its areas alone.
    let mut corners = b.vertices().to_vec();
    corners[2] = Vertex::new(6.5, 6.5, 0.0);
    let not_whole = Masks {
        pline2: &corners.into(),
        ..masks
    };
    let slices = |masks: &Masks<'_>| masks.slices(Mode::Union, &mut Broken).map(|s| s.len());
    assert_eq!(slices(&not_whole), Err(Refusal::Number));
    assert_eq!(slices(&masks), Ok(2));
    assert_eq!(
        masks.combine(Mode::Union, &mut Broken),
        Err(Refusal::Number)
    );

    let answered1 = masks.answered(Source::Pline1, &mut StraightHost).unwrap();
    let answered2 = masks.answered(Source::Pline2, &mut StraightHost).unwrap();
    let limited = Masks {
        setting: named(T, 1.0),
        ..masks
    };
    let found = limited.combine_answered(Mode::Union, [&answered1, &answered2], &mut Broken);
    assert_eq!(found, Err(Refusal::Number));
}
