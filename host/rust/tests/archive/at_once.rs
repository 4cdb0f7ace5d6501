//! Straight masks in whole microdegrees: the one call beside the steps that it stands for, bit for bit.

use crate::masks::right_of_a;
use crate::shapes::{a, b, hit, hits, masks, named, plain, Draw, T};
use mask_tools::lent::{self, SliceRoom};
use mask_tools::{
    prune, straight_slices, Combined, Host, Intersections, Masks, Mode, Outline, Overlap, Overlaps,
    Point, Probe, Refusal, Slice, Slices, Source, Split, StraightHost, Tolerance, Vertex, View,
    WholeOutline,
};

/// A host that says what the one call goes by: parts with bulge +0, exact winding numbers. It counts
/// what it is asked.
#[derive(Default)]
struct Exact {
    asked: usize,
}

impl Host for Exact {
    fn split(&mut self, from: Vertex, _: Vertex, at: Point) -> Split {
        self.asked += 1;
        Split {
            updated_start: Vertex { bulge: 0.0, ..from },
            split_vertex: Vertex::new(at.x, at.y, 0.0),
        }
    }

    fn inside(&mut self, _: Source, outline: &Outline, probe: Probe) -> bool {
        self.asked += 1;
        let whole: Vec<(i64, i64)> = outline
            .vertices()
            .iter()
            .map(|v| (v.x as i64, v.y as i64))
            .collect();
        let x = probe.start.x as i64 + probe.end.x as i64;
        let y = probe.start.y as i64 + probe.end.y as i64;
        WholeOutline::new(&whole).is_inside(x, y).unwrap()
    }

    fn area(&mut self, vertices: &[Vertex]) -> f64 {
        StraightHost.area(vertices)
    }
}

/// Every number of a slice as bits: -0 is not +0 here.
fn bits(slices: &Slices) -> (Vec<[u64; 6]>, Vec<(Source, bool, usize, usize, u32)>) {
    let shape = |s: &Slice| {
        let (v, e) = (s.view.updated_start, s.view.end_point);
        [v.x, v.y, v.bulge, s.view.updated_end_bulge, e.x, e.y].map(f64::to_bits)
    };
    let codes = |s: &Slice| {
        let v = s.view;
        (
            s.source,
            v.inverted_direction,
            v.start_index,
            v.end_index_offset,
            v.edition,
        )
    };
    let all: Vec<Slice> = slices.iter().collect();
    (
        all.iter().map(shape).collect(),
        all.iter().map(codes).collect(),
    )
}

/// The slices step by step.
fn in_turn(masks: &Masks<'_>, mode: Mode, opposing: bool) -> Slices {
    let host = &mut Exact::default();
    let of1 = masks.answered(Source::Pline1, host).unwrap();
    let of2 = masks.answered(Source::Pline2, host).unwrap();
    let counts = [masks.pline1.vertex_count(), masks.pline2.vertex_count()];
    prune(mode, opposing, counts, [&of1, &of2], masks.overlaps).unwrap()
}

fn at_once(masks: &Masks<'_>, mode: Mode, opposing: bool) -> Result<Slices, Refusal> {
    straight_slices(
        mode,
        opposing,
        [masks.pline1, masks.pline2],
        masks.intersections,
        masks.overlaps,
        masks.setting.ask()?.tolerance,
    )
}

fn assert_same(masks: &Masks<'_>) {
    assert!(masks.is_straight_and_whole());
    for mode in Mode::ALL {
        for opposing in [false, true] {
            let expected = in_turn(masks, mode, opposing);
            let found = at_once(masks, mode, opposing).unwrap();
            assert_eq!(bits(&found), bits(&expected), "{masks:?} {mode:?}");
            assert_eq!(found.starts, expected.starts);
        }
    }
}

#[test]
fn the_two_squares_both_ways() {
    let (a, b) = (a().with_edition(7), b().with_edition(9));
    let (hits, laps) = (hits(), Overlaps::new());
    assert_same(&masks(&a, &b, &hits, &laps));
    let (right, overlap) = right_of_a();
    assert_same(&masks(
        &a,
        &right,
        &Intersections::new(),
        &Overlaps::from([overlap]),
    ));
    assert_same(&masks(&a, &b, &Intersections::new(), &laps));
}

fn drawn_number(draw: &mut Draw, reach: usize) -> f64 {
    draw.below(2 * reach + 1) as f64 - reach as f64
}

fn drawn_outline(draw: &mut Draw, reach: usize) -> Outline {
    let count = 2 + draw.below(9);
    let vertex = |draw: &mut Draw| {
        let bulge = if draw.below(4) == 0 { -0.0 } else { 0.0 };
        Vertex::new(drawn_number(draw, reach), drawn_number(draw, reach), bulge)
    };
    let vertices: Vec<Vertex> = (0..count).map(|_| vertex(draw)).collect();
    Outline::new(vertices).with_edition(draw.word() as u32)
}

/// Cuts at any whole points: what they are like, the call does not ask.
fn drawn_cuts(
    draw: &mut Draw,
    o1: &Outline,
    o2: &Outline,
    reach: usize,
) -> (Intersections, Overlaps) {
    let (vc1, vc2) = (o1.vertex_count(), o2.vertex_count());
    let mut hits = Intersections::new();
    for _ in 0..draw.below(12) {
        let (on1, on2) = (draw.below(vc1), draw.below(vc2));
        let at = if draw.below(2) == 0 {
            o1.vertices()[on1]
        } else {
            o2.vertices()[on2]
        };
        let point = match draw.below(3) {
            0 => at.pos(),
            _ => Point::new(drawn_number(draw, reach), drawn_number(draw, reach)),
        };
        hits.push(hit(on1, on2, point.x, point.y));
    }
    let mut laps = Overlaps::new();
    for _ in 0..draw.below(4) {
        let zero = |draw: &mut Draw| if draw.below(4) == 0 { -0.0 } else { 0.0 };
        laps.push(Overlap {
            start_indexes: (draw.below(vc1), draw.below(vc2)),
            end_indexes: (draw.below(vc1), draw.below(vc2)),
            opposing_directions: draw.below(2) == 0,
            view_data: View {
                start_index: draw.below(vc2),
                end_index_offset: draw.below(vc2 + 1),
                updated_start: Vertex::new(
                    drawn_number(draw, reach),
                    drawn_number(draw, reach),
                    zero(draw),
                ),
                updated_end_bulge: zero(draw),
                end_point: Point::new(drawn_number(draw, reach), drawn_number(draw, reach)),
                inverted_direction: false,
                edition: draw.word() as u32,
            },
        });
    }
    (hits, laps)
}

#[test]
fn drawn_masks_both_ways() {
    let mut draw = Draw(11);
    let settings = [T, Tolerance { x: 1.0, y: 0.5 }, Tolerance::new(1e-5)].map(|t| named(t, 0.0));
    for case in 0..3000 {
        let reach = [2, 4, 1000, 400_000_000][case % 4];
        let (o1, o2) = (
            drawn_outline(&mut draw, reach),
            drawn_outline(&mut draw, reach),
        );
        let (hits, laps) = drawn_cuts(&mut draw, &o1, &o2, reach);
        let masks = Masks {
            setting: settings[case % 3],
            ..masks(&o1, &o2, &hits, &laps)
        };
        assert_same(&masks);
    }
}

/// Rectangles that cross, on whole coordinates.
fn crossed(draw: &mut Draw) -> (Outline, Outline, Intersections) {
    let mut whole = |from: usize, to: usize| (from + draw.below(to - from)) as f64;
    let (x, y, wide, high) = (whole(1, 5), whole(1, 5), whole(1, 4), whole(1, 4));
    // A wide one over a high one: four crossings.
    let over = [
        (0.0, y),
        (x + wide + 3.0, y),
        (x + wide + 3.0, y + high),
        (0.0, y + high),
    ];
    let under = [
        (x, 0.0),
        (x + wide, 0.0),
        (x + wide, y + high + 2.0),
        (x, y + high + 2.0),
    ];
    let hits = [
        hit(0, 3, x, y),
        hit(0, 1, x + wide, y),
        hit(2, 1, x + wide, y + high),
        hit(2, 3, x, y + high),
    ];
    (
        Outline::straight(&over),
        Outline::straight(&under),
        Intersections::from(hits),
    )
}

#[test]
fn combine_goes_by_the_one_call_and_asks_for_areas_alone() {
    let mut draw = Draw(12);
    for _ in 0..200 {
        let (o1, o2, hits) = crossed(&mut draw);
        let laps = Overlaps::new();
        let masks = masks(&o1, &o2, &hits, &laps);
        assert!(masks.is_straight_and_whole());
        for mode in Mode::ALL {
            let mut host = Exact::default();
            let found = masks.combine(mode, &mut host).unwrap();
            assert_eq!(host.asked, 0);
            let answered = [Source::Pline1, Source::Pline2].map(|s| masks.answered(s, &mut host));
            assert!(host.asked > 0);
            let [of1, of2] = answered.map(Result::unwrap);
            let expected = masks.combine_answered(mode, [&of1, &of2], &mut host);
            assert_eq!(Ok(found), expected);
        }
    }
}

#[test]
fn combine_asks_the_host_where_a_number_is_not_whole() {
    let mut draw = Draw(13);
    let (o1, o2, hits) = crossed(&mut draw);
    let laps = Overlaps::new();
    let plain = masks(&o1, &o2, &hits, &laps);
    let half = |outline: &Outline| -> Outline {
        let halved = outline
            .vertices()
            .iter()
            .map(|v| Vertex::new(v.x / 2.0, v.y / 2.0, 0.0));
        halved.collect()
    };
    let halved: Intersections = hits
        .iter()
        .map(|h| {
            hit(
                h.start_index1,
                h.start_index2,
                h.point.x / 2.0,
                h.point.y / 2.0,
            )
        })
        .collect();
    let (h1, h2) = (half(&o1), half(&o2));
    let small = masks(&h1, &h2, &halved, &laps);
    assert!(!small.is_straight_and_whole());
    for mode in Mode::ALL {
        let whole: Combined = plain.combine(mode, &mut StraightHost).unwrap();
        let halves = small.combine(mode, &mut StraightHost).unwrap();
        let doubled = halves.loops().flatten().map(|v| (2.0 * v.x, 2.0 * v.y));
        assert!(doubled.eq(whole.loops().flatten().map(|v| (v.x, v.y))));
    }
}

#[test]
fn a_midpoint_on_an_edge_is_told_by_the_exact_winding_number() {
    // Outline 1's segment 1 runs down, and a cut piece of outline 2 lies on it.
    let down = Outline::straight(&[(0.0, 4.0), (4.0, 4.0), (4.0, 0.0), (0.0, 0.0)]);
    let on = Outline::straight(&[(4.0, 3.0), (4.0, 1.0), (8.0, 2.0)]);
    let hits = Intersections::from([hit(1, 0, 4.0, 3.0), hit(1, 1, 4.0, 1.0)]);
    let laps = Overlaps::new();
    let masks = masks(&down, &on, &hits, &laps);
    let by_host = masks.answered(Source::Pline2, &mut StraightHost).unwrap();
    let exact = masks
        .answered(Source::Pline2, &mut Exact::default())
        .unwrap();
    // The piece from (4,3) to (4,1): on the edge, which StraightHost takes for inside.
    assert_eq!((by_host.inside[0], exact.inside[0]), (true, false));
    assert_same(&masks);
}

#[test]
fn refusals_in_their_order() {
    let (a, b, hits, laps) = (a(), b(), hits(), Overlaps::new());
    let refused = |a: &Outline, b: &Outline, hits: &Intersections, laps: &Overlaps, t| {
        straight_slices(Mode::Union, false, [a, b], hits, laps, t).err()
    };
    let with = |outline: &Outline, vertex: Vertex| {
        let mut vertices = outline.vertices().to_vec();
        vertices[0] = vertex;
        Outline::new(vertices)
    };
    assert_eq!(refused(&a, &b, &hits, &laps, T), None);
    for (vertex, expected) in [
        (Vertex::new(400_000_000.0, -400_000_000.0, -0.0), None),
        (Vertex::new(400_000_001.0, 0.0, 0.0), Some(Refusal::Range)),
        (Vertex::new(0.0, 0.5, 0.0), Some(Refusal::Range)),
        (Vertex::new(0.0, 0.0, 0.25), Some(Refusal::Range)),
        (Vertex::new(0.0, 0.0, f64::NAN), Some(Refusal::Number)),
        (
            Vertex::new(0.0, 1_073_741_825.0, 0.0),
            Some(Refusal::Number),
        ),
    ] {
        assert_eq!(refused(&with(&a, vertex), &b, &hits, &laps, T), expected);
        assert_eq!(refused(&a, &with(&b, vertex), &hits, &laps, T), expected);
    }
    let half = Intersections::from([hit(1, 0, 4.0, 2.5)]);
    assert_eq!(refused(&a, &b, &half, &laps, T), Some(Refusal::Range));
    // 18 stands behind 5 and before 6.
    let late = Intersections::from([hit(4, 0, 4.0, 2.5)]);
    assert_eq!(refused(&a, &b, &late, &laps, T), Some(Refusal::Range));
    let late = Intersections::from([hit(4, 0, 4.0, 2.5), hit(0, 0, f64::INFINITY, 0.0)]);
    assert_eq!(refused(&a, &b, &late, &laps, T), Some(Refusal::Number));
    let late = Intersections::from([hit(4, 0, 4.0, 2.0)]);
    assert_eq!(refused(&a, &b, &late, &laps, T), Some(Refusal::Index));
    let (_, mut overlap) = right_of_a();
    overlap.view_data.end_index_offset = 5;
    let long = Overlaps::from([overlap]);
    assert_eq!(refused(&a, &b, &hits, &long, T), Some(Refusal::Count));
    let zero = Tolerance { x: T.x, y: 0.0 };
    assert_eq!(
        refused(&a, &b, &late, &laps, zero),
        Some(Refusal::Tolerance)
    );
    let short = Outline::straight(&[(0.5, 0.0)]);
    assert_eq!(
        refused(&a, &short, &late, &laps, zero),
        Some(Refusal::Outline)
    );
    let many: Intersections = (0..513).map(|_| hit(0, 0, 0.0, 0.0)).collect();
    assert_eq!(
        refused(&a, &short, &many, &laps, zero),
        Some(Refusal::Length)
    );
}

#[test]
fn room_that_is_lent() {
    let (a, b, hits, laps) = (a(), b(), hits(), Overlaps::new());
    let need = lent::straight_slices_needed(&hits, &laps);
    assert_eq!(need, 4);
    let t = plain().ask().unwrap().tolerance;
    let write = |less: usize| {
        let (mut at, mut slice) = (vec![9; 4 * need - less], vec![9.0; 6 * need]);
        let mut edition = vec![9; need + 1];
        let room = SliceRoom {
            slice_at: &mut at,
            slice: &mut slice,
            slice_edition: &mut edition,
        };
        let pruned = lent::straight_slices(Mode::Union, false, [&a, &b], &hits, &laps, t, room);
        (pruned, at, slice, edition)
    };
    let (pruned, at, slice, edition) = write(0);
    assert_eq!(pruned.unwrap().slices, 2);
    assert_eq!(at[..8], [1, 0, 2, 3, 2, 0, 0, 3]);
    assert!(at[8..].iter().all(|n| *n == 0) && slice[12..].iter().all(|n| *n == 0.0));
    assert_eq!(edition, [0, 0, 0, 0, 9]);
    let (pruned, at, slice, edition) = write(1);
    assert_eq!(pruned, Err(Refusal::Room));
    assert!(at.iter().all(|n| *n == 9) && slice.iter().all(|n| *n == 9.0));
    assert!(edition.iter().all(|n| *n == 9));
}
