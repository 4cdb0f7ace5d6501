//! The sheet of two squares of document 01, T1 to T10.

use crate::shapes::{a, b, hit, hits, masks, named, plain, positions, T};
use mask_tools::{
    area_pass, candidates, candidates_along, cut_order, lent, split_cuts, stitch, Chain, ChainEnd,
    Combined, Cut, Cuts, Intersections, Mode, Outline, Overlaps, Point, Refusal, Selector, Slice,
    Slices, Source, Starts, Stitched, StraightHost, Tolerance, Vertex, View,
};

fn starts_and_offsets(outline: &Outline, source: Source, hits: &Intersections) -> Vec<[usize; 2]> {
    let laps = Overlaps::new();
    let cuts = cut_order(outline, source, hits, &laps, T).unwrap();
    let splits = split_cuts(outline, &cuts, &mut StraightHost).unwrap();
    let found = candidates(outline, source, hits, &laps, &splits, T).unwrap();
    let mut back: Vec<Cut> = cuts.iter().collect();
    back.reverse();
    for hint in [cuts, Cuts::from_iter(back), Cuts::new()] {
        let along = candidates_along(outline, source, hits, &laps, &hint, &splits, T);
        assert_eq!(along.as_ref(), Ok(&found));
    }
    found
        .iter()
        .map(|candidate| [candidate.view.start_index, candidate.view.end_index_offset])
        .collect()
}

fn combined(mode: Mode) -> Combined {
    masks(&a(), &b(), &hits(), &Overlaps::new())
        .combine(mode, &mut StraightHost)
        .unwrap()
}

fn is_one_chain_of_two(stitched: &Stitched) -> bool {
    let closed = Chain {
        slices: &[0, 1],
        end: ChainEnd::Closed,
    };
    stitched.rounds() == 2 && stitched.loop_count() == 1 && stitched.chains().eq([closed])
}

#[test]
fn t1_candidates_of_a() {
    let found = starts_and_offsets(&a(), Source::Pline1, &hits());
    assert_eq!(found, [[1, 1], [2, 3]]);
}

#[test]
fn t2_candidates_of_b() {
    let found = starts_and_offsets(&b(), Source::Pline2, &hits());
    assert_eq!(found, [[0, 3], [3, 1]]);
}

#[test]
fn t3_union() {
    let union = combined(Mode::Union);
    let starts = Starts {
        pline2: 1,
        pline1_overlapping: 2,
        pline2_overlapping: 2,
    };
    assert_eq!(union.slices.starts, starts);
    assert!(is_one_chain_of_two(&union.stitched));
    assert_eq!(lent::vertices_needed(&union.slices), 9);
    let expected = [
        (2.0, 4.0),
        (0.0, 4.0),
        (0.0, 0.0),
        (4.0, 0.0),
        (4.0, 2.0),
        (6.0, 2.0),
        (6.0, 6.0),
        (2.0, 6.0),
    ];
    assert_eq!(positions(union.stitched.get_loop(0).unwrap()), expected);
    assert_eq!(union.stitched.get_loop(1), None);
}

#[test]
fn t4_intersection() {
    let both = combined(Mode::Intersection);
    assert!(is_one_chain_of_two(&both.stitched));
    assert_eq!(lent::vertices_needed(&both.slices), 5);
    let expected = [(4.0, 2.0), (4.0, 4.0), (2.0, 4.0), (2.0, 2.0)];
    assert_eq!(positions(both.stitched.get_loop(0).unwrap()), expected);
}

#[test]
fn t5_first_minus_second() {
    let rest = combined(Mode::FirstMinusSecond);
    assert!(is_one_chain_of_two(&rest.stitched));
    assert_eq!(lent::vertices_needed(&rest.slices), 7);
    let expected = [
        (4.0, 2.0),
        (4.0, 0.0),
        (0.0, 0.0),
        (0.0, 4.0),
        (2.0, 4.0),
        (2.0, 2.0),
    ];
    let found = rest.stitched.get_loop(0).unwrap();
    assert_eq!(positions(found), expected);
    // Negating +0 gives -0, and it is kept: the inverted slice gives four vertices.
    let negative: Vec<bool> = found.iter().map(|v| v.bulge.is_sign_negative()).collect();
    assert_eq!(negative, [true, true, true, true, false, false]);
}

fn triangle() -> Outline {
    Outline::straight(&[(0.0, 0.0), (4.0, 0.0), (0.0, 3.0)])
}

#[test]
fn t6_one_cut_on_a_vertex() {
    let hits = Intersections::from([hit(0, 0, 0.0, 0.0)]);
    let found = starts_and_offsets(&triangle(), Source::Pline1, &hits);
    assert_eq!(found, [[0, 2]]);
}

#[test]
fn t7_one_cut_inside_a_segment() {
    let hits = Intersections::from([hit(0, 0, 1.0, 0.0)]);
    let (triangle, laps) = (triangle(), Overlaps::new());
    let cuts = cut_order(&triangle, Source::Pline1, &hits, &laps, T).unwrap();
    let splits = split_cuts(&triangle, &cuts, &mut StraightHost).unwrap();
    let found = candidates(&triangle, Source::Pline1, &hits, &laps, &splits, T).unwrap();
    let view = found.get(0).unwrap().view;
    assert_eq!((found.len(), view.start_index), (1, 0));
    assert_eq!((view.end_index_offset, view.vertex_count()), (3, 5));
    let vertices: Vec<Vertex> = (0..5)
        .map(|k| view.get_vertex(&triangle, k).unwrap().unwrap())
        .collect();
    let expected = [(1.0, 0.0), (4.0, 0.0), (0.0, 3.0), (0.0, 0.0), (1.0, 0.0)];
    assert_eq!(positions(&vertices), expected);
    assert_eq!(view.get_vertex(&triangle, 5), Ok(None));
}

#[test]
fn t8_no_slices() {
    for selector in [Selector::OrAnd, Selector::NotXor] {
        let none = stitch(&a(), &b(), &Slices::default(), selector, plain()).unwrap();
        assert_eq!(none, Stitched::default());
        assert_eq!(none.loops().count() + none.chains().count(), 0);
    }
    assert_eq!(lent::vertices_needed(&Slices::default()), 0);
    assert_eq!(area_pass(&[], plain()), Ok(vec![]));
}

/// A union of the sheet with so many numbers of room for vertices, all 7 before the call.
fn union_with_room(numbers: usize) -> (Result<lent::StitchCounts, Refusal>, Vec<f64>) {
    let union = combined(Mode::Union);
    let mut room = vec![7.0; numbers];
    let (mut ends, mut chain) = ([7; 2], [7; 2]);
    let (mut chain_ends, mut chain_how) = ([7; 2], [7; 2]);
    let lent = lent::StitchRoom {
        room: &mut room,
        ends: &mut ends,
        chain: &mut chain,
        chain_ends: &mut chain_ends,
        chain_how: &mut chain_how,
    };
    let answer = lent::stitch(&a(), &b(), &union.slices, Selector::OrAnd, plain(), lent);
    if answer.is_err() {
        assert_eq!([ends, chain, chain_ends, chain_how], [[7; 2]; 4]);
    }
    (answer, room)
}

#[test]
fn t9_union_with_room_8() {
    for numbers in [3 * 8, 3 * 9 - 1, 0] {
        let (answer, room) = union_with_room(numbers);
        assert_eq!(answer, Err(Refusal::Room));
        assert!(room.iter().all(|&x| x == 7.0));
    }
    let (answer, room) = union_with_room(3 * 9 + 2);
    assert_eq!(answer.map(|counts| counts.loops), Ok(1));
    assert_eq!(room[3 * 8..], [0.0, 0.0, 0.0, 7.0, 7.0]);
}

fn line(from: (f64, f64), to: (f64, f64)) -> Slice {
    Slice {
        source: Source::Pline1,
        view: View {
            updated_start: Vertex::new(from.0, from.1, 0.0),
            end_point: Point::new(to.0, to.1),
            ..View::default()
        },
    }
}

#[test]
fn t10_in_the_box_at_exactly_t() {
    let half = Tolerance::new(0.5);
    let all_of_1 = |list: [Slice; 3]| Slices {
        list: list.into(),
        starts: Starts {
            pline2: 3,
            pline1_overlapping: 3,
            pline2_overlapping: 3,
        },
    };
    let joined = all_of_1([
        line((0.0, 0.0), (1.0, 0.0)),
        line((1.5, 0.0), (0.0, 5.0)),
        line((0.25, 5.5), (0.0, 0.0)),
    ]);
    let found = stitch(&a(), &b(), &joined, Selector::OrAnd, named(half, 0.0)).unwrap();
    assert_eq!((found.chain_count(), found.loop_count()), (1, 1));

    // The two do not agree: a view between them is not empty.
    let view = View::create_on_single_segment(
        &a(),
        0,
        Vertex::new(1.0, 0.0, 0.0),
        Point::new(1.5, 0.0),
        half,
    );
    assert!(view.unwrap().is_some());
}

#[test]
fn each_axis_has_its_own_tolerance() {
    let t = Tolerance { x: 0.5, y: 0.25 };
    let end = Point::new(2.0, 2.0);
    let found = |dx, dy| {
        let start = Vertex::new(end.x + dx, end.y + dy, 0.0);
        let view = View::create_on_single_segment(&a(), 0, start, end, t);
        view.unwrap().is_some()
    };
    assert!(!found(0.375, 0.125));
    assert!(found(0.5, 0.0) && found(0.0, 0.25) && found(0.125, 0.375));

    // A slice that starts off the end of another by exactly t on both axes.
    let chains = |x, y| {
        let slices = Slices {
            list: [line((0.0, 0.0), (1.0, 1.0)), line((x, y), (9.0, 9.0))].into(),
            starts: Starts {
                pline2: 2,
                pline1_overlapping: 2,
                pline2_overlapping: 2,
            },
        };
        let found = stitch(&a(), &b(), &slices, Selector::OrAnd, named(t, 0.0));
        found.unwrap().chain_count()
    };
    assert_eq!(chains(1.5, 1.25), 1);
    assert_eq!((chains(1.5, 1.375), chains(1.625, 1.25)), (2, 2));
}
