//! Every refusal that can be reached through the crate's types, of every function.

use crate::shapes::{a, b, hit, hits, named, plain, T};
use mask_tools::{
    area_pass, candidates, candidates_along, cut_order, lent, prune, split_cuts, stitch, Answered,
    Candidate, Candidates, CutSplit, Cuts, Intersection, Intersections, OnSegment, Outline,
    Overlap, Overlaps, Point, Record, RecordVersion, Refusal, Selector, Slice, Slices, Source,
    Splits, Starts, StraightHost, Tolerance, Vertex, View, Walk,
};
use mask_tools::{Host, Masks, Mode};

const TOO_LARGE: f64 = (1u64 << 30) as f64 + 1.0;
const BAD_NUMBERS: [f64; 4] = [f64::NAN, f64::INFINITY, f64::NEG_INFINITY, TOO_LARGE];
const BAD_TOLERANCES: [f64; 6] = [0.0, -0.5, 1.5, f64::NAN, f64::INFINITY, -0.0];

/// Each of them on x, on y, and on both.
fn bad_tolerances() -> impl Iterator<Item = Tolerance> {
    BAD_TOLERANCES.into_iter().flat_map(|t| {
        [
            Tolerance { x: t, ..T },
            Tolerance { y: t, ..T },
            Tolerance::new(t),
        ]
    })
}

fn line_of(vertices: usize) -> Outline {
    (0..vertices)
        .map(|i| Vertex::new(i as f64, 0.0, 0.0))
        .collect()
}

fn bad_outlines() -> [(Outline, Refusal); 5] {
    [
        (line_of(0), Refusal::Outline),
        (line_of(1), Refusal::Outline),
        (line_of(1025), Refusal::Outline),
        (
            Outline::straight(&[(0.0, 0.0), (1.0, f64::NAN)]),
            Refusal::Number,
        ),
        (
            [Vertex::new(0.0, 0.0, TOO_LARGE), Vertex::default()].into(),
            Refusal::Number,
        ),
    ]
}

fn view() -> View {
    View {
        end_point: Point::new(1.0, 0.0),
        ..View::default()
    }
}

fn walk() -> Walk {
    Walk {
        traverse_count: 1,
        intersect_index: 1,
        ..Walk::default()
    }
}

#[test]
fn of_view_vertex() {
    let get = |outline: &Outline, view: View| view.get_vertex(outline, 0).map(|_| ());
    assert_eq!(get(&a(), view()), Ok(()));
    for (outline, refusal) in bad_outlines() {
        assert_eq!(get(&outline, view()), Err(refusal));
    }
    for x in BAD_NUMBERS {
        let end_point = Point::new(x, 0.0);
        let view = View {
            end_point,
            ..view()
        };
        assert_eq!(get(&a(), view), Err(Refusal::Number));
    }
    let start_index = 4;
    let view4 = View {
        start_index,
        ..view()
    };
    assert_eq!(get(&a(), view4), Err(Refusal::Index));
    for end_index_offset in [5, usize::MAX] {
        let view = View {
            end_index_offset,
            ..view()
        };
        assert_eq!(get(&a(), view), Err(Refusal::Count));
    }
}

#[test]
fn of_create() {
    let create = |outline: &Outline, walk: Walk, t| View::create(outline, &walk, t).map(|_| ());
    assert_eq!(create(&a(), walk(), T), Ok(()));
    for (outline, refusal) in bad_outlines() {
        assert_eq!(create(&outline, walk(), T), Err(refusal));
    }
    for t in bad_tolerances() {
        let found = create(&a(), walk(), t);
        assert_eq!(found, Err(Refusal::Tolerance));
    }
    for x in BAD_NUMBERS {
        let end_intersect = Point::new(0.0, x);
        let mut bad = Walk {
            end_intersect,
            ..walk()
        };
        assert_eq!(create(&a(), bad, T), Err(Refusal::Number));
        bad = walk();
        bad.split.split_vertex.bulge = x;
        assert_eq!(create(&a(), bad, T), Err(Refusal::Number));
    }
    for index in [4, usize::MAX] {
        let bad = Walk {
            start_index: index,
            ..walk()
        };
        assert_eq!(create(&a(), bad, T), Err(Refusal::Index));
        let bad = Walk {
            intersect_index: index,
            ..walk()
        };
        assert_eq!(create(&a(), bad, T), Err(Refusal::Index));
    }
    for traverse_count in [0, 5, usize::MAX] {
        let bad = Walk {
            traverse_count,
            ..walk()
        };
        assert_eq!(create(&a(), bad, T), Err(Refusal::Count));
    }
}

#[test]
fn of_create_on_single_segment() {
    let create = |outline: &Outline, index, x, t| {
        let end = Point::new(x, 0.0);
        View::create_on_single_segment(outline, index, Vertex::default(), end, t).map(|_| ())
    };
    assert_eq!(create(&a(), 3, 1.0, T), Ok(()));
    for (outline, refusal) in bad_outlines() {
        assert_eq!(create(&outline, 0, 1.0, T), Err(refusal));
    }
    for t in bad_tolerances() {
        let found = create(&a(), 0, 1.0, t);
        assert_eq!(found, Err(Refusal::Tolerance));
    }
    for x in BAD_NUMBERS {
        assert_eq!(create(&a(), 0, x, T), Err(Refusal::Number));
    }
    assert_eq!(create(&a(), 4, 1.0, T), Err(Refusal::Index));
}

#[test]
fn of_from_entire_pline() {
    for (outline, refusal) in bad_outlines() {
        for closed in [true, false] {
            assert_eq!(View::from_entire_pline(&outline, closed), Err(refusal));
        }
    }
}

#[test]
fn of_validate_for_source() {
    let validate = |outline: &Outline, view: View| {
        let on = OnSegment {
            start: true,
            end: true,
        };
        view.validate_for_source(outline, on).map(|_| ())
    };
    assert_eq!(validate(&line_of(1), view()), Ok(()));
    assert_eq!(validate(&line_of(1025), view()), Err(Refusal::Outline));
    for x in BAD_NUMBERS {
        let bad = View {
            updated_end_bulge: x,
            ..view()
        };
        assert_eq!(validate(&a(), bad), Err(Refusal::Number));
    }
    let bad = View {
        start_index: 4,
        ..view()
    };
    assert_eq!(validate(&a(), bad), Err(Refusal::Index));
    assert_eq!(validate(&line_of(1), bad), Ok(()));

    // An edition that differs comes after these, and on an outline that is too short too.
    let of_another = View { edition: 1, ..bad };
    assert_eq!(validate(&a(), of_another), Err(Refusal::Index));
    assert_eq!(validate(&line_of(1025), of_another), Err(Refusal::Outline));
    assert_eq!(validate(&line_of(1), of_another), Err(Refusal::Edition));
    let of_another = View {
        edition: 1,
        ..view()
    };
    assert_eq!(validate(&a(), of_another), Err(Refusal::Edition));
}

#[test]
fn of_reopen() {
    let reopen = |outline: &Outline, view: View| {
        let mut view = view;
        let on = OnSegment {
            start: true,
            end: true,
        };
        let found = view.reopen(outline, on);
        found.map(|_| view.edition)
    };
    assert_eq!(reopen(&line_of(1).with_edition(3), view()), Ok(0));
    assert_eq!(reopen(&line_of(1025), view()), Err(Refusal::Outline));
    assert_eq!(reopen(&a().with_edition(3), view()), Ok(3));
    for x in BAD_NUMBERS {
        let bad = View {
            updated_end_bulge: x,
            ..view()
        };
        assert_eq!(reopen(&a(), bad), Err(Refusal::Number));
    }
    let bad = View {
        start_index: 4,
        ..view()
    };
    assert_eq!(reopen(&a(), bad), Err(Refusal::Index));
    assert_eq!(reopen(&line_of(1), bad), Ok(0));
}

#[test]
fn of_unmoved() {
    let unmoved = |outline: &Outline, view: View| {
        let found = [view.unmoved(&a(), outline), view.unmoved(outline, &a())];
        assert_eq!(found[0], found[1]);
        found[0]
    };
    assert_eq!(unmoved(&a().with_edition(3), view()), Ok(true));
    for (outline, refusal) in bad_outlines() {
        assert_eq!(unmoved(&outline, view()), Err(refusal));
    }
    for x in BAD_NUMBERS {
        let bad = View {
            end_point: Point::new(0.0, x),
            ..view()
        };
        assert_eq!(unmoved(&a(), bad), Err(Refusal::Number));
    }
    // Start and offset are looked at on both outlines, and A has one vertex more.
    let triangle = Outline::straight(&[(0.0, 0.0), (4.0, 0.0), (0.0, 3.0)]);
    let far = |start_index, end_index_offset| View {
        start_index,
        end_index_offset,
        ..view()
    };
    assert_eq!(unmoved(&triangle, far(3, 0)), Err(Refusal::Index));
    assert_eq!(unmoved(&triangle, far(0, 4)), Err(Refusal::Count));
    assert_eq!(unmoved(&triangle, far(3, 4)), Err(Refusal::Index));
    assert_eq!(unmoved(&a(), far(4, 5)), Err(Refusal::Index));
    assert_eq!(unmoved(&a(), far(0, 5)), Err(Refusal::Count));
}

/// What both entries over cuts take, and what they answer to it.
struct Meeting {
    outline: Outline,
    hits: Intersections,
    laps: Overlaps,
    tolerance: Tolerance,
}

impl Meeting {
    fn of_a() -> Meeting {
        Meeting {
            outline: a(),
            hits: hits(),
            laps: Overlaps::new(),
            tolerance: T,
        }
    }

    fn answers(&self, source: Source) -> [Result<usize, Refusal>; 2] {
        let t = self.tolerance;
        let cuts = cut_order(&self.outline, source, &self.hits, &self.laps, t);
        let count = lent::cuts_needed(&self.hits, &self.laps);
        let splits: Splits = (0..count).map(|_| CutSplit::default()).collect();
        let found = candidates(&self.outline, source, &self.hits, &self.laps, &splits, t);
        for hint in [cuts.clone().unwrap_or_default(), Cuts::new()] {
            let (hits, laps) = (&self.hits, &self.laps);
            let along = candidates_along(&self.outline, source, hits, laps, &hint, &splits, t);
            assert_eq!(along, found);
        }
        [cuts.map(|cuts| cuts.len()), found.map(|found| found.len())]
    }

    fn refused(&self, source: Source) -> Option<Refusal> {
        let [first, second] = self.answers(source).map(Result::err);
        assert_eq!(first, second);
        first
    }
}

#[test]
fn of_cut_order_and_candidates() {
    for source in [Source::Pline1, Source::Pline2] {
        assert_eq!(Meeting::of_a().refused(source), None);

        let mut many = Meeting::of_a();
        many.hits = (0..513).map(|_| Intersection::default()).collect();
        assert_eq!(many.refused(source), Some(Refusal::Length));
        many.hits = (0..512).map(|_| Intersection::default()).collect();
        assert_eq!(many.refused(source), None);
        many.laps = (0..129).map(|_| Overlap::default()).collect();
        assert_eq!(many.refused(source), Some(Refusal::Length));
        many.laps = (0..128).map(|_| Overlap::default()).collect();
        assert_eq!(many.refused(source), None);

        for (outline, refusal) in bad_outlines() {
            let bad = Meeting {
                outline,
                ..Meeting::of_a()
            };
            assert_eq!(bad.refused(source), Some(refusal));
        }
        for tolerance in bad_tolerances() {
            let bad = Meeting {
                tolerance,
                ..Meeting::of_a()
            };
            assert_eq!(bad.refused(source), Some(Refusal::Tolerance));
        }
        for x in BAD_NUMBERS {
            let hits = Intersections::from([hit(0, 0, x, 0.0)]);
            let bad = Meeting {
                hits,
                ..Meeting::of_a()
            };
            assert_eq!(bad.refused(source), Some(Refusal::Number));
        }
    }
}

#[test]
fn of_indexes_only_those_of_the_outline_named() {
    let first = |hits: Intersection| Meeting {
        hits: Intersections::from([hits]),
        ..Meeting::of_a()
    };
    let (on1, on2) = (first(hit(4, 0, 0.0, 0.0)), first(hit(0, 4, 0.0, 0.0)));
    assert_eq!(on1.refused(Source::Pline1), Some(Refusal::Index));
    assert_eq!(on1.refused(Source::Pline2), None);
    assert_eq!(on2.refused(Source::Pline1), None);
    assert_eq!(on2.refused(Source::Pline2), Some(Refusal::Index));

    // an overlap's own view is of outline 2
    let overlapping = |view_data: View| Meeting {
        laps: Overlaps::from([Overlap {
            view_data,
            ..Overlap::default()
        }]),
        ..Meeting::of_a()
    };
    for (start_index, end_index_offset, refusal) in [
        (3, 4, None),
        (4, 0, Some(Refusal::Index)),
        (0, 5, Some(Refusal::Count)),
        (4, 5, Some(Refusal::Index)),
    ] {
        let meeting = overlapping(View {
            start_index,
            end_index_offset,
            ..View::default()
        });
        assert_eq!(meeting.refused(Source::Pline1), None);
        assert_eq!(meeting.refused(Source::Pline2), refusal);
    }
}

#[test]
fn of_candidates_splits_that_are_not_one_for_each_cut() {
    for count in [0, 1, 3] {
        let splits: Splits = (0..count).map(|_| CutSplit::default()).collect();
        let laps = Overlaps::new();
        let found = candidates(&a(), Source::Pline1, &hits(), &laps, &splits, T);
        assert_eq!(found, Err(Refusal::Length));
    }
    let mut bad = CutSplit::default();
    bad.split_vertex_of_segment.x = f64::NAN;
    let splits = Splits::from([CutSplit::default(), bad]);
    let found = candidates(&a(), Source::Pline1, &hits(), &Overlaps::new(), &splits, T);
    assert_eq!(found, Err(Refusal::Number));
}

fn answered(view: View, inside: &[bool]) -> Answered {
    let candidate = Candidate {
        view,
        ..Candidate::default()
    };
    Answered {
        candidates: Candidates::from_iter([candidate]),
        inside: inside.to_vec(),
    }
}

#[test]
fn of_prune() {
    let good = answered(view(), &[true]);
    let laps = Overlaps::new();
    let pruned = |side: &Answered, counts, laps: &Overlaps| {
        let found = [[side, &good], [&good, side]]
            .map(|sides| prune(Mode::Union, false, counts, sides, laps).map(|_| ()));
        assert_eq!(found[0], found[1]);
        found[0]
    };
    assert_eq!(pruned(&good, [4, 4], &laps), Ok(()));
    for inside in [&[][..], &[true, true]] {
        let bad = answered(view(), inside);
        assert_eq!(pruned(&bad, [4, 4], &laps), Err(Refusal::Length));
    }
    let many = Answered {
        candidates: (0..769).map(|_| Candidate::default()).collect(),
        inside: vec![false; 769],
    };
    assert_eq!(pruned(&many, [4, 4], &laps), Err(Refusal::Length));
    for counts in [[1, 4], [4, 0], [1025, 4]] {
        assert_eq!(pruned(&good, counts, &laps), Err(Refusal::Outline));
    }
    for x in BAD_NUMBERS {
        let mut bad = view();
        bad.updated_start.y = x;
        let bad = answered(bad, &[false]);
        assert_eq!(pruned(&bad, [4, 4], &laps), Err(Refusal::Number));
    }
    let bad = answered(
        View {
            start_index: 4,
            ..view()
        },
        &[true],
    );
    assert_eq!(pruned(&bad, [4, 4], &laps), Err(Refusal::Index));
    let bad = answered(
        View {
            end_index_offset: 5,
            ..view()
        },
        &[true],
    );
    assert_eq!(pruned(&bad, [4, 4], &laps), Err(Refusal::Count));

    let lap = |overlap| Overlaps::from([overlap]);
    let bad = lap(Overlap {
        end_indexes: (4, 0),
        ..Overlap::default()
    });
    assert_eq!(pruned(&good, [4, 4], &bad), Err(Refusal::Index));
    let mut far = Overlap::default();
    far.view_data.end_index_offset = 5;
    assert_eq!(pruned(&good, [4, 4], &lap(far)), Err(Refusal::Count));
}

/// An answer that is neither yes nor no can be lent as a number only.
#[test]
fn of_prune_with_an_unknown_code() {
    let good = answered(view(), &[true]);
    for (code, expected) in [
        (1, None),
        (2, Some(Refusal::Code)),
        (255, Some(Refusal::Code)),
    ] {
        let sides = [(&good.candidates, &[0][..]), (&good.candidates, &[code])];
        let (mut slice_at, mut slice, mut slice_edition) = ([7; 8], [7.0; 12], [7; 2]);
        let room = lent::SliceRoom {
            slice_at: &mut slice_at,
            slice: &mut slice,
            slice_edition: &mut slice_edition,
        };
        let found = lent::prune(Mode::Union, false, [4, 4], sides, &Overlaps::new(), room);
        assert_eq!(found.err(), expected);
        assert_eq!(slice_at == [7; 8], expected.is_some());
        assert_eq!(slice_edition == [7; 2], expected.is_some());
    }
}

fn slices(view: View, count: usize) -> Slices {
    let slice = Slice {
        source: Source::Pline1,
        view,
    };
    Slices {
        list: (0..count).map(|_| slice).collect(),
        starts: Starts {
            pline2: count,
            pline1_overlapping: count,
            pline2_overlapping: count,
        },
    }
}

#[test]
fn of_stitch() {
    let stitched = |pline1: &Outline, pline2: &Outline, slices: &Slices, t| {
        stitch(pline1, pline2, slices, Selector::OrAnd, t).map(|_| ())
    };
    let (a, b, t) = (a(), b(), plain());
    assert_eq!(stitched(&a, &b, &slices(view(), 1792), t), Ok(()));
    let found = stitched(&a, &b, &slices(view(), 1793), t);
    assert_eq!(found, Err(Refusal::Length));
    let of_another = View {
        edition: 1,
        ..view()
    };
    let found = stitched(&a, &b, &slices(of_another, 1), t);
    assert_eq!(found, Err(Refusal::Edition));
    for (outline, refusal) in bad_outlines() {
        assert_eq!(stitched(&outline, &b, &slices(view(), 1), t), Err(refusal));
        assert_eq!(stitched(&a, &outline, &slices(view(), 1), t), Err(refusal));
    }
    for t in bad_tolerances() {
        let found = stitched(&a, &b, &slices(view(), 1), named(t, 0.0));
        assert_eq!(found, Err(Refusal::Tolerance));
    }
    for edition in [0, 2, usize::MAX] {
        let unknown = plain().settings.named(edition);
        let found = stitched(&a, &b, &slices(view(), 1), unknown);
        assert_eq!(found, Err(Refusal::UnknownSetting));
        let found = stitched(&a, &b, &slices(view(), 1793), unknown);
        assert_eq!(found, Err(Refusal::Length));
    }
    let any_limit = named(T, f64::NAN);
    assert_eq!(stitched(&a, &b, &slices(view(), 1), any_limit), Ok(()));
    for x in BAD_NUMBERS {
        let bad = slices(
            View {
                updated_end_bulge: x,
                ..view()
            },
            1,
        );
        assert_eq!(stitched(&a, &b, &bad, t), Err(Refusal::Number));
    }
    let bad = slices(
        View {
            start_index: 4,
            ..view()
        },
        1,
    );
    assert_eq!(stitched(&a, &b, &bad, t), Err(Refusal::Index));
    for end_index_offset in [5, 1025, usize::MAX] {
        let bad = slices(
            View {
                end_index_offset,
                ..view()
            },
            2,
        );
        assert_eq!(stitched(&a, &b, &bad, t), Err(Refusal::Count));
    }
    for (pline2, pline1_overlapping, pline2_overlapping) in [(1, 0, 1), (0, 1, 0), (0, 0, 2)] {
        let starts = Starts {
            pline2,
            pline1_overlapping,
            pline2_overlapping,
        };
        let bad = Slices {
            starts,
            ..slices(view(), 1)
        };
        assert_eq!(stitched(&a, &b, &bad, t), Err(Refusal::Starts));
    }
}

/// A record takes what a stitch takes, of at most 64 vertices and 28 slices.
#[test]
fn of_record_write() {
    for version in RecordVersion::ALL {
        let written = |pline1: &Outline, pline2: &Outline, slices: &Slices, t| {
            Record::write(version, pline1, pline2, slices, Selector::OrAnd, t).map(|_| ())
        };
        let (a, b) = (a(), b());
        assert_eq!(written(&a, &b, &slices(view(), 28), T), Ok(()));
        for count in [29, 1792, 1793] {
            let found = written(&a, &b, &slices(view(), count), T);
            assert_eq!(found, Err(Refusal::Length));
        }
        let none = slices(view(), 0);
        assert_eq!(written(&line_of(64), &line_of(2), &none, T), Ok(()));
        for count in [0, 1, 65, 1024, 1025] {
            let bad = line_of(count);
            assert_eq!(written(&bad, &b, &none, T), Err(Refusal::Outline));
            assert_eq!(written(&a, &bad, &none, T), Err(Refusal::Outline));
        }
        for (outline, refusal) in bad_outlines() {
            assert_eq!(written(&outline, &b, &slices(view(), 1), T), Err(refusal));
            assert_eq!(written(&a, &outline, &slices(view(), 1), T), Err(refusal));
        }
        for t in bad_tolerances() {
            let found = written(&a, &b, &slices(view(), 1), t);
            assert_eq!(found, Err(Refusal::Tolerance));
        }
        let differ = Tolerance { y: 0.5, ..T };
        let two = version == RecordVersion::Two;
        let found = written(&a, &b, &slices(view(), 1), differ);
        assert_eq!(found.err(), (!two).then_some(Refusal::Tolerance));
        for x in BAD_NUMBERS {
            let mut bad = view();
            bad.end_point.x = x;
            let found = written(&a, &b, &slices(bad, 1), T);
            assert_eq!(found, Err(Refusal::Number));
        }
        let mut bad = view();
        bad.start_index = 4;
        let found = written(&a, &b, &slices(bad, 1), T);
        assert_eq!(found, Err(Refusal::Index));
        for end_index_offset in [5, 65, 65536, usize::MAX] {
            let bad = View {
                end_index_offset,
                ..view()
            };
            let found = written(&a, &b, &slices(bad, 1), T);
            assert_eq!(found, Err(Refusal::Count));
        }
        let mut fallen = slices(view(), 2);
        fallen.starts.pline1_overlapping = 1;
        assert_eq!(written(&a, &b, &fallen, T), Err(Refusal::Starts));
        let late = View {
            edition: 1,
            ..view()
        };
        let found = written(&a, &b, &slices(late, 1), T);
        assert_eq!(found, Err(Refusal::Edition));
    }
}

#[test]
fn of_area_pass() {
    let most = area_pass(&[0.0; 1792], plain());
    assert_eq!(most.map(|kept| kept.len()), Ok(1792));
    assert_eq!(area_pass(&[0.0; 1793], plain()), Err(Refusal::Length));
    for limit in [-1.0, f64::NAN, f64::INFINITY] {
        let found = area_pass(&[1.0], named(T, limit));
        assert_eq!(found, Err(Refusal::Tolerance));
    }
    for area in [f64::NAN, f64::INFINITY] {
        assert_eq!(area_pass(&[1.0, area], plain()), Err(Refusal::Number));
        let unknown = plain().settings.named(2);
        assert_eq!(area_pass(&[area], unknown), Err(Refusal::UnknownSetting));
    }
    assert_eq!(area_pass(&[TOO_LARGE, -1.0], plain()), Ok(vec![0, 1]));
    let any_tolerance = named(Tolerance::new(f64::NAN), 2.0);
    assert_eq!(area_pass(&[1.0, -2.0], any_tolerance), Ok(vec![1]));
}

#[test]
fn of_room_that_is_lent() {
    let (hits, laps) = (hits(), Overlaps::new());
    let mut kept = [7; 2];
    assert_eq!(
        lent::area_pass(&[1.0; 3], plain(), &mut kept),
        Err(Refusal::Room)
    );
    assert_eq!(kept, [7; 2]);

    let cuts = |cut_at: &mut [usize], cut: &mut [f64]| {
        lent::cut_order(&a(), Source::Pline1, &hits, &laps, T, cut_at, cut)
    };
    assert_eq!(cuts(&mut [7; 5], &mut [7.0; 4]), Err(Refusal::Room));
    assert_eq!(cuts(&mut [7; 6], &mut [7.0; 3]), Err(Refusal::Room));
    let (mut cut_at, mut cut) = ([7; 8], [7.0; 5]);
    assert_eq!(cuts(&mut cut_at, &mut cut), Ok(2));
    assert_eq!(cut_at, [1, 0, 0, 2, 0, 1, 7, 7]);
    assert_eq!(cut, [4.0, 2.0, 2.0, 4.0, 7.0]);

    let ordered = cut_order(&a(), Source::Pline1, &hits, &laps, T).unwrap();
    let splits = split_cuts(&a(), &ordered, &mut StraightHost).unwrap();
    for (expected, lengths) in [
        (Ok(2), [4, 12, 12, 2]),
        (Err(Refusal::Room), [3, 12, 12, 2]),
        (Err(Refusal::Room), [4, 11, 12, 2]),
        (Err(Refusal::Room), [4, 12, 11, 2]),
        (Err(Refusal::Room), [4, 12, 12, 1]),
    ] {
        let room = lent::CandidateRoom {
            cand_at: &mut vec![7; lengths[0]],
            cand: &mut vec![7.0; lengths[1]],
            probe: &mut vec![7.0; lengths[2]],
            cand_edition: &mut vec![7; lengths[3]],
        };
        let found = lent::candidates(&a(), Source::Pline1, &hits, &laps, &splits, T, room);
        assert_eq!(found, expected);
    }
}

/// An edition that differs is told after the starts and before the room.
#[test]
fn of_an_edition_in_its_place() {
    let of_another = View {
        edition: 1,
        ..view()
    };
    let stitched = |slices: &Slices, numbers: usize| {
        let mut room = vec![7.0; numbers];
        let (mut ends, mut chain) = ([7; 1], [7; 1]);
        let (mut chain_ends, mut chain_how) = ([7; 1], [7; 1]);
        let lent = lent::StitchRoom {
            room: &mut room,
            ends: &mut ends,
            chain: &mut chain,
            chain_ends: &mut chain_ends,
            chain_how: &mut chain_how,
        };
        let found = lent::stitch(&a(), &b(), slices, Selector::OrAnd, plain(), lent);
        if found.is_err() {
            assert!(room.iter().all(|x| *x == 7.0));
            assert_eq!([ends, chain, chain_ends, chain_how], [[7]; 4]);
        }
        found.err()
    };
    assert_eq!(stitched(&slices(view(), 1), 6), None);
    assert_eq!(stitched(&slices(view(), 1), 5), Some(Refusal::Room));
    let late = slices(of_another, 1);
    assert_eq!(stitched(&late, 6), Some(Refusal::Edition));
    assert_eq!(stitched(&late, 5), Some(Refusal::Edition));
    let starts = Starts {
        pline2: 2,
        ..late.starts
    };
    assert_eq!(
        stitched(&Slices { starts, ..late }, 5),
        Some(Refusal::Starts)
    );
}

/// The lowest number that applies is given.
#[test]
fn the_lowest_number_first() {
    let bad = Slices {
        starts: Starts {
            pline2: 9,
            ..Starts::default()
        },
        ..slices(
            View {
                end_index_offset: 5,
                start_index: 4,
                ..view()
            },
            1,
        )
    };
    let found = stitch(
        &line_of(1),
        &b(),
        &bad,
        Selector::NotXor,
        named(Tolerance::new(0.0), 0.0),
    );
    assert_eq!(found, Err(Refusal::Outline));
    let bad_tolerance = named(Tolerance::new(0.0), 0.0);
    let found = stitch(&a(), &b(), &bad, Selector::NotXor, bad_tolerance);
    assert_eq!(found, Err(Refusal::Tolerance));
    let found = stitch(&a(), &b(), &bad, Selector::NotXor, plain());
    assert_eq!(found, Err(Refusal::Index));
}

#[test]
fn a_whole_run_gives_the_refusal_of_its_first_call() {
    let run = |pline1: &Outline, hits: &Intersections, t: f64, area_limit: f64| {
        let masks = Masks {
            pline1,
            pline2: &b(),
            intersections: hits,
            overlaps: &Overlaps::new(),
            setting: named(Tolerance::new(t), area_limit),
        };
        let host: &mut dyn Host = &mut StraightHost;
        masks.combine(Mode::Union, host).err()
    };
    let t = T.x;
    assert_eq!(run(&a(), &hits(), t, 0.0), None);
    assert_eq!(run(&line_of(1), &hits(), t, 0.0), Some(Refusal::Outline));
    assert_eq!(run(&a(), &hits(), 2.0, 0.0), Some(Refusal::Tolerance));
    let far = Intersections::from([hit(1, 0, 4.0, 2.0), hit(2, 9, 2.0, 4.0)]);
    assert_eq!(run(&a(), &far, t, 0.0), Some(Refusal::Index));
    assert_eq!(run(&a(), &hits(), t, -1.0), Some(Refusal::Tolerance));
}
