//! Drawn input: good, nearly good and any. Most parts of a call are good, so that many calls are
//! accepted, and most of the others have one bad part alone.

use mask_tools::{
    CutSplit, Intersection, Intersections, Outline, Overlap, Overlaps, Place, Point, Setting, Slice, Slices, Source, Split, Splits, Starts,
    Tolerance, Vertex, View, Walk,
};
use proptest::collection::vec;
use proptest::prelude::*;

/// Good mostly, else any.
fn mostly<T: std::fmt::Debug>(good: impl Strategy<Value = T>, any: impl Strategy<Value = T>) -> impl Strategy<Value = T> {
    prop_oneof![14 => good, 1 => any]
}

/// On a coarse grid, so that points meet; not good: rarely any bits.
fn number(good: bool) -> impl Strategy<Value = f64> {
    let wild = if good { 0 } else { 1 };
    prop_oneof![
        20 => (-4i32..9).prop_map(|k| f64::from(k) * 0.5),
        1 => Just(-0.0),
        wild => Just(1073741824.0),
        wild => any::<u64>().prop_map(f64::from_bits),
    ]
}

/// The areas of loops, and what else is only one number.
pub fn area() -> impl Strategy<Value = f64> {
    prop_oneof![100 => number(true), 1 => number(false)]
}

pub fn tolerance() -> impl Strategy<Value = Tolerance> {
    let one = || prop_oneof![16 => Just(1.0 / 1024.0), 8 => Just(0.5), 4 => Just(1.0), 1 => number(false)];
    prop_oneof![one().prop_map(Tolerance::new), (one(), one()).prop_map(|(x, y)| Tolerance { x, y })]
}

/// Good outlines have at least so many vertices.
const LEAST: usize = 4;

fn index(good: bool) -> impl Strategy<Value = usize> {
    let wild = if good { 0 } else { 1 };
    prop_oneof![
        30 => 0usize..LEAST,
        6 * wild => 0usize..9,
        wild => any::<usize>(),
        wild => 1020usize..1030
    ]
}

/// The number of a vertex, of an edition, and what else may be any.
pub fn any_index() -> impl Strategy<Value = usize> {
    mostly(index(true), index(false))
}

pub fn edition() -> impl Strategy<Value = u32> {
    prop_oneof![40 => Just(0u32), 1 => any::<u32>()]
}

fn point(good: bool) -> impl Strategy<Value = Point> {
    (number(good), number(good)).prop_map(|(x, y)| Point::new(x, y))
}

fn vertex(good: bool) -> impl Strategy<Value = Vertex> {
    (point(good), number(good)).prop_map(|(p, bulge)| Vertex::new(p.x, p.y, bulge))
}

pub fn outline() -> impl Strategy<Value = Outline> {
    let any = prop_oneof![
        8 => vec(vertex(false), 2..9),
        2 => vec(vertex(true), 0..3),
        1 => vec(vertex(true), 1000..1030)
    ];
    (mostly(vec(vertex(true), LEAST..9), any), edition()).prop_map(|(vertices, edition)| Outline::new(vertices).with_edition(edition))
}

/// As long as a record takes, rarely.
pub fn recorded_outline() -> impl Strategy<Value = Outline> {
    prop_oneof![9 => outline().boxed(), 1 => vec(vertex(true), 62..66).prop_map(Outline::new).boxed()]
}

/// Straight, and in whole microdegrees mostly.
pub fn whole_outline() -> impl Strategy<Value = Outline> {
    let one = |most: f64| (-6i32..7, -6i32..7).prop_map(move |(x, y)| Vertex::new(f64::from(x) * most, f64::from(y), -0.0));
    let good = prop_oneof![8 => vec(one(1.0), LEAST..9), 1 => vec(one(66_000_000.0), LEAST..9)];
    let any = prop_oneof![vec(one(70_000_000.0), 2..9), vec(vertex(false), 2..9)];
    (mostly(good, any), edition()).prop_map(|(vertices, edition)| Outline::new(vertices).with_edition(edition))
}

/// The same outline, or one with a vertex moved, or any other.
pub fn old_and_new() -> impl Strategy<Value = (Outline, Outline)> {
    (outline(), outline(), vertex(true), 0usize..12).prop_map(|(old, other, moved, at)| {
        let mut vertices = old.vertices().to_vec();
        let new = match vertices.get_mut(at) {
            Some(vertex) => {
                *vertex = moved;
                old.replaced_by(vertices)
            }
            None if at % 2 == 0 => other,
            None => old.clone(),
        };
        (old, new)
    })
}

prop_compose! {
    fn view_of(good: bool)(start_index in index(good), end_index_offset in index(good), updated_start in vertex(good),
        updated_end_bulge in number(good), end_point in point(good), inverted_direction in any::<bool>(), edition in edition()) -> View {
        View { start_index, end_index_offset, updated_start, updated_end_bulge, end_point, inverted_direction, edition }
    }
}

pub fn view() -> impl Strategy<Value = View> {
    mostly(view_of(true), view_of(false))
}

fn split_of(good: bool) -> impl Strategy<Value = Split> {
    (vertex(good), vertex(good)).prop_map(|(updated_start, split_vertex)| Split { updated_start, split_vertex })
}

pub fn split() -> impl Strategy<Value = Split> {
    mostly(split_of(true), split_of(false))
}

prop_compose! {
    fn walk_of(good: bool)(start_index in index(good), updated_start in vertex(good), end_intersect in point(good), intersect_index in index(good),
        traverse_count in index(good), split in split_of(good)) -> Walk {
        let traverse_count = if good { traverse_count + 1 } else { traverse_count };
        Walk { start_index, updated_start, end_intersect, intersect_index, traverse_count, split }
    }
}

pub fn walk() -> impl Strategy<Value = Walk> {
    mostly(walk_of(true), walk_of(false))
}

/// A point of the outline, or any.
pub fn place() -> impl Strategy<Value = Place> {
    let one = |good| (index(good), point(good)).prop_map(|(index, point)| Place { index, point });
    mostly(one(true), one(false))
}

pub fn source() -> impl Strategy<Value = Source> {
    prop_oneof![Just(Source::Pline1), Just(Source::Pline2)]
}

/// A list of few items mostly, all good mostly; rarely as long as is allowed, or longer.
fn list_of<T: std::fmt::Debug, S: Strategy<Value = T>>(
    one: impl Fn(bool) -> S,
    few: usize,
    most: std::ops::Range<usize>,
) -> impl Strategy<Value = Vec<T>> {
    prop_oneof![60 => vec(one(true), 0..few), 5 => vec(one(false), 0..few), 1 => vec(one(true), most)]
}

pub fn intersections() -> impl Strategy<Value = Intersections> {
    let one = |good| {
        (index(good), index(good), point(good)).prop_map(|(start_index1, start_index2, point)| Intersection { start_index1, start_index2, point })
    };
    list_of(one, 9, 505..520).prop_map(|list| list.into_iter().collect())
}

/// Intersections in whole microdegrees mostly.
pub fn whole_intersections() -> impl Strategy<Value = Intersections> {
    (intersections(), 0..12).prop_map(|(list, way)| {
        let rounded = |hit: Intersection| Intersection { point: Point::new(hit.point.x.round(), hit.point.y.round()), ..hit };
        if way == 0 {
            list
        } else {
            list.iter().map(rounded).collect()
        }
    })
}

pub fn overlaps() -> impl Strategy<Value = Overlaps> {
    let one = |good| {
        ((index(good), index(good)), (index(good), index(good)), view_of(good), any::<bool>()).prop_map(
            |(start_indexes, end_indexes, view_data, opposing_directions)| Overlap { start_indexes, end_indexes, view_data, opposing_directions },
        )
    };
    list_of(one, 4, 125..132).prop_map(|list| list.into_iter().collect())
}

/// Overlaps without arcs in whole microdegrees mostly.
pub fn whole_overlaps() -> impl Strategy<Value = Overlaps> {
    (overlaps(), 0..12).prop_map(|(list, way)| {
        let rounded = |lap: Overlap| {
            let v = lap.view_data;
            let (start, end) = (v.updated_start, v.end_point);
            Overlap {
                view_data: View {
                    updated_start: Vertex::new(start.x.round(), start.y.round(), 0.0),
                    updated_end_bulge: 0.0,
                    end_point: Point::new(end.x.round(), end.y.round()),
                    ..v
                },
                ..lap
            }
        };
        if way == 0 {
            list
        } else {
            list.iter().map(rounded).collect()
        }
    })
}

/// Splits for so many cuts; rarely for another number of them.
pub fn splits_for(cuts: usize, drawn: &[Split]) -> Splits {
    let one = |at: usize| CutSplit { split: drawn[at], split_vertex_of_segment: drawn[drawn.len() - 1 - at].split_vertex };
    (0..cuts).filter(|_| !drawn.is_empty()).map(|cut| one(cut % drawn.len())).collect()
}

pub fn drawn_splits() -> impl Strategy<Value = Vec<Split>> {
    list_of(split_of, 24, 24..25).prop_filter("some", |list| !list.is_empty())
}

prop_compose! {
    fn slices_in(most: usize)(list in list_of(|good| (source(), view_of(good)), 9, most - 3..most + 5), places in vec(any::<prop::sample::Index>(), 3),
        any in (0usize..60, 0usize..12)) -> Slices {
        let list: Vec<Slice> = list.into_iter().map(|(source, view)| Slice { source, view }).collect();
        let mut at: Vec<usize> = places.iter().map(|place| place.index(list.len() + 1)).collect();
        at.sort_unstable();
        if any.0 < 3 {
            at[any.0] = any.1; // they fall back, or lie past the slices
        }
        Slices { list: list.into_iter().collect(), starts: Starts { pline2: at[0], pline1_overlapping: at[1], pline2_overlapping: at[2] } }
    }
}

pub fn slices() -> impl Strategy<Value = Slices> {
    slices_in(1792)
}

/// As many as a record takes.
pub fn recorded_slices() -> impl Strategy<Value = Slices> {
    slices_in(28)
}

pub fn setting() -> impl Strategy<Value = Setting> {
    (tolerance(), prop_oneof![20 => 0u32..9, 1 => Just(0)], area())
        .prop_map(|(tolerance, limit, any)| Setting { tolerance, area_limit: if limit == 8 { any } else { f64::from(limit) * 0.5 } })
}
