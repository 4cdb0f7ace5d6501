//! Our stages and the original's, timed side by side on the same inputs in one run.
//!
//! `bench FILE.svg` prints tables of ratios, and writes the plot of times against sizes to the file.
//! `bench straight` prints only the tables of straight masks.
//! Both start `bench once` or `bench once straight` several times, each in a process of its own; `bench once STAGE` times one stage alone.
//! `bench repeat STAGE INPUT SIZE` makes one of our calls again and again, for a profiler.

mod ours;
mod plot;
mod shapes;
mod tables;
mod timing;

mod scan {
    use cavalier_contours as cavalier;
    include!("theirs.rs");
}

mod tree {
    #![allow(dead_code)]
    use cavalier_tree as cavalier;
    include!("theirs.rs");
}

use archive::{Point, StitchAnswer, Vertex, View};
use cavalier_contours::polyline::{PlineSource, PlineVertex, PlineViewData, Polyline};
use ours::{CutRoom, Pair, Record, Slices, StitchRoom};
use shapes::Outlines;
use std::hint::black_box;
use std::process::Command;
use std::time::{Duration, Instant};
use tables::Table;
use timing::{measure, measure_growth};

/// How many processes time all stages, one after the other.
const PROCESSES: usize = 7;
const TOLERANCE: f64 = 1e-5;
const UNION: u32 = 0;
const FIRST_MINUS_SECOND: u32 = 2;
/// The most intersections are 512; with the most overlaps there are 768 cuts.
const CUT_SIZES: [usize; 6] = [4, 16, 64, 256, 512, MOST_CUTS];
const MOST_CUTS: usize = 768;
/// Sizes whose time is put beside the time at twice the size.
const CUT_GROWTH: [usize; 5] = [4, 16, 64, 128, 256];
const SLICE_GROWTH: [usize; 6] = [4, 16, 64, 256, 512, MOST_SLICES / 2];
const SLICE_SIZES: [usize; 6] = [4, 16, 64, 256, 1024, MOST_SLICES];
const MOST_SLICES: usize = 1792;
/// The slices of a star are as many as its corners, of which an outline has at most so many.
const MOST_CORNERS: usize = 1024;

/// The answer counts as used, and is dropped.
fn done<A>(answer: A) {
    drop(black_box(answer));
}

/// Two outlines with what they share, for both sides.
struct Input {
    pair: Pair,
    shared: scan::Shared,
    order: scan::OrderInfo,
}

impl Input {
    fn new(outlines: Outlines, cuts: usize) -> Input {
        let shared = scan::Shared::find(&outlines, TOLERANCE);
        Input::of(&outlines, shared, cuts)
    }

    /// The same with the intersections listed in a shuffled order.
    fn shuffled(outlines: Outlines, cuts: usize) -> Input {
        let mut shared = scan::Shared::find(&outlines, TOLERANCE);
        shared.shuffle();
        Input::of(&outlines, shared, cuts)
    }

    fn of(outlines: &Outlines, shared: scan::Shared, cuts: usize) -> Input {
        let pair = shared.pair(outlines);
        assert_eq!(
            pair.cuts(),
            cuts,
            "the outlines do not cross as often as asked"
        );
        let order = shared.for_cut_order();
        Input {
            pair,
            shared,
            order,
        }
    }

    /// Room for the slices of a prune, exactly as long as the need.
    fn slice_room(&self, rooms: &[CutRoom; 2]) -> Slices {
        let candidates = rooms[0].count + rooms[1].count;
        Slices::room(candidates + 2 * self.pair.laps)
    }

    /// Room for one outline, with cuts, splits, candidates and inside answers in it.
    fn room(&self, outline: usize) -> CutRoom {
        let mut room = CutRoom::new(self.pair.cuts());
        ours::cut_order(&self.pair, outline, &mut room);
        self.shared.split_cuts(outline, &mut room);
        ours::candidates(&self.pair, outline, &mut room);
        self.shared.answer_inside(outline, &mut room);
        room
    }
}

/// A kind of input at each of its sizes, and the outline that is looked at.
struct Family {
    name: &'static str,
    outline: usize,
    inputs: Vec<(usize, Input)>,
}

fn family(name: &'static str, outline: usize, make: fn(usize) -> Outlines) -> Family {
    let input = |cuts| (cuts, Input::new(make(cuts), cuts));
    Family {
        name,
        outline,
        inputs: CUT_SIZES[..5].iter().copied().map(input).collect(),
    }
}

fn families() -> [Family; 3] {
    let mut comb = family("comb", 1, shapes::comb);
    let most = Input::new(shapes::flat_comb(MOST_CUTS), MOST_CUTS);
    comb.inputs.push((MOST_CUTS, most));
    [
        family("star", 0, shapes::star),
        comb,
        family("star with arcs", 0, shapes::round_star),
    ]
}

type MakeInput = fn(usize) -> Input;

/// Shapes by name: the outline that is looked at, how it is made, and the smallest size.
const SHAPES: [(&str, usize, MakeInput, usize); 5] = [
    (
        "comb, shuffled",
        1,
        |n| Input::shuffled(shapes::comb(n), n),
        4,
    ),
    (
        "comb from the other side",
        1,
        |n| Input::new(shapes::other_comb(n), n),
        4,
    ),
    (
        "two vertical sides",
        1,
        |n| Input::new(shapes::upright_comb(n), n),
        4,
    ),
    (
        "all on one line",
        1,
        |n| Input::new(shapes::one_line_comb(n), n),
        4,
    ),
    (
        "two rings of equal radii",
        0,
        |n| Input::new(shapes::two_rings(n), n),
        16,
    ),
];

fn more_families() -> [Family; 5] {
    SHAPES.map(|(name, outline, make, least)| {
        let sizes = CUT_SIZES[..5].iter().filter(|size| **size >= least);
        Family {
            name,
            outline,
            inputs: sizes.map(|size| (*size, make(*size))).collect(),
        }
    })
}

fn check_order(input: &Input, outline: usize, room: &CutRoom) {
    let theirs = input.shared.listed_order(&input.order, outline);
    assert_eq!(theirs.len(), input.pair.cuts());
    for (i, (segment, mark, point)) in theirs.iter().enumerate() {
        assert_eq!(room.cut_at[3 * i], *segment);
        assert_eq!(room.cut_at[3 * i + 1], usize::from(*mark));
        assert_eq!(room.cut[2 * i..2 * i + 2], [point.x, point.y]);
    }
}

fn cut_order(families: &[Family]) {
    for family in families {
        for (size, input) in &family.inputs {
            let mut room = CutRoom::new(*size);
            ours::cut_order(&input.pair, family.outline, &mut room);
            check_order(input, family.outline, &room);
            let times = measure(&mut [
                &mut || ours::cut_order(black_box(&input.pair), family.outline, &mut room),
                &mut || input.shared.cut_order(&input.order, family.outline),
            ]);
            tables::tell(tables::ORDER, family.name, *size, times.ratio(0, 1));
            plot::tell(plot::ORDER, family.name, *size, &times);
        }
    }
}

/// How the time of a cut order grows with the number of cuts.
fn cut_order_growth() {
    let star: MakeInput = |n| Input::new(shapes::star(n), n);
    let comb: MakeInput = |n| Input::new(shapes::comb(n), n);
    let mut all = vec![("star", 0, star, 4), ("comb", 1, comb, 4)];
    all.extend(SHAPES);
    for (name, outline, make, least) in all {
        for size in CUT_GROWTH.into_iter().filter(|size| *size >= least) {
            let inputs = [size, 2 * size].map(make);
            let [mut room1, mut room2] = [size, 2 * size].map(CutRoom::new);
            let times = measure_growth(&mut [
                &mut || ours::cut_order(black_box(&inputs[0].pair), outline, &mut room1),
                &mut || ours::cut_order(black_box(&inputs[1].pair), outline, &mut room2),
            ]);
            tables::tell(tables::ORDER_GROWTH, name, size, times.ratio(1, 0));
        }
    }
}

fn check_candidates(input: &Input, outline: usize, room: &CutRoom) {
    let theirs = scan::flat(&input.shared.candidates(outline));
    assert_eq!(theirs.slice, room.cand[..6 * room.count]);
    let at = theirs
        .slice_at
        .chunks_exact(4)
        .flat_map(|at| [at[2], at[3]]);
    assert!(at.eq(room.cand_at[..2 * room.count].iter().copied()));
}

fn candidates(families: &[Family]) {
    for family in families {
        for (size, input) in &family.inputs {
            let (pair, shared, outline) = (&input.pair, &input.shared, family.outline);
            let mut rooms = [0; 3].map(|_| input.room(outline));
            let [alone, same, all] = &mut rooms;
            check_candidates(input, outline, alone);
            shared.our_candidates_in_order(pair, outline, all);
            check_candidates(input, outline, all);
            let times = measure(&mut [
                &mut || shared.our_candidates(black_box(pair), outline, same),
                &mut || done(shared.candidates(outline)),
                &mut || shared.our_candidates_in_order(black_box(pair), outline, all),
                &mut || ours::candidates(black_box(pair), outline, alone),
            ]);
            let tell = |title, side| {
                tables::tell(title, family.name, *size, times.ratio(side, 1));
            };
            tell(tables::CANDIDATES_ALONE, 3);
            tell(tables::CANDIDATES, 0);
            tell(tables::CANDIDATES_ALL, 2);
            plot::tell(plot::CANDIDATES, family.name, *size, &times);
        }
    }
}

fn check_slices(input: &Input, rooms: &[CutRoom; 2], slices: &mut Slices) {
    let theirs = input.shared.slices(UNION);
    let answer = ours::prune(&input.pair, UNION, rooms, slices);
    let starts = answer.starts;
    let starts = [
        starts.pline2,
        starts.pline1_overlapping,
        starts.pline2_overlapping,
    ];
    assert_eq!(starts, theirs.starts);
    assert_eq!(answer.slices, theirs.count());
    assert_eq!(slices.slice_at[..4 * answer.slices], theirs.slice_at);
    assert_eq!(slices.slice[..6 * answer.slices], theirs.slice);
    let inside = [&rooms[0].inside[..], &rooms[1].inside[..]];
    let answered = scan::flat(&input.shared.prune_answered(UNION, inside));
    assert_eq!(answered.slice_at, theirs.slice_at);
}

/// Slicing and pruning of both outlines, the inside answers handed in.
fn our_pruning(input: &Input, rooms: &mut [CutRoom; 2], slices: &mut Slices) {
    for (outline, room) in rooms.iter_mut().enumerate() {
        input
            .shared
            .our_candidates(black_box(&input.pair), outline, room);
    }
    done(ours::prune(&input.pair, UNION, rooms, slices));
}

/// The calls of a host: cut order, splits, candidates and inside answers of both outlines, and the prune.
fn host_calls(input: &Input, rooms: &mut [CutRoom; 2], slices: &mut Slices) {
    let (pair, shared) = (&input.pair, &input.shared);
    for (outline, room) in rooms.iter_mut().enumerate() {
        ours::cut_order(black_box(pair), outline, room);
        shared.split_cuts(outline, room);
        ours::candidates_along(pair, outline, room);
        shared.answer_inside(outline, room);
    }
    done(ours::prune(pair, UNION, rooms, slices));
}

fn prune(families: &[Family]) {
    for family in families {
        for (size, input) in &family.inputs {
            let (pair, shared) = (&input.pair, &input.shared);
            let rooms = || [input.room(0), input.room(1)];
            let (mut handed, mut whole, sliced) = (rooms(), rooms(), rooms());
            let inside = [&sliced[0].inside[..], &sliced[1].inside[..]];
            let [mut to1, mut to2, mut to3] = [0; 3].map(|_| input.slice_room(&sliced));
            check_slices(input, &sliced, &mut to3);
            let times = measure(&mut [
                &mut || our_pruning(input, &mut handed, &mut to1),
                &mut || done(shared.prune_answered(UNION, inside)),
                &mut || host_calls(input, &mut whole, &mut to2),
                &mut || done(shared.prune(UNION)),
                &mut || done(ours::prune(black_box(pair), UNION, &sliced, &mut to3)),
            ]);
            tables::tell(tables::PRUNE, family.name, *size, times.ratio(0, 1));
            tables::tell(tables::PRUNE_ALL, family.name, *size, times.ratio(2, 3));
            tables::tell(tables::PRUNE_ALONE, family.name, *size, times.ratio(4, 1));
            plot::tell(plot::PRUNE, family.name, *size, &times);
        }
    }
}

/// Straight masks in whole microdegrees.
fn straight_families() -> [Family; 2] {
    let mut comb = family("comb", 1, shapes::whole_comb);
    let most = Input::new(shapes::whole_flat_comb(MOST_CUTS), MOST_CUTS);
    comb.inputs.push((MOST_CUTS, most));
    [family("wave", 0, shapes::wave), comb]
}

/// Cut order, splits, candidates and inside answers of both outlines and the prune: the calls that the
/// one call stands for.
fn three_in_turn(
    pair: &Pair,
    whole: &[Vec<i64>; 2],
    rooms: &mut [CutRoom; 2],
    slices: &mut Slices,
) {
    for (outline, room) in rooms.iter_mut().enumerate() {
        ours::cut_order(pair, outline, room);
        ours::straight_splits(pair, outline, room);
        ours::candidates(pair, outline, room);
        ours::answer_inside(&whole[1 - outline], room);
    }
    done(ours::prune(pair, UNION, rooms, slices));
}

fn check_straight(input: &Input, slices: &mut Slices) {
    let theirs = input.shared.slices(UNION);
    let answer = ours::straight_slices(&input.pair, UNION, slices);
    assert_eq!(answer.slices, theirs.count());
    assert_eq!(slices.slice_at[..4 * answer.slices], theirs.slice_at);
    assert_eq!(slices.slice[..6 * answer.slices], theirs.slice);
    assert_eq!(answer.starts.pline2, theirs.starts[0]);
    assert_eq!(answer.starts.pline1_overlapping, theirs.starts[1]);
    assert_eq!(answer.starts.pline2_overlapping, theirs.starts[2]);
}

fn straight() {
    for family in straight_families() {
        for (size, input) in &family.inputs {
            let (pair, shared) = (&input.pair, &input.shared);
            let whole = ours::whole_outlines(pair);
            let mut rooms = [0; 2].map(|_| CutRoom::new(pair.cuts()));
            let [mut at_once, mut in_turn] = [0; 2].map(|_| ours::straight_room(pair));
            check_straight(input, &mut at_once);
            let times = measure(&mut [
                &mut || done(ours::straight_slices(black_box(pair), UNION, &mut at_once)),
                &mut || done(shared.prune(UNION)),
                &mut || three_in_turn(black_box(pair), &whole, &mut rooms, &mut in_turn),
            ]);
            let count = shared.prune(UNION).len();
            assert_eq!(at_once.slice_at[..4 * count], in_turn.slice_at[..4 * count]);
            assert_eq!(at_once.slice[..6 * count], in_turn.slice[..6 * count]);
            tables::tell(tables::STRAIGHT, family.name, *size, times.ratio(0, 1));
            tables::tell(
                tables::STRAIGHT_THREE,
                family.name,
                *size,
                times.ratio(0, 2),
            );
            tables::tell(tables::THREE, family.name, *size, times.ratio(2, 1));
        }
    }
}

/// Slices for a stitch, with the outlines they are of.
struct Job {
    outlines: Outlines,
    slices: Slices,
    selector: u32,
}

fn pruned(outlines: Outlines, mode: u32) -> Job {
    let slices = scan::Shared::find(&outlines, TOLERANCE).slices(mode);
    Job {
        outlines,
        slices,
        selector: u32::from(mode == FIRST_MINUS_SECOND),
    }
}

fn extreme(slices: Slices) -> Job {
    Job {
        outlines: shapes::plain(),
        slices,
        selector: 0,
    }
}

type MakeJob = fn(usize) -> Job;

/// A name, how it is made, and up to which size.
const JOBS: [(&str, MakeJob, usize); 16] = [
    (
        "star, union",
        |n| pruned(shapes::star(n), UNION),
        MOST_CORNERS,
    ),
    (
        "star, first minus second",
        |n| pruned(shapes::star(n), FIRST_MINUS_SECOND),
        MOST_CORNERS,
    ),
    (
        "comb, union",
        |n| pruned(shapes::comb(n), UNION),
        MOST_SLICES,
    ),
    (
        "comb, first minus second",
        |n| pruned(shapes::comb(n), FIRST_MINUS_SECOND),
        MOST_SLICES,
    ),
    (
        "one chain of all",
        |n| extreme(shapes::one_chain(n)),
        MOST_SLICES,
    ),
    (
        "each a chain of its own",
        |n| extreme(shapes::chains_of_one(n)),
        MOST_SLICES,
    ),
    (
        "all at one point",
        |n| extreme(shapes::one_point(n)),
        MOST_SLICES,
    ),
    (
        "one chain, shuffled",
        |n| extreme(shapes::shuffled(n)),
        MOST_SLICES,
    ),
    (
        "two vertical sides",
        |n| extreme(shapes::two_sides(n)),
        MOST_SLICES,
    ),
    (
        "all on one line",
        |n| extreme(shapes::one_line(n)),
        MOST_SLICES,
    ),
    (
        "two rings of equal radii",
        |n| extreme(shapes::equal_rings(n)),
        MOST_SLICES,
    ),
    (
        "all begin at one point",
        |n| extreme(shapes::one_start(n)),
        MOST_SLICES,
    ),
    (
        "all begin at one point, and end beside it",
        |n| extreme(shapes::beside_one_start(n)),
        MOST_SLICES,
    ),
    (
        "two points take turns, and all end beside them",
        |n| extreme(shapes::beside_two_starts(n)),
        MOST_SLICES,
    ),
    (
        "eight points of a small circle take turns, and all end beside them",
        |n| extreme(shapes::beside_small_circle(n)),
        MOST_SLICES,
    ),
    (
        "comb from the other side, union",
        |n| pruned(shapes::other_comb(n), UNION),
        MOST_SLICES,
    ),
];

/// The loops of the original that looks through a list must be ours to the last bit.
fn check_loops(theirs: &scan::Loops, answer: &StitchAnswer, room: &StitchRoom) {
    assert_eq!(answer.loops, theirs.len());
    let vertices = theirs.iter().flat_map(|lp| lp.pline.vertex_data.iter());
    let numbers: Vec<f64> = vertices.flat_map(|v| [v.x, v.y, v.bulge]).collect();
    assert_eq!(room.vertices[..numbers.len()], numbers);
}

fn stitch() {
    for (name, make, most) in JOBS {
        for size in SLICE_SIZES.into_iter().filter(|size| *size <= most) {
            let job = make(size);
            assert_eq!(job.slices.count(), size);
            let mut room = StitchRoom::new(&job.slices);
            let record = Record::new(TOLERANCE, 0.0);
            let with_list = scan::Stitch::new(&job.outlines, &job.slices, TOLERANCE);
            let with_tree = tree::Stitch::new(&job.outlines, &job.slices, TOLERANCE);
            let mut ours = || {
                let slices = black_box(&job.slices);
                ours::stitch(&job.outlines, slices, job.selector, &record, &mut room)
            };
            let answer = ours();
            assert_eq!(answer.rounds, size);
            let times = measure(&mut [
                &mut || done(ours()),
                &mut || done(with_list.run(job.selector)),
                &mut || done(with_tree.run(job.selector)),
            ]);
            check_loops(&with_list.run(job.selector), &answer, &room);
            tables::tell(tables::STITCH_LIST, name, size, times.ratio(0, 1));
            tables::tell(tables::STITCH_TREE, name, size, times.ratio(0, 2));
            plot::tell(plot::STITCH, name, size, &times);
        }
    }
}

/// How the time of a stitch grows with the number of slices.
fn stitch_growth() {
    for (name, make, most) in JOBS {
        for size in SLICE_GROWTH.into_iter().filter(|size| 2 * size <= most) {
            let jobs = [size, 2 * size].map(make);
            let [mut room1, mut room2] = jobs.each_ref().map(|job| StitchRoom::new(&job.slices));
            let record = Record::new(TOLERANCE, 0.0);
            let ours = |job: &Job, room: &mut StitchRoom| {
                let slices = black_box(&job.slices);
                done(ours::stitch(
                    &job.outlines,
                    slices,
                    job.selector,
                    &record,
                    room,
                ));
            };
            let times = measure_growth(&mut [&mut || ours(&jobs[0], &mut room1), &mut || {
                ours(&jobs[1], &mut room2);
            }]);
            tables::tell(tables::STITCH_GROWTH, name, size, times.ratio(1, 0));
        }
    }
}

/// Areas of which two of five are below 2.
fn areas_of(loops: usize) -> Vec<f64> {
    (0..loops).map(|i| (i * 7 % 5) as f64).collect()
}

/// A plain loop over the areas, which looks for no refusal: the numbers of those that stay, into a list that has the room already.
fn plain_area_pass(areas: &[f64], limit: f64, list: &mut Vec<usize>) {
    list.clear();
    let stays = |(i, area): (usize, &f64)| (!(area.abs() < limit)).then_some(i);
    list.extend(areas.iter().enumerate().filter_map(stays));
    black_box(list);
}

/// The same with what the entry does beside it: limit, areas and room looked at before anything is written, the rest set to 0.
fn careful_area_pass(areas: &[f64], limit: f64, list: &mut [usize]) -> Option<usize> {
    let good = (0.0..=f64::MAX).contains(&limit) && areas.iter().all(|area| area.is_finite());
    if !good || list.len() < areas.len() {
        return None;
    }
    let mut count = 0;
    for (i, area) in areas.iter().enumerate() {
        if !(area.abs() < limit) {
            list[count] = i;
            count += 1;
        }
    }
    list[count..areas.len()].fill(0);
    Some(count)
}

fn area_pass() {
    let mut ratios = Vec::new();
    for size in SLICE_SIZES {
        let areas = areas_of(size);
        let (mut kept, mut list) = (vec![0; size], Vec::with_capacity(size));
        let mut careful = vec![0; size];
        let record = Record::new(TOLERANCE, 2.0);
        let times = measure(&mut [
            &mut || done(ours::area_pass(black_box(&areas), &record, &mut kept)),
            &mut || plain_area_pass(black_box(&areas), black_box(2.0), &mut list),
            &mut || {
                let areas = black_box(&areas);
                done(careful_area_pass(areas, black_box(2.0), &mut careful));
            },
        ]);
        assert_eq!(kept[..list.len()], list);
        assert_eq!(kept, careful);
        ratios.push((size, [times.ratio(0, 1), times.ratio(0, 2)]));
    }
    let names = [
        "a loop that looks at nothing",
        "a loop that looks and clears too",
    ];
    for (side, name) in names.into_iter().enumerate() {
        for (size, ratio) in &ratios {
            tables::tell(tables::AREA, name, *size, ratio[side]);
        }
    }
}

/// The whole of a star as a view, for both sides.
struct WholeView {
    outline: Vec<f64>,
    pline: Polyline,
    data: PlineViewData,
    flat: View,
}

impl WholeView {
    fn new(size: usize, inverted: bool) -> WholeView {
        let outline = shapes::star(size)[0].clone();
        let pline = scan::polyline(&outline);
        let mut data = PlineViewData::from_entire_pline(&pline);
        data.inverted_direction = inverted;
        let flat = View {
            start_index: data.start_index,
            end_index_offset: data.end_index_offset,
            updated_start: Vertex {
                x: outline[0],
                y: outline[1],
                bulge: outline[2],
            },
            updated_end_bulge: data.updated_end_bulge,
            end_point: Point {
                x: data.end_point.x,
                y: data.end_point.y,
            },
            inverted_direction: u32::from(inverted),
        };
        WholeView {
            outline,
            pline,
            data,
            flat,
        }
    }

    fn count(&self) -> usize {
        self.flat.end_index_offset + 2
    }

    /// All vertices in one call.
    fn all_vertices(&self, room: &mut [f64]) {
        let outline = black_box(&self.outline);
        done(ours::view_vertices(outline, self.flat, room));
    }

    /// The original's own iteration, into a list that is there already.
    fn rust_vertices(&self, list: &mut Vec<PlineVertex>) {
        list.clear();
        list.extend(self.data.view(black_box(&self.pline)).iter_vertexes());
        black_box(list);
    }

    /// All vertices, one call for each.
    fn one_by_one(&self, room: &mut [f64]) {
        for (index, to) in room.chunks_exact_mut(3).enumerate() {
            let v = ours::view_vertex(black_box(&self.outline), self.flat, index);
            to.copy_from_slice(&[v.x, v.y, v.bulge]);
        }
    }
}

fn view_vertices() {
    let sizes = || SLICE_SIZES.into_iter().filter(|size| *size <= MOST_CORNERS);
    for size in sizes() {
        let star = WholeView::new(size, false);
        let times = measure(&mut [
            &mut || done(ours::view_vertex(black_box(&star.outline), star.flat, 2)),
            &mut || done(star.data.view(black_box(&star.pline)).get(black_box(2))),
        ]);
        tables::tell(tables::VERTEX, "star", size, times.ratio(0, 1));
    }
    for (name, inverted) in [("star, forward", false), ("star, inverted", true)] {
        for size in sizes() {
            let star = WholeView::new(size, inverted);
            let mut rooms = [0; 2].map(|_| vec![0.0; 3 * star.count()]);
            let [all, singles] = &mut rooms;
            let mut list = Vec::with_capacity(star.count());
            let times = measure(&mut [
                &mut || star.all_vertices(all),
                &mut || star.rust_vertices(&mut list),
                &mut || star.one_by_one(singles),
            ]);
            let numbers: Vec<f64> = list.iter().flat_map(|v| [v.x, v.y, v.bulge]).collect();
            assert_eq!(rooms, [numbers.clone(), numbers]);
            tables::tell(tables::VERTICES, name, size, times.ratio(0, 1));
            tables::tell(tables::VERTICES_SINGLY, name, size, times.ratio(2, 1));
        }
    }
}

/// Makes one call so many times, or for two seconds, and then tells the shortest time of a call.
fn call_again(calls: Option<usize>, call: &mut dyn FnMut()) {
    if let Some(calls) = calls {
        (0..calls).for_each(|_| call());
        return;
    }
    let (start, mut shortest) = (Instant::now(), f64::INFINITY);
    while start.elapsed() < Duration::from_secs(2) {
        shortest = shortest.min(timing::batch(call, 100));
    }
    println!("{shortest:.1} ns");
}

/// Makes one call again and again, for a profiler.
fn repeat(stage: &str, input: &str, size: usize, calls: Option<usize>) {
    let (make, outline): (fn(usize) -> Outlines, usize) = match input {
        "star" => (shapes::star, 0),
        "comb" => (shapes::comb, 1),
        "arcs" => (shapes::round_star, 0),
        "wave" => (shapes::wave, 0),
        "whole" => (shapes::whole_comb, 1),
        _ => panic!("the inputs are star, comb and arcs, and in whole numbers wave and whole"),
    };
    let many = |call: &mut dyn FnMut()| call_again(calls, call);
    if stage.ends_with("area") {
        let (areas, record) = (areas_of(size), Record::new(TOLERANCE, 2.0));
        let (mut kept, mut list) = (vec![0; size], Vec::with_capacity(size));
        match stage {
            "area" => many(&mut || done(ours::area_pass(black_box(&areas), &record, &mut kept))),
            "rust-area" => {
                many(&mut || plain_area_pass(black_box(&areas), black_box(2.0), &mut list));
            }
            _ => panic!("there is no stage {stage}"),
        }
        return;
    }
    if stage.ends_with("stitch") {
        let job = pruned(make(size), UNION);
        let mut room = StitchRoom::new(&job.slices);
        let slices = &job.slices;
        let record = Record::new(TOLERANCE, 0.0);
        let theirs = scan::Stitch::new(&job.outlines, slices, TOLERANCE);
        match stage {
            "stitch" => {
                many(&mut || done(ours::stitch(&job.outlines, slices, 0, &record, &mut room)));
            }
            "rust-stitch" => many(&mut || done(theirs.run(0))),
            _ => panic!("there is no stage {stage}"),
        }
        return;
    }
    let input = Input::new(make(size), size);
    let (pair, shared) = (&input.pair, &input.shared);
    let mut rooms = [input.room(0), input.room(1)];
    let inside = [rooms[0].inside.clone(), rooms[1].inside.clone()];
    let mut slices = input.slice_room(&rooms);
    let room = &mut rooms[outline];
    match stage {
        "order" => many(&mut || ours::cut_order(pair, outline, room)),
        "candidates" => many(&mut || ours::candidates(pair, outline, room)),
        "along" => many(&mut || ours::candidates_along(pair, outline, room)),
        "ordered-slicing" => many(&mut || shared.our_candidates_in_order(pair, outline, room)),
        "splits" => many(&mut || shared.split_cuts(outline, room)),
        "midpoints" => many(&mut || shared.use_midpoints(room)),
        "slicing" => many(&mut || shared.our_candidates(pair, outline, room)),
        "straight" => {
            let mut slices = ours::straight_room(pair);
            many(&mut || done(ours::straight_slices(pair, UNION, &mut slices)));
        }
        "rust-straight" => many(&mut || done(shared.prune(UNION))),
        "pruning" => many(&mut || our_pruning(&input, &mut rooms, &mut slices)),
        "host" => many(&mut || host_calls(&input, &mut rooms, &mut slices)),
        "rust-host" => many(&mut || done(shared.prune(UNION))),
        "rust-order" => many(&mut || shared.cut_order(&input.order, outline)),
        "rust-slicing" => many(&mut || done(shared.candidates(outline))),
        "rust-pruning" => {
            let inside = [&inside[0][..], &inside[1][..]];
            many(&mut || done(shared.prune_answered(UNION, inside)));
        }
        _ => panic!("there is no stage {stage}"),
    }
}

/// Times what comes before the stitch.
fn cuts() {
    let (families, more) = (families(), more_families());
    cut_order(&families[..2]);
    cut_order(&more);
    cut_order_growth();
    candidates(&families);
    candidates(&more);
    prune(&families);
    prune(&more);
}

/// Times every stage, and tells each ratio and time in a line.
fn time_all() {
    cuts();
    straight();
    stitch();
    stitch_growth();
    area_pass();
    view_vertices();
}

/// What a process of this program tells, which times every stage, or the one that is named.
fn told_by_a_process(stage: Option<&str>) -> String {
    let program = std::env::current_exe().expect("this program cannot be found");
    let output = Command::new(program).arg("once").args(stage).output();
    let output = output.expect("this program cannot be run again");
    let errors = String::from_utf8_lossy(&output.stderr);
    assert!(output.status.success(), "{errors}");
    String::from_utf8(output.stdout).expect("text")
}

/// Times differ from process to process, so several are asked.
fn told(stage: Option<&str>) -> (Vec<Table>, [plot::Panel; 4]) {
    let (mut tables, mut panels) = (tables::all(), plot::panels());
    for _ in 0..PROCESSES {
        for line in told_by_a_process(stage).lines() {
            let words: Vec<&str> = line.split('\t').collect();
            let number = |i: usize| words[i].parse::<f64>().expect("a number");
            let (title, input, size) = (words[1], words[2], number(3) as usize);
            match words[0] {
                "ratio" => tables::add(&mut tables, title, input, size, number(4)),
                _ => plot::add(
                    &mut panels,
                    title,
                    input,
                    size,
                    number(4) as usize,
                    number(5),
                ),
            }
        }
    }
    (tables, panels)
}

fn compare(to: &str) {
    let (tables, panels) = told(None);
    tables::print_goal(&tables);
    tables::print_above(&tables);
    tables.iter().for_each(Table::print);
    tables::print_spread(&tables);
    std::fs::write(to, plot::svg(&panels)).expect("the plot cannot be written");
}

/// The tables of straight masks alone.
fn compare_straight() {
    let (mut tables, _) = told(Some("straight"));
    tables.retain(|table| !table.is_empty());
    tables.iter().for_each(Table::print);
    tables::print_spread(&tables);
}

fn main() {
    let arguments: Vec<String> = std::env::args().skip(1).collect();
    let arguments: Vec<&str> = arguments.iter().map(String::as_str).collect();
    let number = |text: &str| text.parse().expect("a number");
    match arguments[..] {
        ["repeat", stage, input, size] => repeat(stage, input, number(size), None),
        ["repeat", stage, input, size, calls] => {
            repeat(stage, input, number(size), Some(number(calls)));
        }
        ["once"] => time_all(),
        ["once", "cuts"] => cuts(),
        ["once", "straight"] => straight(),
        ["once", "stitch"] => stitch(),
        ["once", "area"] => area_pass(),
        ["once", "growth"] => {
            cut_order_growth();
            stitch_growth();
        }
        ["straight"] => compare_straight(),
        [to] => compare(to),
        _ => panic!(
            "usage: bench FILE.svg, bench [once] straight, bench once [cuts | stitch | area | growth], or \
             bench repeat STAGE INPUT SIZE [CALLS]"
        ),
    }
}
