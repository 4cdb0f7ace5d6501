//! What the original makes of a call that is accepted, in the form of the archive's outcome.
//!
//! Compared directly, value by value as the original returns them: the vertices of a view, the five
//! constructors, the verdict, the candidates, the pruned slices with their starts, the loops.
//! The order of cuts is asked of the private function itself, in a second copy of its file.
//! Compared through what can be seen:
//! - number of arrival of a cut: the original does not keep it. Each intersection and overlap is asked
//!   alone, which tells its segment and marks; then each cut in order is given the lowest number not
//!   yet given whose segment, point and mark are its own. So two cuts alike in all three are told
//!   apart by the rule of document 01, not by the original.
//! - the span of two points: from the view that the original gives where every split lies far away, and
//!   from how often it asks for one.
//! - probes: the two vertices handed to `seg_midpoint`.
//! - rounds: one query of the spatial index each.
//! - chains: from what the selector is asked and answers, round by round. The first slice of a chain
//!   is the lowest one in no chain before; where the selector is asked, it must be that one.
//! - how a chain ended: no selector asked (no candidate), none selected, or back at its first slice;
//!   then it is closed where the loop was set closed in that round, else too small.
//! - area pass: slices that each close on themselves, whose loops answer the areas of the call.
//! - prune: the original slices and prunes in one go. `prune_of` leaves it both, from the outlines that
//!   the candidates came of. `prune` makes it slice any candidates: their numbers, order and answers
//!   go through the original, start and offset are put back by the candidate's number.

use crate::call::{Call, Entry, Outcome, Reader, numbers_of};
use crate::refusal::stitch_vertices;
use crate::stages::{self, Info, Selector, Slice};
use cavalier_contours::core::math::Vector2;
use cavalier_contours::polyline::internal::pline_boolean::{
    PrunedSlices, SliceStarts, StitchSelector,
};
use cavalier_contours::polyline::watch::{Host, set_host};
use cavalier_contours::polyline::{
    PlineCreation, PlineSource, PlineSourceMut, PlineVertex, PlineViewData, Polyline, SplitResult,
    ViewDataValidation,
};
use static_aabb2d_index::queries;
use std::cell::{Cell, RefCell};
use std::collections::VecDeque;
use std::rc::Rc;

/// The original's outcome of an accepted call.
pub fn answer(call: &Call) -> Outcome {
    let r = &mut call.read();
    match call.entry {
        Entry::ViewVertex => view_vertex(r),
        Entry::Create => create(r),
        Entry::CreateOnSingleSegment => create_on_single_segment(r),
        Entry::FromEntirePline => from_entire_pline(r),
        Entry::ValidateForSource => validate_for_source(r).0,
        Entry::Reopen => reopen(r),
        Entry::Unmoved => unmoved(r),
        Entry::CutOrder => cut_order(r, &call.lent),
        Entry::Candidates => candidates(r, &call.lent, true),
        Entry::Prune => prune(call),
        Entry::Stitch => stitch(r, &call.lent),
        Entry::AreaPass => area_pass(r, &call.lent),
        Entry::ViewVertices => view_vertices(r, &call.lent),
        Entry::SliceSpan => slice_span(r),
        Entry::FromSlicePoints => from_slice_points(r),
        Entry::FromNewStart => from_new_start(r),
    }
}

/// Runs with a host in place of the crate's helpers.
pub fn with_host<A>(host: impl Host + 'static, run: impl FnOnce() -> A) -> A {
    struct Unset;
    impl Drop for Unset {
        fn drop(&mut self) {
            set_host(None);
        }
    }
    set_host(Some(Box::new(host)));
    let _unset = Unset;
    run()
}

fn counts_of(words: &[u64]) -> Vec<usize> {
    words.iter().map(|w| *w as usize).collect()
}

fn vertex(r: &mut Reader) -> PlineVertex {
    let [x, y, bulge] = r.some();
    PlineVertex::new(x, y, bulge)
}

fn point(r: &mut Reader) -> Vector2 {
    let [x, y] = r.some();
    Vector2::new(x, y)
}

fn split(r: &mut Reader) -> SplitResult {
    SplitResult {
        updated_start: vertex(r),
        split_vertex: vertex(r),
    }
}

fn view(r: &mut Reader) -> PlineViewData {
    let (start, offset) = (r.count(), r.count());
    let numbers: [f64; 6] = r.some();
    stages::view_data(start, offset, &numbers, r.code() == 1)
}

fn vertex_words(v: PlineVertex) -> [u64; 3] {
    [v.x.to_bits(), v.y.to_bits(), v.bulge.to_bits()]
}

fn view_answer(view: Option<PlineViewData>) -> Outcome {
    let mut answer = vec![0, u64::from(view.is_some())];
    if let Some(view) = view {
        answer.extend([view.start_index as u64, view.end_index_offset as u64]);
        answer.extend(stages::view_numbers(&view).map(f64::to_bits));
        answer.push(u64::from(view.inverted_direction));
    }
    answer.resize(11, 0);
    Outcome {
        answer,
        lent: Vec::new(),
    }
}

/// A lent list at exit: the items, 0 up to the need, and beyond it what was there.
pub fn written(at_entry: &[u64], items: &[u64], need: usize) -> Vec<u64> {
    let mut list = items.to_vec();
    assert!(list.len() <= need, "more items than the need");
    list.resize(need, 0);
    list.extend_from_slice(&at_entry[need..]);
    list
}

fn view_vertex(r: &mut Reader) -> Outcome {
    let pline = stages::outline(&numbers_of(r.list()));
    r.count();
    let view = view(r);
    let vertex = stages::view_vertex(&pline, view, r.count());
    let mut answer = vec![0, u64::from(vertex.is_some())];
    answer.extend(vertex.map_or([0; 3], vertex_words));
    Outcome {
        answer,
        lent: Vec::new(),
    }
}

/// The vertices that the original's own iteration over a view gives.
fn view_vertices(r: &mut Reader, lent: &[Vec<u64>]) -> Outcome {
    let pline = stages::outline(&numbers_of(r.list()));
    r.count();
    let vertices = stages::view_vertices(&pline, view(r));
    let words: Vec<u64> = vertices.iter().flat_map(|v| vertex_words(*v)).collect();
    Outcome {
        answer: vec![0, vertices.len() as u64],
        lent: vec![written(&lent[0], &words, words.len())],
    }
}

/// Answers every split with the one that the call supplies.
struct OneSplit(SplitResult);

impl Host for OneSplit {
    fn split(&mut self, _: PlineVertex, _: PlineVertex, _: Vector2) -> Option<SplitResult> {
        Some(self.0)
    }

    fn closest(&mut self, _: PlineVertex, _: PlineVertex, _: Vector2) -> Option<Vector2> {
        None
    }

    fn midpoint(&mut self, _: PlineVertex, _: PlineVertex) {}
}

fn create(r: &mut Reader) -> Outcome {
    let pline = stages::outline(&numbers_of(r.list()));
    r.count();
    let start_index = r.count();
    let end_intersect = point(r);
    let intersect_index = r.count();
    let updated_start = vertex(r);
    let (traverse_count, tolerance) = (r.count(), r.tolerance());
    let view = with_host(OneSplit(split(r)), || {
        stages::create(
            &pline,
            start_index,
            end_intersect,
            intersect_index,
            updated_start,
            traverse_count,
            tolerance,
        )
    });
    view_answer(Some(view))
}

fn create_on_single_segment(r: &mut Reader) -> Outcome {
    let pline = stages::outline(&numbers_of(r.list()));
    r.count();
    let start_index = r.count();
    let updated_start = vertex(r);
    let end_intersect = point(r);
    view_answer(stages::create_on_single_segment(
        &pline,
        start_index,
        updated_start,
        end_intersect,
        r.tolerance(),
    ))
}

fn from_entire_pline(r: &mut Reader) -> Outcome {
    let vertices = stages::vertices(&numbers_of(r.list()));
    r.count();
    let pline = Polyline::from_vertexes(vertices, r.code() == 1);
    view_answer(Some(stages::from_entire_pline(&pline)))
}

/// Answers every split with one that lies far away, and counts how often it is asked.
struct FarSplits(Rc<Cell<usize>>);

impl Host for FarSplits {
    fn split(&mut self, _: PlineVertex, _: PlineVertex, _: Vector2) -> Option<SplitResult> {
        self.0.set(self.0.get() + 1);
        let far = PlineVertex::new(f64::INFINITY, f64::INFINITY, 0.0);
        Some(SplitResult {
            updated_start: far,
            split_vertex: far,
        })
    }

    fn closest(&mut self, _: PlineVertex, _: PlineVertex, _: Vector2) -> Option<Vector2> {
        None
    }

    fn midpoint(&mut self, _: PlineVertex, _: PlineVertex) {}
}

/// Whether the start moved, its segment then, and the traverse count.
struct Span {
    moved: bool,
    start_index: usize,
    traverse_count: usize,
}

/// The original's span of two points. No split that lies far away agrees with the end, so there is
/// no view only where the start moved onto a vertex that agrees with it, one segment before it. Else the
/// view has the start's segment, which is another one where the start moved. The start's split is asked
/// for unless it moved, and the end's unless the end stands on its vertex after a walk, which takes one
/// off the offset.
fn span_of(
    pline: &Polyline,
    start: (usize, Vector2),
    end: (usize, Vector2),
    tolerance: f64,
) -> Span {
    let asked = Rc::new(Cell::new(0));
    let view = with_host(FarSplits(asked.clone()), || {
        stages::from_slice_points(pline, start, end, tolerance)
    });
    let Some(view) = view else {
        return Span {
            moved: true,
            start_index: pline.next_wrapping_index(start.0),
            traverse_count: 1,
        };
    };
    let moved = view.start_index != start.0;
    let end_asked = asked.get() > usize::from(!moved);
    Span {
        moved,
        start_index: view.start_index,
        traverse_count: view.end_index_offset + usize::from(!end_asked),
    }
}

/// Answers one split after the other.
struct InTurn(VecDeque<SplitResult>);

impl Host for InTurn {
    fn split(&mut self, _: PlineVertex, _: PlineVertex, _: Vector2) -> Option<SplitResult> {
        Some(self.0.pop_front().expect("no split is asked for twice"))
    }

    fn closest(&mut self, _: PlineVertex, _: PlineVertex, _: Vector2) -> Option<Vector2> {
        None
    }

    fn midpoint(&mut self, _: PlineVertex, _: PlineVertex) {}
}

/// The splits in the order in which they are asked for: a start that moved asks for none.
fn in_turn(span: &Span, start: SplitResult, end: SplitResult) -> InTurn {
    InTurn(if span.moved {
        [end].into()
    } else {
        [start, end].into()
    })
}

/// The outline of a call, open or closed.
fn open_or_closed(r: &mut Reader) -> Polyline {
    let numbers = numbers_of(r.list());
    r.count();
    stages::open_or_closed(&numbers, r.code() == 1)
}

fn place(r: &mut Reader) -> (usize, Vector2) {
    (r.count(), point(r))
}

fn slice_span(r: &mut Reader) -> Outcome {
    let pline = open_or_closed(r);
    let span = span_of(&pline, place(r), place(r), r.tolerance());
    Outcome {
        answer: vec![
            0,
            u64::from(span.moved),
            span.start_index as u64,
            span.traverse_count as u64,
        ],
        lent: Vec::new(),
    }
}

fn from_slice_points(r: &mut Reader) -> Outcome {
    let pline = open_or_closed(r);
    let (start, end, tolerance) = (place(r), place(r), r.tolerance());
    let span = span_of(&pline, start, end, tolerance);
    let splits = in_turn(&span, split(r), split(r));
    view_answer(with_host(splits, || {
        stages::from_slice_points(&pline, start, end, tolerance)
    }))
}

fn from_new_start(r: &mut Reader) -> Outcome {
    let pline = open_or_closed(r);
    let (start, tolerance) = (place(r), r.tolerance());
    let (start_split, end_split) = (split(r), split(r));
    let splits = if pline.is_closed() {
        InTurn([start_split].into())
    } else {
        let last = pline.vertex_count() - 1;
        let end = (last, pline.at(last).pos());
        let span = span_of(&pline, start, end, tolerance);
        in_turn(&span, start_split, end_split)
    };
    view_answer(with_host(splits, || {
        stages::from_new_start(&pline, start, tolerance)
    }))
}

/// What the original gives with its own splits.
pub fn with_own_splits(view: Option<PlineViewData>) -> Outcome {
    view_answer(view)
}

/// An outline that the host stands behind: it counts how often a vertex is read, and it may answer
/// in place of the winding number.
pub struct HostOutline {
    pline: Polyline,
    reads: Rc<Cell<usize>>,
    inside: RefCell<Option<VecDeque<bool>>>,
}

impl HostOutline {
    pub fn new(numbers: &[f64]) -> HostOutline {
        HostOutline {
            pline: stages::outline(numbers),
            reads: Rc::new(Cell::new(0)),
            inside: RefCell::new(None),
        }
    }

    /// The answers to give, one for each question in turn.
    pub fn answering(numbers: &[f64], inside: Vec<bool>) -> HostOutline {
        let outline = HostOutline::new(numbers);
        outline.inside.replace(Some(inside.into()));
        outline
    }
}

impl PlineSource for HostOutline {
    type Num = f64;
    type OutputPolyline = Polyline;

    fn get_userdata_count(&self) -> usize {
        0
    }

    fn get_userdata_values(&self) -> impl Iterator<Item = u64> + '_ {
        std::iter::empty()
    }

    fn vertex_count(&self) -> usize {
        self.pline.vertex_count()
    }

    fn is_closed(&self) -> bool {
        true
    }

    fn get(&self, index: usize) -> Option<PlineVertex> {
        self.pline.get(index)
    }

    fn at(&self, index: usize) -> PlineVertex {
        self.reads.set(self.reads.get() + 1);
        self.pline.at(index)
    }

    fn winding_number(&self, point: Vector2) -> i32 {
        match self.inside.borrow_mut().as_mut() {
            Some(answers) => i32::from(answers.pop_front().expect("one answer per candidate")),
            None => self.pline.winding_number(point),
        }
    }
}

/// Answers "on the segment" with the point itself, and "not on it" with a point far away. The start
/// is asked after two vertices were read, the end after four.
struct OnSegment {
    reads: Rc<Cell<usize>>,
    start: bool,
    end: bool,
}

impl Host for OnSegment {
    fn split(&mut self, _: PlineVertex, _: PlineVertex, _: Vector2) -> Option<SplitResult> {
        None
    }

    fn closest(&mut self, _: PlineVertex, _: PlineVertex, point: Vector2) -> Option<Vector2> {
        let yes = match self.reads.get() {
            2 => self.start,
            4 => self.end,
            other => panic!("the closest point is asked after {other} reads"),
        };
        let far = Vector2::new(f64::INFINITY, f64::INFINITY);
        Some(if yes { point } else { far })
    }

    fn midpoint(&mut self, _: PlineVertex, _: PlineVertex) {}
}

/// The verdict, and the editions of the outline and of the view, which the original has not.
fn validate_for_source(r: &mut Reader) -> (Outcome, [u64; 2]) {
    let pline = HostOutline::new(&numbers_of(r.list()));
    r.count();
    let edition = r.word();
    let view = view(r);
    let editions = [edition, r.word()];
    let host = OnSegment {
        reads: pline.reads.clone(),
        start: r.code() == 1,
        end: r.code() == 1,
    };
    let verdict = with_host(host, || stages::validate(&pline, &view));
    (verdict_answer(verdict), editions)
}

/// The same verdict; "only 'valid' gives the slice the new edition".
fn reopen(r: &mut Reader) -> Outcome {
    let (mut outcome, [edition, own]) = validate_for_source(r);
    let is_valid = outcome.answer[1] == 7;
    outcome.answer.push(if is_valid { edition } else { own });
    outcome
}

/// The original's vertices of the view on both outlines, compared as bits.
fn unmoved(r: &mut Reader) -> Outcome {
    let [old, new] = [0; 2].map(|_| {
        let pline = stages::outline(&numbers_of(r.list()));
        r.count();
        pline
    });
    let view = view(r);
    let [old, new] = [old, new].map(|pline| stages::view_vertices(&pline, view));
    let differs = |k: &usize| vertex_words(old[*k]) != vertex_words(new[*k]);
    let first = (0..old.len()).find(differs);
    Outcome {
        answer: vec![0, u64::from(first.is_none()), first.unwrap_or(0) as u64],
        lent: Vec::new(),
    }
}

/// The verdict as the archive's answer.
pub fn verdict_answer(verdict: ViewDataValidation<f64>) -> Outcome {
    let mut answer = vec![0; 11];
    match verdict {
        ViewDataValidation::SourceHasNoSegments => answer[1] = 1,
        ViewDataValidation::OffsetOutOfRange {
            offset,
            source_length,
        } => answer[1..4].copy_from_slice(&[2, offset as u64, source_length as u64]),
        ViewDataValidation::UpdatedStartNotOnSegment { start_point } => {
            answer[1] = 3;
            answer[4..6].copy_from_slice(&[start_point.x.to_bits(), start_point.y.to_bits()]);
        }
        ViewDataValidation::EndPointNotOnSegment { end_point } => {
            answer[1] = 4;
            answer[4..6].copy_from_slice(&[end_point.x.to_bits(), end_point.y.to_bits()]);
        }
        ViewDataValidation::EndPointOnFinalOffsetVertex {
            end_point,
            final_offset_vertex,
        } => {
            answer[1] = 5;
            answer[4..6].copy_from_slice(&[end_point.x.to_bits(), end_point.y.to_bits()]);
            answer[6..9].copy_from_slice(&vertex_words(final_offset_vertex));
        }
        ViewDataValidation::UpdatedBulgeDoesNotMatch {
            updated_bulge,
            expected,
        } => {
            answer[1] = 6;
            answer[9..11].copy_from_slice(&[updated_bulge.to_bits(), expected.to_bits()]);
        }
        ViewDataValidation::IsValid => answer[1] = 7,
    }
    Outcome {
        answer,
        lent: Vec::new(),
    }
}

/// One cut, as the original's lookup holds it, with the number of arrival that we found for it.
#[derive(Debug, Clone, Copy)]
pub struct Cut {
    pub segment: usize,
    pub marked: bool,
    pub arrival: usize,
    pub point: Vector2,
}

/// What the two entries of one outline share, read from a call.
struct OneOutline {
    pline: Polyline,
    edition: u64,
    second: bool,
    hit_at: Vec<usize>,
    hit: Vec<f64>,
    lap_at: Vec<usize>,
    lap: Vec<f64>,
}

impl OneOutline {
    /// The candidates have the outline's edition before the source; the cut order has none.
    fn read(r: &mut Reader, has_edition: bool) -> OneOutline {
        let pline = stages::outline(&numbers_of(r.list()));
        r.count();
        let edition = if has_edition { r.word() } else { 0 };
        let second = r.code() == 2;
        let (hit_at, hit) = (counts_of(r.list()), numbers_of(r.list()));
        r.count();
        let (lap_at, lap) = (counts_of(r.list()), numbers_of(r.list()));
        r.count();
        OneOutline {
            pline,
            edition,
            second,
            hit_at,
            hit,
            lap_at,
            lap,
        }
    }

    fn info(&self) -> Info {
        stages::info(&self.hit_at, &self.hit, &self.lap_at, &self.lap, false)
    }

    fn need(&self) -> usize {
        self.hit_at.len() / 2 + 2 * (self.lap_at.len() / 7)
    }
}

/// Segment, point and mark of a cut. Two cuts that agree here are alike to the original.
type Alike = (usize, [u64; 2], bool);

fn alike(segment: usize, point: Vector2, marked: bool) -> Alike {
    (segment, [point.x.to_bits(), point.y.to_bits()], marked)
}

/// What each arrival becomes, in order of arrival: each intersection and each overlap asked alone.
fn arrivals(pline: &Polyline, info: &Info, second: bool, tolerance: f64) -> Vec<Alike> {
    let ask = |hits, laps| {
        let alone = Info {
            intersects: hits,
            overlapping_slices: laps,
            ..*info
        };
        let mut cuts = Vec::new();
        for (segment, list) in stages::cut_order(pline, alone, second, tolerance) {
            cuts.extend(list.iter().map(|(p, marked)| alike(segment, *p, *marked)));
        }
        cuts
    };
    let mut all = Vec::new();
    for hit in &info.intersects {
        all.extend(ask(vec![*hit], Vec::new()));
    }
    for lap in &info.overlapping_slices {
        // Of the two cuts exactly one is marked. The start comes first: on outline 2 and where the
        // overlap is not opposing it is the marked one.
        let mut both = ask(Vec::new(), vec![*lap]);
        let start_is_marked = second || !lap.opposing_directions;
        both.sort_by_key(|cut| cut.2 != start_is_marked);
        all.extend(both);
    }
    all
}

/// The cuts of one outline in the original's order.
pub fn cuts(pline: &Polyline, info: &Info, second: bool, tolerance: f64) -> Vec<Cut> {
    let arrivals = arrivals(pline, info, second, tolerance);
    let whole = Info {
        intersects: info.intersects.clone(),
        overlapping_slices: info.overlapping_slices.clone(),
        ..*info
    };
    let mut given = vec![false; arrivals.len()];
    let mut cuts = Vec::new();
    for (segment, list) in stages::cut_order(pline, whole, second, tolerance) {
        for (point, marked) in list {
            let kind = alike(segment, point, marked);
            let arrival = (0..arrivals.len())
                .find(|i| !given[*i] && arrivals[*i] == kind)
                .expect("every cut has arrived");
            given[arrival] = true;
            cuts.push(Cut {
                segment,
                marked,
                arrival,
                point,
            });
        }
    }
    cuts
}

fn cut_order(r: &mut Reader, lent: &[Vec<u64>]) -> Outcome {
    let one = OneOutline::read(r, false);
    let cuts = cuts(&one.pline, &one.info(), one.second, r.tolerance());
    let mut cut_at = Vec::new();
    let mut cut = Vec::new();
    for c in &cuts {
        cut_at.extend([c.segment as u64, u64::from(c.marked), c.arrival as u64]);
        cut.extend([c.point.x.to_bits(), c.point.y.to_bits()]);
    }
    let need = one.need();
    Outcome {
        answer: vec![0, cuts.len() as u64],
        lent: vec![
            written(&lent[0], &cut_at, 3 * need),
            written(&lent[1], &cut, 2 * need),
        ],
    }
}

/// A split that the slicing will ask for.
enum Ask {
    /// Of the running vertex at a cut.
    Own(Vector2, SplitResult),
    /// Of the whole segment at its last cut. A walk follows, and may ask for the split of the segment
    /// where it ends, at that segment's first cut.
    Whole(Vector2, SplitResult, SplitResult),
}

/// The splits that one outline's slicing asks for, in the order in which it asks.
fn asks(cuts: &[Cut], splits: &[f64]) -> VecDeque<Ask> {
    let own = |k: usize| {
        let v = stages::vertices(&splits[9 * k..9 * k + 6]);
        SplitResult {
            updated_start: v[0],
            split_vertex: v[1],
        }
    };
    let groups: Vec<(usize, usize)> = groups(cuts);
    let mut asks = VecDeque::new();
    for (g, (first, last)) in groups.iter().enumerate() {
        if first != last {
            asks.extend((*first..=*last).map(|k| Ask::Own(cuts[k].point, own(k))));
        }
        if !cuts[*last].marked {
            let whole = SplitResult {
                updated_start: own(*last).updated_start,
                split_vertex: stages::vertices(&splits[9 * last + 6..9 * last + 9])[0],
            };
            let (end, _) = groups[(g + 1) % groups.len()];
            asks.push_back(Ask::Whole(cuts[*last].point, whole, own(end)));
        }
    }
    asks
}

/// First and last cut of each segment that has one.
pub fn groups(cuts: &[Cut]) -> Vec<(usize, usize)> {
    let mut groups: Vec<(usize, usize)> = Vec::new();
    for (k, cut) in cuts.iter().enumerate() {
        match groups.last_mut() {
            Some((first, last)) if cuts[*first].segment == cut.segment => *last = k,
            _ => groups.push((k, k)),
        }
    }
    groups
}

/// Answers the splits of a slicing from a list, and keeps the probes.
struct Splitter {
    asks: VecDeque<Ask>,
    /// Between the split of a walk's start and its probe: the split at the walk's end.
    walk_end: Option<SplitResult>,
    probes: Rc<RefCell<Vec<[PlineVertex; 2]>>>,
    from_list: bool,
}

impl Host for Splitter {
    fn split(&mut self, _: PlineVertex, _: PlineVertex, point: Vector2) -> Option<SplitResult> {
        if !self.from_list {
            return None;
        }
        if let Some(split) = self.walk_end {
            return Some(split);
        }
        let (asked, split) = match self
            .asks
            .pop_front()
            .expect("one more split than cuts tell")
        {
            Ask::Own(point, split) => (point, split),
            Ask::Whole(point, split, end) => {
                self.walk_end = Some(end);
                (point, split)
            }
        };
        assert!(asked == point, "the split of another cut is asked");
        Some(split)
    }

    fn closest(&mut self, _: PlineVertex, _: PlineVertex, _: Vector2) -> Option<Vector2> {
        None
    }

    fn midpoint(&mut self, v1: PlineVertex, v2: PlineVertex) {
        self.walk_end = None;
        self.probes.borrow_mut().push([v1, v2]);
    }
}

/// The candidates of a call. The splits are the call's, or else the crate's own.
fn candidates(r: &mut Reader, lent: &[Vec<u64>], from_list: bool) -> Outcome {
    let one = OneOutline::read(r, true);
    let splits = numbers_of(r.list());
    let tolerance = r.tolerance();
    let info = one.info();
    let cuts = cuts(&one.pline, &info, one.second, tolerance);
    let probes = Rc::new(RefCell::new(Vec::new()));
    let host = Splitter {
        asks: asks(&cuts, &splits),
        walk_end: None,
        probes: probes.clone(),
        from_list,
    };
    let slices = with_host(host, || {
        stages::slice(&one.pline, &info, one.second, tolerance)
    });
    let probes = probes.take();
    assert!(slices.len() == probes.len(), "one probe per candidate");

    let mut cand_at = Vec::new();
    let mut cand = Vec::new();
    for slice in &slices {
        let view = &slice.view_data;
        assert!(slice.source_is_pline1 != one.second && !view.inverted_direction);
        cand_at.extend([view.start_index as u64, view.end_index_offset as u64]);
        cand.extend(stages::view_numbers(view).map(f64::to_bits));
    }
    let probe: Vec<u64> = probes
        .iter()
        .flatten()
        .flat_map(|v| vertex_words(*v))
        .collect();
    let need = one.need();
    Outcome {
        answer: vec![0, slices.len() as u64],
        lent: vec![
            written(&lent[0], &cand_at, 2 * need),
            written(&lent[1], &cand, 6 * need),
            written(&lent[2], &probe, 6 * need),
            written(&lent[3], &vec![one.edition; slices.len()], need),
        ],
    }
}

/// The candidates with the splits that the crate computes itself. What the call supplies is not read.
pub fn candidates_with_own_splits(call: &Call) -> Outcome {
    candidates(&mut call.read(), &call.lent, false)
}

/// What the original needs to prune, beside the call: it slices the outlines itself.
pub struct PruneSource<'a> {
    pub outline1: &'a [f64],
    pub outline2: &'a [f64],
    pub hit_at: &'a [usize],
    pub hit: &'a [f64],
    pub splits1: &'a [f64],
    pub splits2: &'a [f64],
    pub tolerance: f64,
}

/// The candidates of one outline in a prune's call.
struct Given {
    at: Vec<usize>,
    numbers: Vec<f64>,
    edition: Vec<u64>,
    inside: Vec<bool>,
}

impl Given {
    fn read(r: &mut Reader) -> Given {
        let given = Given {
            at: counts_of(r.list()),
            numbers: numbers_of(r.list()),
            edition: r.list().to_vec(),
            inside: r.list().iter().map(|code| *code == 1).collect(),
        };
        r.word();
        given
    }
}

/// A prune's call.
struct PruneCall {
    mode: u64,
    opposing: bool,
    of1: Given,
    of2: Given,
    lap_at: Vec<usize>,
    lap: Vec<f64>,
    lap_edition: Vec<u64>,
}

impl PruneCall {
    fn read(call: &Call) -> PruneCall {
        let r = &mut call.read();
        let (mode, opposing) = (r.word(), r.code() == 1);
        r.word();
        r.word();
        PruneCall {
            mode,
            opposing,
            of1: Given::read(r),
            of2: Given::read(r),
            lap_at: counts_of(r.list()),
            lap: numbers_of(r.list()),
            lap_edition: r.list().to_vec(),
        }
    }

    /// Which candidates of outline 1, and of outline 2, the mode keeps: the inside ones, or the others.
    fn keeps_inside(&self) -> [bool; 2] {
        [[1, 3], [1, 2]].map(|modes| modes.contains(&self.mode))
    }

    /// The editions of the slices, copied: the original has none. Kept of 1, kept of 2, the overlaps for
    /// 1 and for 2.
    fn editions(&self) -> Vec<u64> {
        let kept = |of: &Given, inside: bool| -> Vec<u64> {
            let all = of.edition.iter().zip(&of.inside);
            all.filter(|(_, is)| **is == inside)
                .map(|(e, _)| *e)
                .collect()
        };
        let [inside1, inside2] = self.keeps_inside();
        let kept = [kept(&self.of1, inside1), kept(&self.of2, inside2)].concat();
        [&kept[..], &self.lap_edition, &self.lap_edition].concat()
    }

    fn need(&self) -> usize {
        self.of1.inside.len() + self.of2.inside.len() + 2 * (self.lap_at.len() / 7)
    }

    /// The original's prune of what it slices from the source. Splits and inside answers are supplied.
    fn run(&self, source: &PruneSource) -> PrunedSlices<f64> {
        let t = source.tolerance;
        let info = stages::info(
            source.hit_at,
            source.hit,
            &self.lap_at,
            &self.lap,
            self.opposing,
        );
        // A candidate of one outline is looked up in the other.
        let pline1 = HostOutline::answering(source.outline1, self.of2.inside.clone());
        let pline2 = HostOutline::answering(source.outline2, self.of1.inside.clone());
        let mut all = asks(&cuts(&pline1.pline, &info, false, t), source.splits1);
        all.extend(asks(&cuts(&pline2.pline, &info, true, t), source.splits2));
        let host = Splitter {
            asks: all,
            walk_end: None,
            probes: Rc::default(),
            from_list: true,
        };
        with_host(host, || {
            stages::prune(&pline1, &pline2, &info, self.mode, t)
        })
    }
}

/// The prune of a call whose candidates came of `source`.
pub fn prune_of(call: &Call, source: &PruneSource) -> Outcome {
    let given = PruneCall::read(call);
    prune_outcome(&given.run(source), given.need(), call)
}

/// The prune of any candidates. Two outlines are made for the purpose: candidate k is the walk from
/// the only cut of segment k to that of segment k + 1. Behind them, segment count + 1 takes the cuts
/// that belong to the other outline and the overlaps. Its pieces have no length, and what is walked
/// from it, or from segment count, gets the answer that drops it.
fn prune(call: &Call) -> Outcome {
    let mut given = PruneCall::read(call);
    let need = given.need();
    let counts = [given.of1.inside.len(), given.of2.inside.len()];
    let behind = counts.map(|count| count + 1);

    let mut hit_at = Vec::new();
    hit_at.extend((0..=counts[0]).flat_map(|k| [k, behind[1]]));
    hit_at.extend((0..=counts[1]).flat_map(|k| [behind[0], k]));
    let hit = [ends_of(&given.of1.numbers), ends_of(&given.of2.numbers)].concat();
    for at in given.lap_at.chunks_exact_mut(7) {
        at[..4].copy_from_slice(&[behind[0], behind[1], behind[0], behind[1]]);
    }

    let outlines = counts.map(far_outline);
    let info = stages::info(&hit_at, &hit, &given.lap_at, &given.lap, given.opposing);
    let splits = |which: usize, numbers: &[f64]| {
        let pline = stages::outline(&outlines[which]);
        let cuts = cuts(&pline, &info, which == 1, CARRIER_TOLERANCE);
        carrier_splits(&cuts, numbers)
    };
    let source = PruneSource {
        outline1: &outlines[0],
        outline2: &outlines[1],
        hit_at: &hit_at,
        hit: &hit,
        splits1: &splits(0, &given.of1.numbers),
        splits2: &splits(1, &given.of2.numbers),
        tolerance: CARRIER_TOLERANCE,
    };
    let keeps_inside = given.keeps_inside();
    given.of1.inside.extend([!keeps_inside[0]; 2]);
    given.of2.inside.extend([!keeps_inside[1]; 2]);

    let mut pruned = given.run(&source);
    let starts = pruned.starts;
    for (i, slice) in pruned.slices_remaining.iter_mut().enumerate() {
        if i < starts.pline1_overlapping {
            let of = if i < starts.pline2 {
                &given.of1
            } else {
                &given.of2
            };
            let view = &mut slice.view_data;
            assert!(view.end_index_offset == 1, "another walk than was laid out");
            let number = view.start_index;
            view.start_index = of.at[2 * number];
            view.end_index_offset = of.at[2 * number + 1];
        }
    }
    prune_outcome(&pruned, need, call)
}

const CARRIER_TOLERANCE: f64 = 0.5;

/// The points of the cuts on segments 0, 1, ..: any for the first, then each candidate's end.
fn ends_of(numbers: &[f64]) -> Vec<f64> {
    let mut points = vec![0.0, 0.0];
    points.extend(numbers.chunks_exact(6).flat_map(|n| [n[4], n[5]]));
    points
}

/// An outline with a segment for each candidate and two more. No allowed number is near its vertices.
fn far_outline(count: usize) -> Vec<f64> {
    [1e300, 1e300, 0.0].repeat(count + 2)
}

/// Splits by which the walk from segment k has candidate k's numbers. All others have no length.
fn carrier_splits(cuts: &[Cut], numbers: &[f64]) -> Vec<f64> {
    let count = numbers.len() / 6;
    let mut splits = vec![0.0; 9 * cuts.len()];
    for (cut, split) in cuts.iter().zip(splits.chunks_exact_mut(9)) {
        let k = cut.segment;
        if (1..=count).contains(&k) {
            split[2] = numbers[6 * (k - 1) + 3];
        }
        if k < count {
            split[6..9].copy_from_slice(&numbers[6 * k..6 * k + 3]);
        }
    }
    splits
}

/// The pruned slices as the archive's outcome. The editions are the call's.
pub fn prune_outcome(pruned: &PrunedSlices<f64>, need: usize, call: &Call) -> Outcome {
    let (lent, editions) = (&call.lent, PruneCall::read(call).editions());
    assert!(
        pruned.slices_remaining.len() == editions.len(),
        "another number of slices than candidates kept and overlaps"
    );
    let mut slice_at = Vec::new();
    let mut slice = Vec::new();
    for s in &pruned.slices_remaining {
        let view = &s.view_data;
        slice_at.extend([
            if s.source_is_pline1 { 1 } else { 2 },
            u64::from(view.inverted_direction),
            view.start_index as u64,
            view.end_index_offset as u64,
        ]);
        slice.extend(stages::view_numbers(view).map(f64::to_bits));
    }
    let starts = pruned.starts;
    Outcome {
        answer: vec![
            0,
            pruned.slices_remaining.len() as u64,
            starts.pline2 as u64,
            starts.pline1_overlapping as u64,
            starts.pline2_overlapping as u64,
        ],
        lent: vec![
            written(&lent[0], &slice_at, 4 * need),
            written(&lent[1], &slice, 6 * need),
            written(&lent[2], &editions, need),
        ],
    }
}

thread_local! {
    /// The query after which each loop was set closed.
    static CLOSED_AFTER: RefCell<Vec<usize>> = const { RefCell::new(Vec::new()) };
    /// How many loops were begun, and the areas that they answer, by number.
    static BEGUN: Cell<usize> = const { Cell::new(0) };
    static AREAS: RefCell<Vec<f64>> = const { RefCell::new(Vec::new()) };
}

/// A loop in the making: a polyline that tells when it is closed, and answers the host's area.
#[derive(Debug, Clone)]
struct Loop {
    pline: Polyline,
    number: usize,
}

impl PlineSource for Loop {
    type Num = f64;
    type OutputPolyline = Polyline;

    fn get_userdata_count(&self) -> usize {
        0
    }

    fn get_userdata_values(&self) -> impl Iterator<Item = u64> + '_ {
        std::iter::empty()
    }

    fn vertex_count(&self) -> usize {
        self.pline.vertex_count()
    }

    fn is_closed(&self) -> bool {
        self.pline.is_closed()
    }

    fn get(&self, index: usize) -> Option<PlineVertex> {
        self.pline.get(index)
    }

    fn at(&self, index: usize) -> PlineVertex {
        self.pline.at(index)
    }

    fn area(&self) -> f64 {
        AREAS.with(|areas| areas.borrow()[self.number])
    }
}

impl PlineSourceMut for Loop {
    fn set_userdata_values(&mut self, _: impl IntoIterator<Item = u64>) {}

    fn add_userdata_values(&mut self, _: impl IntoIterator<Item = u64>) {}

    fn set_vertex(&mut self, index: usize, vertex: PlineVertex) {
        self.pline.set_vertex(index, vertex);
    }

    fn insert_vertex(&mut self, index: usize, vertex: PlineVertex) {
        self.pline.insert_vertex(index, vertex);
    }

    fn remove(&mut self, index: usize) -> PlineVertex {
        self.pline.remove(index)
    }

    fn clear(&mut self) {
        self.pline.clear();
    }

    fn add_vertex(&mut self, vertex: PlineVertex) {
        self.pline.add_vertex(vertex);
    }

    fn extend_vertexes<I>(&mut self, vertexes: I)
    where
        I: IntoIterator<Item = PlineVertex>,
    {
        self.pline.extend_vertexes(vertexes);
    }

    fn reserve(&mut self, additional: usize) {
        self.pline.reserve(additional);
    }

    fn set_is_closed(&mut self, is_closed: bool) {
        CLOSED_AFTER.with(|closed| closed.borrow_mut().push(queries()));
        self.pline.set_is_closed(is_closed);
    }
}

impl PlineCreation for Loop {
    fn with_capacity(capacity: usize, is_closed: bool) -> Self {
        BEGUN.set(BEGUN.get() + 1);
        Loop {
            pline: Polyline::with_capacity(capacity, is_closed),
            number: BEGUN.get() - 1,
        }
    }

    fn from_iter<I>(_: I, _: bool) -> Self
    where
        I: Iterator<Item = PlineVertex>,
    {
        unreachable!("the stitch begins a loop empty")
    }
}

/// A round in which the selector was asked.
struct Selected {
    query: usize,
    current: usize,
    answer: Option<usize>,
}

/// Passes every question on to a selector, and keeps it.
struct Recorder<'a> {
    selector: &'a Selector,
    asked: RefCell<Vec<Selected>>,
}

impl StitchSelector for Recorder<'_> {
    fn select(&self, current_slice_idx: usize, available_idx: &[usize]) -> Option<usize> {
        let answer = self.selector.select(current_slice_idx, available_idx);
        self.asked.borrow_mut().push(Selected {
            query: queries(),
            current: current_slice_idx,
            answer,
        });
        answer
    }
}

/// A chain's slices in order, and how it ended.
pub struct Chain {
    pub slices: Vec<usize>,
    pub how: u64,
}

pub struct Stitched {
    pub rounds: usize,
    pub loops: Vec<Vec<PlineVertex>>,
    pub chains: Vec<Chain>,
}

const CLOSED: u64 = 0;
const TOO_SMALL: u64 = 1;
const NO_CANDIDATE: u64 = 2;
const NOT_SELECTED: u64 = 3;

/// The original's stitch, watched.
pub fn stitch_watched(
    slices: &[Slice],
    pline1: &Polyline,
    pline2: &Polyline,
    selector: &Selector,
    tolerance: f64,
) -> Stitched {
    let before = queries();
    CLOSED_AFTER.with(|closed| closed.borrow_mut().clear());
    let recorder = Recorder {
        selector,
        asked: RefCell::new(Vec::new()),
    };
    let results: Vec<_> =
        stages::stitch::<_, Loop>(slices, pline1, pline2, &recorder, tolerance, None);
    let rounds = queries() - before;
    let closed_after = CLOSED_AFTER.with(|closed| closed.borrow().clone());
    let mut asked = recorder.asked.into_inner().into_iter().peekable();

    let mut chained = vec![false; slices.len()];
    let mut chains: Vec<Chain> = Vec::new();
    let mut running: Option<Chain> = None;
    for query in before + 1..=before + rounds {
        let chain = running.get_or_insert_with(|| {
            let first = chained.iter().position(|c| !c).expect("an unchained slice");
            chained[first] = true;
            Chain {
                slices: vec![first],
                how: NO_CANDIDATE,
            }
        });
        let (first, current) = (chain.slices[0], *chain.slices.last().unwrap());
        let ended = match asked.next_if(|round| round.query == query) {
            None => Some(NO_CANDIDATE),
            Some(round) => {
                assert!(round.current == current, "the selector sees another slice");
                match round.answer {
                    None => Some(NOT_SELECTED),
                    Some(next) if next == first => Some(if closed_after.contains(&query) {
                        CLOSED
                    } else {
                        TOO_SMALL
                    }),
                    Some(next) => {
                        assert!(!chained[next], "a slice is taken twice");
                        chained[next] = true;
                        chain.slices.push(next);
                        None
                    }
                }
            }
        };
        if let Some(how) = ended {
            chain.how = how;
            chains.extend(running.take());
        }
    }
    assert!(running.is_none() && chained.iter().all(|c| *c));
    let closed = chains.iter().filter(|chain| chain.how == CLOSED);
    for (chain, result) in closed.zip(&results) {
        assert!(chain.slices.len() == result.subslices.len());
    }
    Stitched {
        rounds,
        loops: results
            .into_iter()
            .map(|r| r.pline.pline.vertex_data)
            .collect(),
        chains,
    }
}

fn stitch(r: &mut Reader, lent: &[Vec<u64>]) -> Outcome {
    let [pline1, pline2] = [0; 2].map(|_| {
        let pline = stages::outline(&numbers_of(r.list()));
        r.count();
        r.edition();
        pline
    });
    let slice_at = r.list();
    let slices = stages::slices(&counts_of(slice_at), &numbers_of(r.list()));
    r.list();
    r.count();
    let starts = SliceStarts {
        pline2: r.count(),
        pline1_overlapping: r.count(),
        pline2_overlapping: r.count(),
    };
    let selector = Selector::new(r.word(), starts);
    let stitched = stitch_watched(&slices, &pline1, &pline2, &selector, r.tolerance());

    let mut room = Vec::new();
    let mut ends = Vec::new();
    for l in &stitched.loops {
        room.extend(l.iter().flat_map(|v| vertex_words(*v)));
        ends.push(room.len() as u64 / 3);
    }
    let mut chain = Vec::new();
    let mut chain_ends = Vec::new();
    let mut chain_how = Vec::new();
    for c in &stitched.chains {
        chain.extend(c.slices.iter().map(|s| *s as u64));
        chain_ends.push(chain.len() as u64);
        chain_how.push(c.how);
    }
    let need = slices.len();
    Outcome {
        answer: vec![
            0,
            stitched.rounds as u64,
            stitched.loops.len() as u64,
            stitched.chains.len() as u64,
        ],
        lent: vec![
            written(&lent[0], &room, 3 * stitch_vertices(slice_at) as usize),
            written(&lent[1], &ends, need),
            written(&lent[2], &chain, need),
            written(&lent[3], &chain_ends, need),
            written(&lent[4], &chain_how, need),
        ],
    }
}

/// Closes every chain at once.
struct Itself;

impl StitchSelector for Itself {
    fn select(&self, current_slice_idx: usize, _: &[usize]) -> Option<usize> {
        Some(current_slice_idx)
    }
}

/// The original drops loops at the end of its stitch. So here are as many slices as areas, each the
/// whole of one triangle, and the loops answer the call's areas.
fn area_pass(r: &mut Reader, lent: &[Vec<u64>]) -> Outcome {
    let areas = numbers_of(r.list());
    let loops = r.count();
    let limit = r.number();
    let triangle = stages::outline(&[0.0, 0.0, 0.0, 4.0, 0.0, 0.0, 0.0, 4.0, 0.0]);
    let whole = Slice {
        view_data: stages::from_entire_pline(&triangle),
        source_is_pline1: true,
        overlapping: false,
    };
    AREAS.with(|held| held.replace(areas));
    BEGUN.set(0);
    let kept = stages::stitch::<_, Loop>(
        &vec![whole; loops],
        &triangle,
        &triangle,
        &Itself,
        0.5,
        Some(limit),
    );
    let numbers: Vec<u64> = kept.iter().map(|l| l.pline.number as u64).collect();
    Outcome {
        answer: vec![0, numbers.len() as u64],
        lent: vec![written(&lent[0], &numbers, loops)],
    }
}
