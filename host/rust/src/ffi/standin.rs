//! A stand-in for the archive, for the tests of this crate's own modules. It works nothing out. It
//! writes down what it was lent, and answers what the test told it to. So these tests show how
//! lists are laid out and lent, and how answers are taken; what the library answers, the tests in
//! `tests` show.

use super::{
    AreaAnswer, CountAnswer, DoneAnswer, EditionAnswer, HandleAnswer, PruneAnswer, ReopenAnswer,
    ReplayAnswer, ReportAnswer, SettingAnswer, SpanAnswer, StitchAnswer, UnmovedAnswer,
    VerdictAnswer, VertexAnswer, View, ViewAnswer, WindingAnswer,
};
use crate::{Point, Split, Vertex};
use std::cell::RefCell;
use std::collections::VecDeque;

/// An argument of a call.
#[derive(Debug, Clone, PartialEq)]
pub(crate) enum Lent {
    Code(u32),
    Count(usize),
    Number(f64),
    Whole(i64),
    Point(Point),
    Vertex(Vertex),
    Split(Split),
    View(View),
    Counts(Vec<usize>),
    Numbers(Vec<f64>),
    Wholes(Vec<i64>),
    Answers(Vec<u8>),
    Editions(Vec<u32>),
    /// A list to be written: its length.
    Room(usize),
}

/// A call that was made.
#[derive(Debug)]
pub(crate) struct Call {
    pub entry: &'static str,
    lent: Vec<(&'static str, Lent)>,
}

impl Call {
    /// The argument of this name.
    pub fn lent(&self, name: &str) -> Lent {
        let found = self.lent.iter().find(|(known, _)| *known == name);
        let (_, lent) = found.unwrap_or_else(|| panic!("{} has no {name}", self.entry));
        lent.clone()
    }
}

/// What to answer to the next call, and what to write into the lists lent for it.
#[derive(Debug)]
pub(crate) struct Reply {
    answer: Answer,
    counts: Vec<Vec<usize>>,
    numbers: Vec<Vec<f64>>,
    editions: Vec<u32>,
    bytes: Vec<u8>,
}

impl Reply {
    /// An answer that writes nothing.
    pub fn of(answer: impl Into<Answer>) -> Reply {
        Reply::writing(answer, vec![], vec![])
    }

    /// An answer that writes the fronts of the lists of counts, and those of the lists of numbers.
    pub fn writing(
        answer: impl Into<Answer>,
        counts: Vec<Vec<usize>>,
        numbers: Vec<Vec<f64>>,
    ) -> Reply {
        Reply {
            answer: answer.into(),
            counts,
            numbers,
            editions: vec![],
            bytes: vec![],
        }
    }

    /// The same, which writes the front of the list of editions too.
    pub fn with_editions(self, editions: &[u32]) -> Reply {
        Reply {
            editions: editions.to_vec(),
            ..self
        }
    }

    /// The same, which writes the front of the lent bytes too.
    pub fn with_bytes(self, bytes: &[u8]) -> Reply {
        Reply {
            bytes: bytes.to_vec(),
            ..self
        }
    }
}

thread_local! {
    static REPLIES: RefCell<VecDeque<Reply>> = RefCell::default();
    static CALLS: RefCell<Vec<Call>> = RefCell::default();
}

/// Makes the calls of `test`, answers them as told, and gives what it gave and what was lent.
pub(crate) fn told<T>(
    replies: impl IntoIterator<Item = Reply>,
    test: impl FnOnce() -> T,
) -> (T, Vec<Call>) {
    REPLIES.with(|all| *all.borrow_mut() = replies.into_iter().collect());
    CALLS.with(|all| all.borrow_mut().clear());
    let given = test();
    REPLIES.with(|all| assert!(all.borrow().is_empty(), "fewer calls than replies"));
    (given, CALLS.with(RefCell::take))
}

/// Writes the call down and gives the next answer.
fn play(call: Call, counts: &mut [&mut [usize]], numbers: &mut [&mut [f64]]) -> Answer {
    play_all(call, counts, numbers, &mut [])
}

/// The same of an entry that writes editions too.
fn play_all(
    call: Call,
    counts: &mut [&mut [usize]],
    numbers: &mut [&mut [f64]],
    editions: &mut [u32],
) -> Answer {
    let reply = next_reply(call);
    for (list, front) in counts.iter_mut().zip(reply.counts) {
        list[..front.len()].copy_from_slice(&front);
    }
    for (list, front) in numbers.iter_mut().zip(reply.numbers) {
        list[..front.len()].copy_from_slice(&front);
    }
    editions[..reply.editions.len()].copy_from_slice(&reply.editions);
    reply.answer
}

/// The same of an entry that writes bytes alone.
fn play_bytes(call: Call, bytes: &mut [u8]) -> Answer {
    let reply = next_reply(call);
    bytes[..reply.bytes.len()].copy_from_slice(&reply.bytes);
    reply.answer
}

/// Writes the call down and gives what was told for it.
fn next_reply(call: Call) -> Reply {
    let entry = call.entry;
    CALLS.with(|all| all.borrow_mut().push(call));
    let reply = REPLIES.with(|all| all.borrow_mut().pop_front());
    reply.unwrap_or_else(|| panic!("no reply was told for {entry}"))
}

macro_rules! answers {
    ($($case:ident $answer:ident),*) => {
        /// An answer to one of the entries.
        #[derive(Debug, Clone, Copy)]
        pub(crate) enum Answer { $($case($answer)),* }
        $(
            impl From<$answer> for Answer {
                fn from(answer: $answer) -> Answer {
                    Answer::$case(answer)
                }
            }
            impl From<Answer> for $answer {
                fn from(answer: Answer) -> $answer {
                    match answer {
                        Answer::$case(answer) => answer,
                        other => panic!("{other:?} was told for another entry"),
                    }
                }
            }
        )*
    };
}

answers!(
    Vertex VertexAnswer,
    View ViewAnswer,
    Span SpanAnswer,
    Verdict VerdictAnswer,
    Reopen ReopenAnswer,
    Unmoved UnmovedAnswer,
    Count CountAnswer,
    Prune PruneAnswer,
    Stitch StitchAnswer,
    Replay ReplayAnswer,
    Winding WindingAnswer,
    Area AreaAnswer,
    Report ReportAnswer,
    Edition EditionAnswer,
    Setting SettingAnswer,
    Handle HandleAnswer,
    Done DoneAnswer
);

macro_rules! lent_as {
    ($($case:ident $kind:ty),*) => {
        $(
            impl From<$kind> for Lent {
                fn from(lent: $kind) -> Lent {
                    Lent::$case(lent.into())
                }
            }
        )*
    };
}

lent_as!(
    Code u32,
    Count usize,
    Number f64,
    Whole i64,
    Point Point,
    Vertex Vertex,
    Split Split,
    View View,
    Counts &[usize],
    Numbers &[f64],
    Wholes &[i64],
    Answers &[u8],
    Editions &[u32]
);

macro_rules! call {
    ($entry:ident: $($read:ident),*; $($room:ident),*) => {
        Call {
            entry: stringify!($entry),
            lent: vec![
                $((stringify!($read), Lent::from($read)),)*
                $((stringify!($room), Lent::Room($room.len())),)*
            ],
        }
    };
}

/// The functions that `archive` has else.
#[allow(clippy::too_many_arguments)] // those of the header
#[rustfmt::skip] // one parameter list a paragraph, as the interface has them
pub(crate) mod entries {
    use super::{play, play_all, play_bytes, Call, Lent};
    use super::{CountAnswer, PruneAnswer, StitchAnswer, VerdictAnswer, VertexAnswer, ViewAnswer};
    use super::{AreaAnswer, Point, ReportAnswer, SpanAnswer, Split, Vertex, View, WindingAnswer};
    use super::{DoneAnswer, EditionAnswer, HandleAnswer, SettingAnswer};
    use super::{ReopenAnswer, ReplayAnswer, UnmovedAnswer};

    pub(crate) fn view_vertex(outline: &[f64], vc: usize, view: View, index: usize) -> VertexAnswer {
        play(call!(view_vertex: outline, vc, view, index;), &mut [], &mut []).into()
    }

    pub(crate) fn view_vertices(
        outline: &[f64], vc: usize, view: View, vertices: &mut [f64],
    ) -> CountAnswer {
        play(call!(view_vertices: outline, vc, view; vertices), &mut [], &mut [vertices]).into()
    }

    pub(crate) fn create(
        outline: &[f64], vc: usize, start_index: usize, end_intersect: Point, intersect_index: usize,
        updated_start: Vertex, traverse_count: usize, tolerance_x: f64, tolerance_y: f64, split: Split,
    ) -> ViewAnswer {
        let call = call!(create: outline, vc, start_index, end_intersect, intersect_index,
            updated_start, traverse_count, tolerance_x, tolerance_y, split;);
        play(call, &mut [], &mut []).into()
    }

    pub(crate) fn create_on_single_segment(
        outline: &[f64], vc: usize, start_index: usize, updated_start: Vertex, end_intersect: Point,
        tolerance_x: f64, tolerance_y: f64,
    ) -> ViewAnswer {
        let call = call!(create_on_single_segment: outline, vc, start_index, updated_start,
            end_intersect, tolerance_x, tolerance_y;);
        play(call, &mut [], &mut []).into()
    }

    pub(crate) fn from_entire_pline(outline: &[f64], vc: usize, closed: u32) -> ViewAnswer {
        play(call!(from_entire_pline: outline, vc, closed;), &mut [], &mut []).into()
    }

    pub(crate) fn validate_for_source(
        outline: &[f64], vc: usize, edition: u32, view: View, view_edition: u32,
        start_on_segment: u32, end_on_segment: u32,
    ) -> VerdictAnswer {
        let call = call!(validate_for_source: outline, vc, edition, view, view_edition,
            start_on_segment, end_on_segment;);
        play(call, &mut [], &mut []).into()
    }

    pub(crate) fn reopen(
        outline: &[f64], vc: usize, edition: u32, view: View, view_edition: u32,
        start_on_segment: u32, end_on_segment: u32,
    ) -> ReopenAnswer {
        let call = call!(reopen: outline, vc, edition, view, view_edition, start_on_segment,
            end_on_segment;);
        play(call, &mut [], &mut []).into()
    }

    pub(crate) fn unmoved(
        outline1: &[f64], vc1: usize, outline2: &[f64], vc2: usize, view: View,
    ) -> UnmovedAnswer {
        play(call!(unmoved: outline1, vc1, outline2, vc2, view;), &mut [], &mut []).into()
    }

    pub(crate) fn slice_span(
        outline: &[f64], vc: usize, closed: u32, start_index: usize, start_point: Point,
        end_index: usize, end_point: Point, tolerance_x: f64, tolerance_y: f64,
    ) -> SpanAnswer {
        let call = call!(slice_span: outline, vc, closed, start_index, start_point, end_index,
            end_point, tolerance_x, tolerance_y;);
        play(call, &mut [], &mut []).into()
    }

    pub(crate) fn from_slice_points(
        outline: &[f64], vc: usize, closed: u32, start_index: usize, start_point: Point,
        end_index: usize, end_point: Point, tolerance_x: f64, tolerance_y: f64, start_split: Split, end_split: Split,
    ) -> ViewAnswer {
        let call = call!(from_slice_points: outline, vc, closed, start_index, start_point,
            end_index, end_point, tolerance_x, tolerance_y, start_split, end_split;);
        play(call, &mut [], &mut []).into()
    }

    pub(crate) fn from_new_start(
        outline: &[f64], vc: usize, closed: u32, start_index: usize, start_point: Point,
        tolerance_x: f64, tolerance_y: f64, start_split: Split, end_split: Split,
    ) -> ViewAnswer {
        let call = call!(from_new_start: outline, vc, closed, start_index, start_point, tolerance_x, tolerance_y,
            start_split, end_split;);
        play(call, &mut [], &mut []).into()
    }

    pub(crate) fn cut_order(
        outline: &[f64], vc: usize, source: u32, hit_at: &[usize], hit: &[f64], hits: usize,
        lap_at: &[usize], lap: &[f64], laps: usize, tolerance_x: f64, tolerance_y: f64,
        cut_at: &mut [usize], cut: &mut [f64],
    ) -> CountAnswer {
        let call = call!(cut_order: outline, vc, source, hit_at, hit, hits, lap_at, lap, laps,
            tolerance_x, tolerance_y; cut_at, cut);
        play(call, &mut [cut_at], &mut [cut]).into()
    }

    pub(crate) fn candidates(
        outline: &[f64], vc: usize, edition: u32, source: u32, hit_at: &[usize], hit: &[f64],
        hits: usize, lap_at: &[usize], lap: &[f64], laps: usize, splits: &[f64],
        tolerance_x: f64, tolerance_y: f64,
        cand_at: &mut [usize], cand: &mut [f64], probe: &mut [f64], cand_edition: &mut [u32],
    ) -> CountAnswer {
        let call = call!(candidates: outline, vc, edition, source, hit_at, hit, hits, lap_at, lap,
            laps, splits, tolerance_x, tolerance_y; cand_at, cand, probe, cand_edition);
        play_all(call, &mut [cand_at], &mut [cand, probe], cand_edition).into()
    }

    pub(crate) fn candidates_along(
        outline: &[f64], vc: usize, edition: u32, source: u32, hit_at: &[usize], hit: &[f64],
        hits: usize, lap_at: &[usize], lap: &[f64], laps: usize, cut_at: &[usize],
        splits: &[f64], tolerance_x: f64, tolerance_y: f64,
        cand_at: &mut [usize], cand: &mut [f64], probe: &mut [f64], cand_edition: &mut [u32],
    ) -> CountAnswer {
        let call = call!(candidates_along: outline, vc, edition, source, hit_at, hit, hits, lap_at,
            lap, laps, cut_at, splits, tolerance_x, tolerance_y; cand_at, cand, probe, cand_edition);
        play_all(call, &mut [cand_at], &mut [cand, probe], cand_edition).into()
    }

    pub(crate) fn prune(
        mode: u32, opposing: u32, vc1: usize, vc2: usize,
        cand_at1: &[usize], cand1: &[f64], cand_edition1: &[u32], inside1: &[u8], count1: usize,
        cand_at2: &[usize], cand2: &[f64], cand_edition2: &[u32], inside2: &[u8], count2: usize,
        lap_at: &[usize], lap: &[f64], lap_edition: &[u32], laps: usize,
        slice_at: &mut [usize], slice: &mut [f64], slice_edition: &mut [u32],
    ) -> PruneAnswer {
        let call = call!(prune: mode, opposing, vc1, vc2, cand_at1, cand1, cand_edition1, inside1,
            count1, cand_at2, cand2, cand_edition2, inside2, count2, lap_at, lap, lap_edition, laps;
            slice_at, slice, slice_edition);
        play_all(call, &mut [slice_at], &mut [slice], slice_edition).into()
    }

    pub(crate) fn stitch(
        outline1: &[f64], vc1: usize, edition1: u32, outline2: &[f64], vc2: usize, edition2: u32,
        slice_at: &[usize], slice: &[f64], slice_edition: &[u32], slices: usize,
        pline2: usize, pline1_overlapping: usize, pline2_overlapping: usize,
        selector: u32, entered: &[usize], settings: &[f64], setting: usize,
        room: &mut [f64], ends: &mut [usize], chain: &mut [usize], chain_ends: &mut [usize],
        chain_how: &mut [usize],
    ) -> StitchAnswer {
        let call = call!(stitch: outline1, vc1, edition1, outline2, vc2, edition2, slice_at, slice,
            slice_edition, slices, pline2, pline1_overlapping, pline2_overlapping, selector, entered,
            settings, setting; room, ends, chain, chain_ends, chain_how);
        play(call, &mut [ends, chain, chain_ends, chain_how], &mut [room]).into()
    }

    pub(crate) fn area_pass(
        areas: &[f64], loops: usize, entered: &[usize], settings: &[f64], setting: usize,
        kept: &mut [usize],
    ) -> CountAnswer {
        let call = call!(area_pass: areas, loops, entered, settings, setting; kept);
        play(call, &mut [kept], &mut []).into()
    }

    pub(crate) fn straight_winding(outline: &[i64], vc: usize, x: i64, y: i64) -> WindingAnswer {
        play(call!(straight_winding: outline, vc, x, y;), &mut [], &mut []).into()
    }

    pub(crate) fn straight_area(outline: &[i64], vc: usize) -> AreaAnswer {
        play(call!(straight_area: outline, vc;), &mut [], &mut []).into()
    }

    pub(crate) fn straight_report(points: &[i64], ends: &[usize], loops: usize) -> ReportAnswer {
        play(call!(straight_report: points, ends, loops;), &mut [], &mut []).into()
    }

    pub(crate) fn straight_slices(
        mode: u32, opposing: u32, outline1: &[f64], vc1: usize, edition1: u32,
        outline2: &[f64], vc2: usize, edition2: u32, hit_at: &[usize], hit: &[f64], hits: usize,
        lap_at: &[usize], lap: &[f64], lap_edition: &[u32], laps: usize,
        tolerance_x: f64, tolerance_y: f64,
        slice_at: &mut [usize], slice: &mut [f64], slice_edition: &mut [u32],
    ) -> PruneAnswer {
        let call = call!(straight_slices: mode, opposing, outline1, vc1, edition1, outline2, vc2,
            edition2, hit_at, hit, hits, lap_at, lap, lap_edition, laps, tolerance_x, tolerance_y;
            slice_at, slice, slice_edition);
        play_all(call, &mut [slice_at], &mut [slice], slice_edition).into()
    }

    pub(crate) fn settings_enter(
        entered: &mut [usize], settings: &mut [f64],
        tolerance_x: f64, tolerance_y: f64, area_limit: f64,
    ) -> EditionAnswer {
        let call = call!(settings_enter: tolerance_x, tolerance_y, area_limit; entered, settings);
        play(call, &mut [entered], &mut [settings]).into()
    }

    pub(crate) fn settings_ask(
        entered: &[usize], settings: &[f64], edition: usize,
    ) -> SettingAnswer {
        play(call!(settings_ask: entered, settings, edition;), &mut [], &mut []).into()
    }

    pub(crate) fn record_write(
        version: u32, outline1: &[f64], vc1: usize, edition1: u32, outline2: &[f64], vc2: usize,
        edition2: u32, slice_at: &[usize], slice: &[f64], slice_edition: &[u32], slices: usize,
        pline2: usize, pline1_overlapping: usize, pline2_overlapping: usize,
        selector: u32, tolerance_x: f64, tolerance_y: f64, bytes: &mut [u8],
    ) -> CountAnswer {
        let call = call!(record_write: version, outline1, vc1, edition1, outline2, vc2, edition2,
            slice_at, slice, slice_edition, slices, pline2, pline1_overlapping, pline2_overlapping,
            selector, tolerance_x, tolerance_y; bytes);
        play_bytes(call, bytes).into()
    }

    pub(crate) fn record_replay(
        bytes: &[u8], room: &mut [f64], ends: &mut [usize], chain: &mut [usize],
        chain_ends: &mut [usize], chain_how: &mut [usize],
    ) -> ReplayAnswer {
        let call = call!(record_replay: bytes; room, ends, chain, chain_ends, chain_how);
        play(call, &mut [ends, chain, chain_ends, chain_how], &mut [room]).into()
    }

    pub(crate) fn store_put(
        held: &mut [usize], slice_at: &mut [usize], slice: &mut [f64], slice_edition: &mut [u32],
        party: u32, put_at: &[usize], put: &[f64], put_edition: u32,
    ) -> HandleAnswer {
        let call = call!(store_put: party, put_at, put, put_edition; held, slice_at, slice, slice_edition);
        play_all(call, &mut [held, slice_at], &mut [slice], slice_edition).into()
    }

    pub(crate) fn store_release(
        held: &mut [usize], slice_at: &[usize], slice: &[f64], slice_edition: &[u32], party: u32,
        handle: usize,
    ) -> DoneAnswer {
        let call = call!(store_release: slice_at, slice, slice_edition, party, handle; held);
        play(call, &mut [held], &mut []).into()
    }

    pub(crate) fn store_list(
        held: &[usize], slice_at: &[usize], slice: &[f64], slice_edition: &[u32], party: u32,
        handles: &mut [usize], list_at: &mut [usize], list: &mut [f64], list_edition: &mut [u32],
    ) -> CountAnswer {
        let call = call!(store_list: held, slice_at, slice, slice_edition, party;
            handles, list_at, list, list_edition);
        play_all(call, &mut [handles, list_at], &mut [list], list_edition).into()
    }

    pub(crate) fn store_compact(
        held: &mut [usize], slice_at: &mut [usize], slice: &mut [f64], slice_edition: &mut [u32],
        party: u32,
    ) -> DoneAnswer {
        let call = call!(store_compact: party; held, slice_at, slice, slice_edition);
        play_all(call, &mut [held, slice_at], &mut [slice], slice_edition).into()
    }
}
