//! The one comparison: what a typed call told, beside what the raw entry answered and wrote.

use crate::entries::Answer;
use crate::words::{words, Words};
use mask_tools::lent::{Pruned, ReplayCounts, StitchCounts};
use mask_tools::*;
use proptest::strategy::Strategy;
use proptest::test_runner::{Config, TestRunner};
use std::cell::RefCell;
use std::collections::BTreeMap;

/// What a raw entry answered, and what its rooms hold behind the call.
#[derive(Debug)]
pub struct Raw {
    pub entry: &'static str,
    pub refusal: u32,
    /// The answer's other fields.
    pub fields: Vec<u64>,
    /// The rooms, in the order of the parameters.
    pub rooms: Vec<Vec<u64>>,
}

impl Raw {
    pub fn of(entry: &'static str, answer: impl Answer, rooms: Vec<Vec<u64>>) -> Raw {
        Raw { entry, refusal: answer.refusal(), fields: answer.fields(), rooms }
    }

    pub fn accepted(&self) -> bool {
        self.refusal == 0
    }
}

/// What a typed answer says, as the raw entry says it: the fields behind the refusal, and the items
/// of each list that the entry writes. Calls with lent room have no lists here: see `same_lent`.
pub trait Told {
    fn fields(&self) -> Vec<u64>;

    fn lists(&self) -> Vec<Vec<u64>> {
        Vec::new()
    }
}

/// The typed call gave what the raw entry gave. Number 9 is never given: there was room.
pub fn same<T: Told>(typed: &Result<T, Refusal>, raw: &Raw) {
    let number = same_fields(typed, raw);
    assert_ne!(number, 9, "{}: the typed layer lent less than the need", raw.entry);
    if let Ok(typed) = typed {
        let lists = typed.lists();
        assert_eq!(lists.len(), raw.rooms.len(), "{}: its lists", raw.entry);
        for (place, (items, room)) in lists.iter().zip(&raw.rooms).enumerate() {
            assert_eq!(items, &room[..items.len()], "{}: list {place}", raw.entry);
        }
    }
}

/// The same of a call that was lent room: what all of it holds behind the call, refused or not.
pub fn same_lent<T: Told>(typed: &Result<T, Refusal>, rooms: Vec<Vec<u64>>, raw: &Raw) {
    same_fields(typed, raw);
    assert_eq!(rooms, raw.rooms, "{}: the room lent", raw.entry);
}

fn same_fields<T: Told>(typed: &Result<T, Refusal>, raw: &Raw) -> u32 {
    let number = typed.as_ref().err().map_or(0, |refusal| refusal.number());
    assert_eq!(number, raw.refusal, "{}: its refusal", raw.entry);
    let fields = match typed {
        Ok(typed) => typed.fields(),
        Err(_) => vec![0; raw.fields.len()],
    };
    assert_eq!(fields, raw.fields, "{}: its fields", raw.entry);
    MET.with(|met| {
        let mut met = met.borrow_mut();
        let [calls, accepted] = met.entry(raw.entry).or_default();
        *calls += 1;
        *accepted += u64::from(number == 0);
    });
    number
}

thread_local! {
    /// Of each entry that this thread's property compared: how many calls, and how many accepted.
    static MET: RefCell<BTreeMap<&'static str, [u64; 2]>> = RefCell::default();
}

/// Holds a property for drawn input, as often as PROPTEST_CASES says, and tells what it compared.
/// Where only refused calls were compared, it has shown little, and fails.
pub fn for_drawn<S: Strategy>(drawn: S, property: impl Fn(S::Value)) {
    let config = Config { failure_persistence: None, ..Config::default() };
    let cases = config.cases;
    let held = TestRunner::new(config).run(&drawn, |input| {
        property(input);
        Ok(())
    });
    if let Err(why) = held {
        panic!("{why}");
    }
    MET.with(|met| {
        for (entry, [calls, accepted]) in met.borrow().iter() {
            println!("  {entry:<29} {calls:>9} calls, {accepted:>9} accepted");
            assert!(cases < 100 || *accepted > 0, "{entry} was never accepted");
        }
    });
}

/// A count, an edition, a handle.
impl Told for usize {
    fn fields(&self) -> Vec<u64> {
        words![*self]
    }
}

impl Told for () {
    fn fields(&self) -> Vec<u64> {
        Vec::new()
    }
}

impl Told for Option<Vertex> {
    fn fields(&self) -> Vec<u64> {
        words![self.is_some(), self.unwrap_or_default()]
    }
}

impl Told for Vertices {
    fn fields(&self) -> Vec<u64> {
        words![self.len()]
    }

    fn lists(&self) -> Vec<Vec<u64>> {
        vec![words![*self.as_slice()]]
    }
}

/// A view is found, and has an edition, which no raw answer has: `raw` adds the outline's.
impl Told for View {
    fn fields(&self) -> Vec<u64> {
        Some(*self).fields()
    }
}

impl Told for Option<View> {
    fn fields(&self) -> Vec<u64> {
        let view = self.unwrap_or_default();
        words![self.is_some(), view, view.edition]
    }
}

impl Told for Span {
    fn fields(&self) -> Vec<u64> {
        words![self.moved, self.start_index, self.traverse_count]
    }
}

/// All fields of the raw answer: those that the verdict does not name are 0.
impl Told for Verdict {
    fn fields(&self) -> Vec<u64> {
        let (mut offset, mut source_length, mut updated_bulge, mut expected) = (0, 0, 0.0, 0.0);
        let (mut point, mut vertex) = (Point::default(), Vertex::default());
        let verdict: u32 = match *self {
            Verdict::SourceHasNoSegments => 1,
            Verdict::OffsetOutOfRange { offset: o, source_length: s } => {
                (offset, source_length) = (o, s);
                2
            }
            Verdict::UpdatedStartNotOnSegment { start_point } => {
                point = start_point;
                3
            }
            Verdict::EndPointNotOnSegment { end_point } => {
                point = end_point;
                4
            }
            Verdict::EndPointOnFinalOffsetVertex { end_point, final_offset_vertex } => {
                (point, vertex) = (end_point, final_offset_vertex);
                5
            }
            Verdict::UpdatedBulgeDoesNotMatch { updated_bulge: u, expected: e } => {
                (updated_bulge, expected) = (u, e);
                6
            }
            Verdict::IsValid => 7,
        };
        words![verdict, offset, source_length, point, vertex, updated_bulge, expected]
    }
}

/// A reopened view's verdict, and the edition that the view has behind the call.
impl Told for (Verdict, u32) {
    fn fields(&self) -> Vec<u64> {
        words![self.0.fields(), self.1]
    }
}

/// The first vertex that moved; none where none did.
impl Told for Option<usize> {
    fn fields(&self) -> Vec<u64> {
        words![self.is_none(), self.unwrap_or(0)]
    }
}

impl Told for Cuts {
    fn fields(&self) -> Vec<u64> {
        words![self.len()]
    }

    fn lists(&self) -> Vec<Vec<u64>> {
        let (mut cut_at, mut cut) = (Vec::new(), Vec::new());
        for c in self {
            cut_at.extend(words![c.segment, c.overlap_mark, c.arrival]);
            cut.extend(words![c.point]);
        }
        vec![cut_at, cut]
    }
}

/// The numbers of a view as they lie in a list.
pub fn numbers_of(view: &View) -> [f64; 6] {
    let (start, end) = (view.updated_start, view.end_point);
    [start.x, start.y, start.bulge, view.updated_end_bulge, end.x, end.y]
}

impl Told for Candidates {
    fn fields(&self) -> Vec<u64> {
        words![self.len()]
    }

    fn lists(&self) -> Vec<Vec<u64>> {
        let mut lists = vec![Vec::new(); 4];
        for c in self.iter() {
            lists[0].extend(words![c.view.start_index, c.view.end_index_offset]);
            lists[1].extend(words![numbers_of(&c.view)]);
            lists[2].extend(words![c.probe.start, c.probe.end]);
            lists[3].extend(words![c.view.edition]);
        }
        lists
    }
}

/// The three lists of slices.
fn slice_lists<'a>(slices: impl Iterator<Item = &'a Slice>) -> Vec<Vec<u64>> {
    let mut lists = vec![Vec::new(); 3];
    for Slice { source, view } in slices {
        let code = if *source == Source::Pline1 { 1u32 } else { 2 };
        lists[0].extend(words![code, view.inverted_direction, view.start_index, view.end_index_offset]);
        lists[1].extend(words![numbers_of(view)]);
        lists[2].extend(words![view.edition]);
    }
    lists
}

impl Told for Slices {
    fn fields(&self) -> Vec<u64> {
        words![self.len(), self.starts]
    }

    fn lists(&self) -> Vec<Vec<u64>> {
        slice_lists(self.iter().collect::<Vec<Slice>>().iter())
    }
}

impl Told for Pruned {
    fn fields(&self) -> Vec<u64> {
        words![self.slices, self.starts]
    }
}

impl Told for Stitched {
    fn fields(&self) -> Vec<u64> {
        words![self.rounds(), self.loop_count(), self.chain_count()]
    }

    fn lists(&self) -> Vec<Vec<u64>> {
        let mut lists = vec![Vec::new(); 5];
        for vertices in self.loops() {
            lists[0].extend(words![*vertices]);
            let end = lists[0].len() / 3;
            lists[1].extend(words![end]);
        }
        for chain in self.chains() {
            lists[2].extend(words![*chain.slices]);
            let end = lists[2].len();
            lists[3].extend(words![end]);
            lists[4].push(match chain.end {
                ChainEnd::Closed => 0,
                ChainEnd::TooSmall => 1,
                ChainEnd::NoCandidate => 2,
                ChainEnd::NotSelected => 3,
            });
        }
        lists
    }
}

impl Told for StitchCounts {
    fn fields(&self) -> Vec<u64> {
        words![self.rounds, self.loops, self.chains]
    }
}

impl Told for Replay {
    fn fields(&self) -> Vec<u64> {
        words![self.version.number(), self.slices, self.stitched.fields()]
    }

    fn lists(&self) -> Vec<Vec<u64>> {
        self.stitched.lists()
    }
}

impl Told for ReplayCounts {
    fn fields(&self) -> Vec<u64> {
        words![self.version.number(), self.slices, self.stitched.fields()]
    }
}

impl Told for Record {
    fn fields(&self) -> Vec<u64> {
        words![self.bytes().len()]
    }

    fn lists(&self) -> Vec<Vec<u64>> {
        vec![words![*self.bytes()]]
    }
}

/// The loops that an area pass keeps.
impl Told for Vec<usize> {
    fn fields(&self) -> Vec<u64> {
        words![self.len()]
    }

    fn lists(&self) -> Vec<Vec<u64>> {
        vec![words![*self]]
    }
}

impl Told for Setting {
    fn fields(&self) -> Vec<u64> {
        words![self.tolerance, self.area_limit]
    }
}

/// A winding number.
impl Told for i64 {
    fn fields(&self) -> Vec<u64> {
        words![*self]
    }
}

/// A doubled area.
impl Told for i128 {
    fn fields(&self) -> Vec<u64> {
        let size = self.unsigned_abs();
        words![*self < 0, (size >> 64) as u64, size as u64]
    }
}

impl Told for StraightReport {
    fn fields(&self) -> Vec<u64> {
        let total = self.doubled_total;
        words![self.count, self.zero, (total >> 64) as u64, total as u64]
    }
}

impl<P: Party> Told for Handle<P> {
    fn fields(&self) -> Vec<u64> {
        words![self.number()]
    }
}

impl<P: Party> Told for Listed<P> {
    fn fields(&self) -> Vec<u64> {
        words![self.len()]
    }

    fn lists(&self) -> Vec<Vec<u64>> {
        let kept: Vec<Kept<P>> = self.iter().collect();
        let mut lists = vec![kept.iter().map(|k| k.handle.number() as u64).collect()];
        lists.extend(slice_lists(kept.iter().map(|k| &k.slice)));
        lists
    }
}
