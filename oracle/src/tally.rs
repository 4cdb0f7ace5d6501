//! Compares one call after the other, and counts.

use crate::call::{COUNT, Call, ENTRIES, Entry, Outcome, Param};
use crate::at_once;
use crate::late::Counts;
use crate::record::{Origin, Record};
use crate::{ours, print, refusal, scaled, second, theirs};
use std::collections::BTreeMap;
use std::panic::{AssertUnwindSafe, catch_unwind};
use std::sync::atomic::{AtomicBool, Ordering};

#[derive(Debug, Clone, Copy, PartialEq, Eq)]
pub enum Family {
    Realistic,
    Hostile,
    Damaged,
    Limits,
    Axes,
    Starts,
    Late,
}

pub const FAMILIES: [Family; 7] = [
    Family::Realistic,
    Family::Hostile,
    Family::Damaged,
    Family::Limits,
    Family::Axes,
    Family::Starts,
    Family::Late,
];

/// One more than the largest refusal number.
pub const NUMBERS: usize = 16;

/// Differences that are written out. The others are only counted.
const SHOWN: u64 = 20;

/// Whether a panic is caught and told as a difference.
static CATCHING: AtomicBool = AtomicBool::new(false);

/// A panic of the original is told once, with its input. Any other panic is told as usual.
pub fn quiet_caught_panics() {
    let usual = std::panic::take_hook();
    std::panic::set_hook(Box::new(move |panic| {
        if !CATCHING.load(Ordering::Relaxed) {
            usual(panic);
        }
    }));
}

/// What the original gives, or none where it panicked.
pub fn caught<A>(original: impl FnOnce() -> A) -> Option<A> {
    CATCHING.store(true, Ordering::Relaxed);
    let outcome = catch_unwind(AssertUnwindSafe(original)).ok();
    CATCHING.store(false, Ordering::Relaxed);
    outcome
}

#[derive(Default)]
pub struct Tally {
    compared: [[u64; COUNT]; FAMILIES.len()],
    refused: [[u64; NUMBERS]; COUNT],
    ended: [u64; 4],
    extra: BTreeMap<&'static str, u64>,
    explained: BTreeMap<&'static str, u64>,
    unexplained: u64,
    /// What came of old slices on outlines that were changed late.
    pub late: Counts,
    /// What came of straight masks by the one call.
    pub straight: at_once::Counts,
    /// The scenario that runs now, for the print of a difference.
    pub scenario: u64,
    pub record: Option<Record>,
}

impl Tally {
    /// Compares a call with the refusal table, or where that accepts it with the original; with the
    /// second implementation where the two tolerances differ. Gives our outcome back.
    pub fn compare(&mut self, family: Family, call: &Call) -> Outcome {
        self.compare_with(family, call, || theirs::answer(call))
    }

    /// As `compare`, where the original needs more than the call.
    pub fn compare_with(
        &mut self,
        family: Family,
        call: &Call,
        original: impl FnOnce() -> Outcome,
    ) -> Outcome {
        let number = refusal::expected(call);
        let (expected, origin) = match number {
            0 => (self.judged(call, original), Origin::Original),
            _ => (Some(Outcome::refused(call, number)), Origin::Table),
        };
        self.compared[family as usize][call.entry.number()] += 1;
        self.refused[call.entry.number()][number as usize] += 1;
        let ours = self.ours(call);
        let Some(expected) = expected else {
            return ours;
        };
        if self.judge(call, &expected, &ours) {
            if number == 0 && call.entry == Entry::Stitch {
                self.count_ends(&ours);
            }
            if let Some(record) = &mut self.record {
                record.offer(family, call, &expected, origin);
            }
        }
        ours
    }

    /// Compares the judges of an accepted call with each other, and not with the archive.
    pub fn compare_judges(&mut self, family: Family, call: &Call) {
        assert!(refusal::expected(call) == 0, "the call must be accepted");
        self.compared[family as usize][call.entry.number()] += 1;
        self.refused[call.entry.number()][0] += 1;
        self.judged(call, || theirs::answer(call));
    }

    /// The outcome that an accepted call must have: the original's, or where the two tolerances differ
    /// the second implementation's. Where there are two judges they are compared.
    fn judged(&mut self, call: &Call, original: impl FnOnce() -> Outcome) -> Option<Outcome> {
        if !second::covers(call.entry) {
            return self.run(call, original);
        }
        let second = second::answer(call);
        if call.has_one_tolerance() {
            let expected = self.run(call, original)?;
            self.count("the second implementation beside the original");
            if second != expected && explanation(call, &expected, &second).is_none() {
                self.tell_difference("the second implementation", call, &expected, &second);
            }
            return Some(expected);
        }
        self.count("two tolerances that differ: the second implementation is the judge");
        match self.run(call, || scaled::answer(call)) {
            None | Some(None) => {}
            Some(Some(scaled)) if scaled == second => self.count(SCALED),
            Some(Some(scaled)) if order_is_not_scaled(call, &scaled, &second) => {
                self.count(SCALED_ORDER);
            }
            Some(Some(scaled)) => {
                self.tell_difference("the original on scaled axes", call, &scaled, &second);
            }
        }
        Some(second)
    }

    fn count(&mut self, name: &'static str) {
        *self.extra.entry(name).or_default() += 1;
    }

    /// One more check of a call already compared: the same outcome by another road.
    pub fn check(&mut self, name: &'static str, call: &Call, road: impl FnOnce() -> Outcome) {
        if refusal::expected(call) != 0 {
            return;
        }
        *self.extra.entry(name).or_default() += 1;
        let ours = self.ours(call);
        if let Some(expected) = self.run(call, road) {
            self.judge(call, &expected, &ours);
        }
    }

    /// One more check that is not of one call.
    pub fn claim(&mut self, name: &'static str, holds: bool, tell: impl FnOnce() -> String) {
        *self.extra.entry(name).or_default() += 1;
        if !holds {
            self.complain(name, &tell());
        }
    }

    fn count_ends(&mut self, stitched: &Outcome) {
        let chains = stitched.answer[3] as usize;
        for how in &stitched.lent[4][..chains] {
            self.ended[*how as usize] += 1;
        }
    }

    fn ours(&mut self, call: &Call) -> Outcome {
        ours::answer(call).unwrap_or_else(|fault| {
            self.complain(&fault, &print::call(call));
            Outcome::refused(call, u64::MAX)
        })
    }

    /// What the original gives, or none where it panicked. A panic is a difference.
    fn run<A>(&mut self, call: &Call, original: impl FnOnce() -> A) -> Option<A> {
        let outcome = caught(original);
        if outcome.is_none() {
            self.complain("the original panicked", &print::call(call));
        }
        outcome
    }

    /// Whether the two are equal, bit for bit.
    fn judge(&mut self, call: &Call, expected: &Outcome, ours: &Outcome) -> bool {
        if expected == ours {
            return true;
        }
        if let Some(name) = explanation(call, expected, ours) {
            *self.explained.entry(name).or_default() += 1;
            return false;
        }
        self.tell_difference("another outcome", call, expected, ours);
        false
    }

    fn tell_difference(&mut self, what: &str, call: &Call, expected: &Outcome, other: &Outcome) {
        let text = print::call(call) + "\n" + &print::difference(call, expected, other);
        self.complain(what, &text);
    }

    fn complain(&mut self, what: &str, text: &str) {
        self.unexplained += 1;
        if self.unexplained <= SHOWN {
            println!(
                "difference {}, in scenario {}: {what}: {text}",
                self.unexplained, self.scenario
            );
        }
    }

    /// Whether no difference is left unexplained.
    pub fn is_clean(&self) -> bool {
        self.unexplained == 0
    }

    pub fn total(&self) -> u64 {
        self.compared.iter().flatten().sum::<u64>() + self.straight.calls()
    }

    /// Prints the counts. Gives the number of unexplained differences.
    pub fn report(&self) -> u64 {
        println!(
            "{:30} {:>10} {:>10} {:>10} {:>10} {:>10} {:>10} {:>10} {:>10}",
            "entry calls compared",
            "realistic",
            "hostile",
            "damaged",
            "limits",
            "axes",
            "starts",
            "late",
            "all"
        );
        for entry in ENTRIES {
            self.report_row(entry.name(), |family| {
                self.compared[family as usize][entry.number()]
            });
        }
        self.report_row("all", |family| self.compared[family as usize].iter().sum());
        println!("\nrefusals, all families (0: accepted)");
        for entry in ENTRIES {
            let counts = self.refused[entry.number()].iter().enumerate();
            let shown = counts.filter(|(_, count)| **count > 0);
            let row: Vec<String> = shown.map(|(n, count)| format!("{n}: {count}")).collect();
            println!("{:30} {}", entry.name(), row.join(", "));
        }
        let [closed, small, no_candidate, not_selected] = self.ended;
        println!(
            "\nchains: {closed} closed, {small} too small, {no_candidate} with no candidate, \
             {not_selected} with none selected"
        );
        if !self.late.is_empty() {
            println!("\noutlines changed late\n{}", self.late);
        }
        if !self.straight.is_empty() {
            println!("\nstraight masks in whole microdegrees\n{}", self.straight);
        }
        println!("\nthe same by another road, beside the calls above");
        for (name, count) in &self.extra {
            println!("{count:>10} {name}");
        }
        println!("\nexplained differences");
        for (name, count) in &self.explained {
            println!("{count:>10} {name}");
        }
        if self.explained.is_empty() {
            println!("{:>10}", "none");
        }
        self.unexplained
    }

    fn report_row(&self, name: &str, count: impl Fn(Family) -> u64) {
        print!("{name:30}");
        for family in FAMILIES {
            print!(" {:>10}", count(family));
        }
        let all: u64 = FAMILIES.iter().map(|family| count(*family)).sum();
        println!(" {all:>10}");
    }
}

const SCALED: &str = "the original on scaled axes beside the second implementation";
const SCALED_ORDER: &str =
    "the same with another order of cuts or points on a segment: distances are not scaled";

pub const TIES: &str = "ties: 33 or more cuts on one segment, equal distances";

/// The name of a known difference, where it accounts for all that differs: with that one thing done as
/// document 01 says, the original's outcome is ours.
fn explanation(call: &Call, expected: &Outcome, ours: &Outcome) -> Option<&'static str> {
    if expected.answer[0] != 0 || !call.has_one_tolerance() {
        return None;
    }
    match call.entry {
        Entry::CutOrder if in_order_of_arrival(call, expected) == *ours => Some(TIES),
        Entry::Candidates if order_is_tied(call) && frame_holds(call, ours) => Some(TIES),
        _ => None,
    }
}

/// The original's cuts, with those of equal distance on a segment of 33 or more in order of arrival.
fn in_order_of_arrival(call: &Call, expected: &Outcome) -> Outcome {
    let mut r = call.read();
    let outline = r.list();
    let count = expected.answer[1] as usize;
    let at = |k: usize| &expected.lent[0][3 * k..3 * k + 3];
    let point = |k: usize| &expected.lent[1][2 * k..2 * k + 2];
    let distance = |k: usize| {
        let corner = &outline[3 * at(k)[0] as usize..];
        let dx = f64::from_bits(point(k)[0]) - f64::from_bits(corner[0]);
        let dy = f64::from_bits(point(k)[1]) - f64::from_bits(corner[1]);
        dx * dx + dy * dy
    };
    let mut order: Vec<usize> = (0..count).collect();
    for segment in order.chunk_by_mut(|a, b| at(*a)[0] == at(*b)[0]) {
        if segment.len() >= 33 {
            segment.sort_by(|a, b| {
                let by_distance = distance(*a).total_cmp(&distance(*b));
                by_distance.then(at(*a)[2].cmp(&at(*b)[2]))
            });
        }
    }
    let mut outcome = expected.clone();
    for (place, k) in order.into_iter().enumerate() {
        outcome.lent[0][3 * place..3 * place + 3].copy_from_slice(at(k));
        outcome.lent[1][2 * place..2 * place + 2].copy_from_slice(point(k));
    }
    outcome
}

/// The call that asks for the order of the cuts of a call of the candidates.
pub fn order_of(call: &Call) -> Call {
    let mut order = Call::new(Entry::CutOrder);
    order.inputs = call.inputs.clone();
    for name in ["splits", "edition"] {
        order.inputs.remove(call.entry.at(name));
    }
    let room = 3 * call.lent[0].len();
    order.lent = vec![vec![1; room], vec![1; room]];
    order
}

/// Whether the order of the same cuts already differs by ties. Then the splits are of other cuts, and
/// the original has no answer to compare with.
fn order_is_tied(call: &Call) -> bool {
    let order = order_of(call);
    let (expected, by_arrival) = (theirs::answer(&order), second::answer(&order));
    expected != by_arrival && in_order_of_arrival(&order, &expected) == by_arrival
}

/// Whether the original on scaled axes differs because cuts or points of a segment come in another order.
fn order_is_not_scaled(call: &Call, scaled: &Outcome, second: &Outcome) -> bool {
    match call.entry {
        Entry::CutOrder => scaled::same_but_for_order(scaled, second),
        Entry::Candidates => {
            let order = order_of(call);
            let scaled = scaled::answer(&order).expect("the same tolerances");
            let second = second::answer(&order);
            scaled != second && scaled::same_but_for_order(&scaled, &second)
        }
        Entry::SliceSpan | Entry::FromSlicePoints => second::distances_decide(call),
        _ => false,
    }
}

/// Whether candidates are accepted, at most one per cut, with 0 up to the need and nothing beyond.
fn frame_holds(call: &Call, ours: &Outcome) -> bool {
    let length = |name: &str| match &call.inputs[call.entry.at(name)] {
        Param::List(words) => words.len(),
        Param::Word(_) => 0,
    };
    let need = length("hit_at") / 2 + 2 * (length("lap_at") / 7);
    let count = ours.answer[1] as usize;
    let widths = [2, 6, 6, 1];
    ours.answer[0] == 0
        && count <= need
        && (0..4).all(|i| {
            let (list, width) = (&ours.lent[i], widths[i]);
            let beyond = width * need;
            list[width * count..beyond].iter().all(|word| *word == 0)
                && list[beyond..] == call.lent[i][beyond..]
        })
}
