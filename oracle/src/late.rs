//! The late family: an outline is changed after it was cut, and slices of it are still there. The
//! original joins them to the new outline without a word; here they are of another edition. Counted is
//! what comes of them on both sides, beside what the crate makes of the new outlines when it cuts again.

use crate::call::{Call, Entry, Outcome};
use crate::cases::{self, Slices, ViewCase};
use crate::findings::{loop_text, outline_of, verdict_text};
use crate::random::Random;
use crate::realistic::{Pair, loops_of, on_segments};
use crate::shapes;
use crate::stages::{self, Selector};
use crate::tally::{Family, Tally, caught};
use cavalier_contours::polyline::internal::pline_boolean::{SliceStarts, polyline_boolean};
use cavalier_contours::polyline::{
    BooleanOp, PlineBooleanOptions, PlineSource, PlineVertex, Polyline, ViewDataValidation, own,
};
use std::collections::BTreeMap;
use std::fmt;

const FAMILY: Family = Family::Late;

/// What the late packet did to the outline.
#[derive(Debug, Clone, Copy, PartialEq, Eq, PartialOrd, Ord)]
enum Change {
    /// One vertex lies elsewhere.
    Moved,
    /// One vertex more, on a segment: the shape stays.
    Inserted,
    /// One vertex less.
    Removed,
    /// Another vertex is the first: the shape stays.
    Turned,
}

/// Which slices were cut before the change; the others are cut again.
#[derive(Debug, Clone, Copy, PartialEq, Eq, PartialOrd, Ord)]
enum Old {
    /// Those of both outlines.
    Both,
    /// Those of the outline that was changed.
    Changed,
    /// Those of the other outline: its edition is the same.
    Other,
}

/// Loops beside those that the crate makes of the new outlines.
#[derive(Debug, Clone, Copy, PartialEq, Eq)]
enum Result {
    Stopped,
    AsCutAgain,
    LoopLost,
    Another,
}

#[derive(Debug, Clone, Default)]
struct Row {
    stitches: u64,
    /// The original's verdicts on the old slices of the changed outline.
    verdict_stopped: u64,
    rejected: u64,
    /// The original's stitch, whatever the verdicts.
    stopped: u64,
    as_cut_again: u64,
    loop_lost: u64,
    another: u64,
    /// All verdicts are "valid", and the loops are lost or others.
    passed_and_wrong: u64,
    /// Our answer.
    edition: u64,
    index_or_offset: u64,
    accepted: u64,
    /// After reopening.
    not_reopened: u64,
    reopened_right: u64,
    reopened_wrong: u64,
    unmoved_wrong: u64,
}

/// What was counted, by change and by what was old.
#[derive(Debug, Clone, Default)]
pub struct Counts(BTreeMap<(Change, Old), Row>);

impl Counts {
    pub fn is_empty(&self) -> bool {
        self.0.is_empty()
    }
}

impl fmt::Display for Counts {
    fn fmt(&self, f: &mut fmt::Formatter<'_>) -> fmt::Result {
        writeln!(
            f,
            "the original: a verdict on each old slice of the changed outline, and the stitch beside \
             what is cut again\n\
             {:9} {:8} {:>8} | {:>8} {:>8} | {:>8} {:>8} {:>8} {:>8} | {:>9}",
            "change",
            "old",
            "stitches",
            "stops",
            "rejects",
            "stops",
            "same",
            "lost",
            "other",
            "valid yet"
        )?;
        for ((change, old), r) in &self.0 {
            let names = (format!("{change:?}"), format!("{old:?}"));
            writeln!(
                f,
                "{:9} {:8} {:>8} | {:>8} {:>8} | {:>8} {:>8} {:>8} {:>8} | {:>9}",
                names.0,
                names.1,
                r.stitches,
                r.verdict_stopped,
                r.rejected,
                r.stopped,
                r.as_cut_again,
                r.loop_lost,
                r.another,
                r.passed_and_wrong
            )?;
        }
        writeln!(
            f,
            "the archive: refused, or accepted as no slice is of the changed outline; and the stitch \
             after reopening\n\
             {:9} {:8} {:>8} | {:>8} {:>8} {:>8} | {:>8} {:>8} {:>8} {:>8}",
            "change",
            "old",
            "stitches",
            "14",
            "6 or 7",
            "accepted",
            "not all",
            "same",
            "wrong",
            "unmoved"
        )?;
        for ((change, old), r) in &self.0 {
            let names = (format!("{change:?}"), format!("{old:?}"));
            writeln!(
                f,
                "{:9} {:8} {:>8} | {:>8} {:>8} {:>8} | {:>8} {:>8} {:>8} {:>8}",
                names.0,
                names.1,
                r.stitches,
                r.edition,
                r.index_or_offset,
                r.accepted,
                r.not_reopened,
                r.reopened_right,
                r.reopened_wrong,
                r.unmoved_wrong
            )?;
        }
        Ok(())
    }
}

/// The outline after the change. None where it would have too few vertices.
fn changed(rng: &mut Random, outline: &[f64], change: Change) -> Option<Vec<f64>> {
    let count = outline.len() / 3;
    let at = rng.below(count);
    let mut new = outline.to_vec();
    match change {
        Change::Moved => {
            let size = outline.iter().fold(0.0f64, |most, n| most.max(n.abs()));
            new[3 * at] += size * rng.between(-0.5, 0.5);
            new[3 * at + 1] += size * rng.between(-0.5, 0.5);
        }
        Change::Inserted => {
            let pline = stages::outline(outline);
            let (v1, v2) = (pline.at(at), pline.at(pline.next_wrapping_index(at)));
            let middle = own::seg_midpoint(v1, v2);
            let split = own::seg_split_at_point(v1, v2, middle, 1e-12);
            let [start, more] = [split.updated_start, split.split_vertex];
            new[3 * at + 2] = start.bulge;
            new.splice(3 * at + 3..3 * at + 3, [more.x, more.y, more.bulge]);
        }
        Change::Removed if count < 4 => return None,
        Change::Removed => drop(new.drain(3 * at..3 * at + 3)),
        Change::Turned => new.rotate_left(3 * (1 + rng.below(count - 1))),
    }
    Some(new)
}

/// Two outlines before and after, the slices of one mode.
struct Case<'a> {
    /// Which outline was changed: 0 or 1.
    which: usize,
    old: &'a Pair,
    new: &'a Pair,
    mode: u64,
    tolerance: f64,
}

/// Slices of both outlines, some of them old.
struct Mixed {
    at: Vec<u64>,
    numbers: Vec<u64>,
    editions: Vec<u64>,
    starts: [u64; 3],
    /// The numbers of those that were cut of the changed outline before the change.
    late: Vec<usize>,
}

impl Mixed {
    /// Slices of outline 1 of `first`, those of outline 2 and the overlaps of `second`; each with the
    /// editions of its outlines. Which of the two are old, and which outline was changed.
    fn new(parts: [(&Outcome, [u64; 2], bool); 2], which: usize) -> Mixed {
        let mut mixed = Mixed {
            at: Vec::new(),
            numbers: Vec::new(),
            editions: Vec::new(),
            starts: [0; 3],
            late: Vec::new(),
        };
        for (outline, (pruned, editions, is_old)) in parts.into_iter().enumerate() {
            let slices = Slices::of(pruned);
            let first_of_2 = slices.starts[0] as usize;
            let items = slices
                .at
                .chunks_exact(4)
                .zip(slices.numbers.chunks_exact(6));
            let own = items
                .enumerate()
                .filter(|(k, _)| (*k < first_of_2) == (outline == 0));
            for (_, (at, numbers)) in own {
                if is_old && at[0] as usize == which + 1 {
                    mixed.late.push(mixed.editions.len());
                }
                mixed.at.extend(at);
                mixed.numbers.extend(numbers);
                mixed.editions.push(editions[at[0] as usize - 1]);
            }
            if outline == 0 {
                mixed.starts = [mixed.editions.len() as u64; 3];
            } else {
                mixed.starts[1] += slices.starts[1] - slices.starts[0];
                mixed.starts[2] += slices.starts[2] - slices.starts[0];
            }
        }
        mixed
    }

    fn slices(&self) -> Slices<'_> {
        Slices {
            at: &self.at,
            numbers: &self.numbers,
            editions: &self.editions,
            starts: self.starts,
        }
    }

    fn view(&self, slice: usize) -> ViewCase {
        let at = &self.at[4 * slice..4 * slice + 4];
        let numbers = crate::call::numbers_of(&self.numbers[6 * slice..6 * slice + 6]);
        ViewCase {
            start: at[2] as usize,
            offset: at[3] as usize,
            numbers: numbers.try_into().unwrap(),
            inverted: at[1] == 1,
        }
    }
}

/// The size of each loop that has one, in order.
fn areas<'a>(loops: impl Iterator<Item = &'a [f64]>) -> Vec<f64> {
    let mut areas: Vec<f64> = loops
        .map(|l| stages::outline(l).area().abs())
        .filter(|area| *area > 1e-9)
        .collect();
    areas.sort_by(f64::total_cmp);
    areas
}

fn result(found: &[f64], cut_again: &[f64]) -> Result {
    let near = |(a, b): (&f64, &f64)| (a - b).abs() <= 1e-6 * b.max(1.0);
    if found.len() < cut_again.len() {
        Result::LoopLost
    } else if found.len() == cut_again.len() && found.iter().zip(cut_again).all(near) {
        Result::AsCutAgain
    } else {
        Result::Another
    }
}

fn numbers_of(pline: &Polyline) -> Vec<f64> {
    let one = |v: &PlineVertex| [v.x, v.y, v.bulge];
    pline.vertex_data.iter().flat_map(one).collect()
}

impl Case<'_> {
    fn selector(&self) -> u64 {
        u64::from(self.mode >= 2)
    }

    /// The editions of the outlines before and after.
    fn editions(&self) -> [[u64; 2]; 2] {
        let before = self.old.outlines().map(cases::edition_of);
        let mut after = before;
        after[self.which] = u64::from((before[self.which] as u32).wrapping_add(1));
        [before, after]
    }

    /// The crate's own operation on the new outlines.
    fn cut_again(&self) -> Option<Vec<f64>> {
        let [a, b] = self.new.outlines().map(stages::outline);
        let options = PlineBooleanOptions {
            pline1_aabb_index: None,
            pos_equal_eps: self.tolerance,
            collapsed_area_eps: None,
        };
        let (first, second, operation) = match self.mode {
            0 => (&a, &b, BooleanOp::Or),
            1 => (&a, &b, BooleanOp::And),
            2 => (&a, &b, BooleanOp::Not),
            _ => (&b, &a, BooleanOp::Not),
        };
        let result =
            caught(|| polyline_boolean::<_, _, Polyline, _>(first, second, operation, &options))?;
        let all = result.pos_plines.iter().chain(&result.neg_plines);
        let loops: Vec<Vec<f64>> = all.map(|r| numbers_of(&r.pline)).collect();
        Some(areas(loops.iter().map(Vec::as_slice)))
    }

    /// The original's stitch of these slices with the new outlines.
    fn original(&self, mixed: &Mixed) -> Option<Vec<f64>> {
        let [a, b] = self.new.outlines().map(stages::outline);
        let counts: Vec<usize> = mixed.at.iter().map(|n| *n as usize).collect();
        let slices = stages::slices(&counts, &crate::call::numbers_of(&mixed.numbers));
        let [pline2, pline1_overlapping, pline2_overlapping] =
            mixed.starts.map(|start| start as usize);
        let starts = SliceStarts {
            pline2,
            pline1_overlapping,
            pline2_overlapping,
        };
        let selector = Selector::new(self.selector(), starts);
        let loops = caught(|| {
            stages::stitch::<_, Polyline>(&slices, &a, &b, &selector, self.tolerance, None)
        })?;
        let loops: Vec<Vec<f64>> = loops.iter().map(|r| numbers_of(&r.pline)).collect();
        Some(areas(loops.iter().map(Vec::as_slice)))
    }

    /// The original's verdict on a view of the new outline: none where it stops.
    fn original_verdict(&self, view: &ViewCase) -> Option<bool> {
        let pline = stages::outline(self.new.outlines()[self.which]);
        let data = stages::view_data(view.start, view.offset, &view.numbers, view.inverted);
        let verdict = caught(|| stages::validate(&pline, &data))?;
        Some(verdict == ViewDataValidation::IsValid)
    }

    fn stitch(&self, rng: &mut Random, mixed: &Mixed) -> Call {
        let [_, after] = self.editions();
        let (selector, t) = (self.selector(), self.tolerance);
        let outlines = self.new.outlines();
        cases::stitch_of(rng, outlines, after, &mixed.slices(), selector, t)
    }

    /// Reopens each old slice of the changed outline. Whether all were valid, and whether all are
    /// unmoved.
    fn reopen(&self, tally: &mut Tally, mixed: &mut Mixed) -> [bool; 2] {
        let [before, after] = self.editions().map(|editions| editions[self.which]);
        let [old, new] = [self.old, self.new].map(|pair| pair.outlines()[self.which]);
        let mut all = [true; 2];
        for slice in mixed.late.clone() {
            let view = mixed.view(slice);
            let on = on_segments(new, &view);
            let editions = [after, before];
            let call = cases::verdict(Entry::ValidateForSource, new, &view, editions, on);
            tally.compare(FAMILY, &call);
            let call = cases::verdict(Entry::Reopen, new, &view, editions, on);
            let reopened = tally.compare(FAMILY, &call);
            let moved = tally.compare(FAMILY, &cases::unmoved([old, new], &view));
            if reopened.answer[0] == 0 {
                mixed.editions[slice] = reopened.answer[11];
            }
            all[0] &= reopened.answer[1] == 7;
            all[1] &= moved.answer[1] == 1;
        }
        all
    }

    fn run(&self, tally: &mut Tally, rng: &mut Random, change: Change, pruned: [&Outcome; 2]) {
        let Some(cut_again) = self.cut_again() else {
            return;
        };
        let [before, after] = self.editions();
        let [old, new] = [(pruned[0], before, true), (pruned[1], after, false)];
        let changed_is_old = if self.which == 0 {
            [old, new]
        } else {
            [new, old]
        };
        let other_is_old = if self.which == 0 {
            [new, old]
        } else {
            [old, new]
        };
        for (kept, parts) in [
            (Old::Both, [old, old]),
            (Old::Changed, changed_is_old),
            (Old::Other, other_is_old),
        ] {
            let mixed = Mixed::new(parts, self.which);
            if mixed.editions.is_empty() {
                continue;
            }
            let row = self.count(tally, rng, mixed, &cut_again);
            tally.late.add((change, kept), &row);
        }
    }

    /// One stitch of old slices, on both sides.
    fn count(&self, tally: &mut Tally, rng: &mut Random, mut mixed: Mixed, again: &[f64]) -> Row {
        let mut row = Row {
            stitches: 1,
            ..Row::default()
        };
        let verdicts: Vec<Option<bool>> = mixed
            .late
            .iter()
            .map(|slice| self.original_verdict(&mixed.view(*slice)))
            .collect();
        let found = self.original(&mixed);
        let came = found.map_or(Result::Stopped, |found| result(&found, again));
        let passed = verdicts.iter().all(|verdict| *verdict == Some(true));
        row.verdict_stopped = u64::from(verdicts.contains(&None));
        row.rejected = u64::from(!passed) - row.verdict_stopped;
        row.stopped = u64::from(came == Result::Stopped);
        row.as_cut_again = u64::from(came == Result::AsCutAgain);
        row.loop_lost = u64::from(came == Result::LoopLost);
        row.another = u64::from(came == Result::Another);
        let is_asked = !mixed.late.is_empty();
        row.passed_and_wrong = u64::from(is_asked && passed && came != Result::AsCutAgain);

        let refused = tally.compare(FAMILY, &self.stitch(rng, &mixed)).answer[0];
        row.edition = u64::from(refused == 14);
        row.index_or_offset = u64::from(refused == 6 || refused == 7);
        row.accepted = u64::from(refused == 0);
        if mixed.late.is_empty() {
            return row;
        }
        tally.claim("late: no old slice is stitched", refused != 0, || {
            format!("mode {} of {:?}", self.mode, self.new.outlines())
        });

        let [all_valid, all_unmoved] = self.reopen(tally, &mut mixed);
        let stitched = tally.compare(FAMILY, &self.stitch(rng, &mixed));
        let is_accepted = stitched.answer[0] == 0;
        tally.claim(
            "late: stitched where all were reopened",
            is_accepted == all_valid,
            || format!("mode {} of {:?}", self.mode, self.new.outlines()),
        );
        row.not_reopened = u64::from(!all_valid);
        if is_accepted {
            let loops = loops_of(&stitched);
            let is_right =
                result(&areas(loops.iter().map(Vec::as_slice)), again) == Result::AsCutAgain;
            row.reopened_right = u64::from(is_right);
            row.reopened_wrong = u64::from(!is_right);
            row.unmoved_wrong = u64::from(!is_right && all_unmoved);
        }
        row
    }
}

impl Counts {
    fn add(&mut self, key: (Change, Old), one: &Row) {
        let row = self.0.entry(key).or_default();
        row.stitches += one.stitches;
        row.verdict_stopped += one.verdict_stopped;
        row.rejected += one.rejected;
        row.stopped += one.stopped;
        row.as_cut_again += one.as_cut_again;
        row.loop_lost += one.loop_lost;
        row.another += one.another;
        row.passed_and_wrong += one.passed_and_wrong;
        row.edition += one.edition;
        row.index_or_offset += one.index_or_offset;
        row.accepted += one.accepted;
        row.not_reopened += one.not_reopened;
        row.reopened_right += one.reopened_right;
        row.reopened_wrong += one.reopened_wrong;
        row.unmoved_wrong += one.unmoved_wrong;
    }
}

/// A pair of outlines, one of them changed, the four modes.
pub fn scenario(tally: &mut Tally, rng: &mut Random) {
    let largest = rng.pick(&[4, 6, 8, 12, 24]);
    let [a, b] = shapes::pair(rng, largest);
    let tolerance = rng.pick(&[1e-5, 1e-5, 1.0 / 1024.0, 1e-8]);
    let change = rng.pick(&[
        Change::Moved,
        Change::Inserted,
        Change::Removed,
        Change::Turned,
    ]);
    let which = rng.below(2);
    let mut after = [a.clone(), b.clone()];
    let Some(new) = changed(rng, &after[which], change) else {
        return;
    };
    after[which] = new;
    let [c, d] = after;
    let pairs = caught(|| [Pair::new(a, b, tolerance), Pair::new(c, d, tolerance)]);
    let Some([old, new]) = pairs else {
        return;
    };
    for mode in 0..4 {
        let scratch = &mut Tally::default();
        let pruned = [&old, &new].map(|pair| pair.slices(scratch, rng, mode));
        tally.claim(
            "late: the slices are the original's",
            scratch.is_clean(),
            || {
                format!(
                    "mode {mode} of {:?} and {:?}",
                    old.outlines(),
                    new.outlines()
                )
            },
        );
        let [Some(before), Some(again)] = &pruned else {
            return;
        };
        let case = Case {
            which,
            old: &old,
            new: &new,
            mode,
            tolerance,
        };
        case.run(tally, rng, change, [before, again]);
    }
}

/// Claim 4 of docs/REOPENING.md: slices that are all valid and unmoved, and still do not make the new
/// union. And the two examples of docs/LATE_PACKET.md.
pub fn show() {
    let square = [[0.0, 0.0], [4.0, 0.0], [4.0, 4.0], [0.0, 4.0]];
    let b = [[2.0, 2.0], [6.0, 2.0], [6.0, 6.0], [2.0, 6.0]];
    show_one(
        "a vertex more on the lower edge: the same square, other numbers",
        [&square, &b],
        &[[0.0, 0.0], [2.0, 0.0], [4.0, 0.0], [4.0, 4.0], [0.0, 4.0]],
        Old::Both,
    );
    show_one(
        "a corner moved, and B cut again: the ends do not meet",
        [&square, &b],
        &[[0.0, 0.0], [5.0, 0.0], [4.0, 4.0], [0.0, 4.0]],
        Old::Changed,
    );
    let six = [
        [0.0, 0.0],
        [4.0, 0.0],
        [4.0, 3.0],
        [4.0, 4.0],
        [3.0, 4.0],
        [0.0, 4.0],
    ];
    let mut late = six;
    late[3] = [10.0, 10.0];
    show_one(
        "claim 4 of docs/REOPENING.md: all valid and unmoved, and not the new union",
        [&six, &b],
        &late,
        Old::Both,
    );
}

fn show_loops(loops: &[Vec<f64>]) {
    for l in loops {
        println!("    {}", loop_text(l));
    }
    if loops.is_empty() {
        println!("    none");
    }
}

/// The union of A and B, with A changed after it was cut.
fn show_one(what: &str, before: [&[[f64; 2]]; 2], late: &[[f64; 2]], kept: Old) {
    let [a, b] = before.map(outline_of);
    let tolerance = 1.0 / 1024.0;
    let old = Pair::new(a, b.clone(), tolerance);
    let new = Pair::new(outline_of(late), b, tolerance);
    let (tally, rng) = (&mut Tally::default(), &mut Random::new(1));
    println!("late: {what}, t = 1/1024");
    println!("  A before = {}", loop_text(old.outlines()[0]));
    println!("  A after  = {}", loop_text(new.outlines()[0]));
    println!("  B        = {}", loop_text(old.outlines()[1]));
    let pruned = [&old, &new].map(|pair| pair.slices(tally, rng, 0).expect("two slices at least"));
    let case = Case {
        which: 0,
        old: &old,
        new: &new,
        mode: 0,
        tolerance,
    };
    let [editions, after] = case.editions();
    let second = match kept {
        Old::Changed => (&pruned[1], after, false),
        _ => (&pruned[0], editions, true),
    };
    let mut mixed = Mixed::new([(&pruned[0], editions, true), second], 0);
    println!("  old slices of A, and the crate's verdict on each of them on the new A:");
    for slice in mixed.late.clone() {
        let view = mixed.view(slice);
        let on = on_segments(new.outlines()[0], &view);
        let call = cases::verdict(
            Entry::Reopen,
            new.outlines()[0],
            &view,
            [after[0], editions[0]],
            on,
        );
        let reopened = tally.compare(FAMILY, &call);
        let outlines = [old.outlines()[0], new.outlines()[0]];
        let moved = tally.compare(FAMILY, &cases::unmoved(outlines, &view));
        let n = view.numbers;
        println!(
            "    from ({},{}) to ({},{}), start {}, offset {}: {}; {}",
            n[0],
            n[1],
            n[4],
            n[5],
            view.start,
            view.offset,
            verdict_text(reopened.answer[1]),
            match moved.answer[1] {
                1 => "unmoved".to_string(),
                _ => format!("vertex {} has moved", moved.answer[2]),
            }
        );
    }
    let stitched = tally.compare(FAMILY, &case.stitch(rng, &mixed));
    println!(
        "  the archive's stitch: refused, number {}",
        stitched.answer[0]
    );
    println!(
        "  the crate's stitch of the same slices, and the archive's if their edition were passed over:"
    );
    for slice in mixed.late.clone() {
        mixed.editions[slice] = after[0];
    }
    let stitched = tally.compare(FAMILY, &case.stitch(rng, &mixed));
    show_loops(&loops_of(&stitched));
    println!("  cut again:");
    let union = new
        .union(tally, rng)
        .expect("the union of the new outlines");
    show_loops(&union);
    assert!(tally.is_clean(), "a difference");
    println!();
}
