//! `masks check`: which slices of a record can be kept where one of its outlines has changed. docs/REOPENING.md gives
//! the reasons.

use crate::args::Check;
use crate::failure::{Failure, Status};
use crate::geometry::on_segment;
use crate::input;
use crate::number::word;
use crate::outline;
use crate::output::Out;
use crate::pbr;
use mask_tools::{
    OnSegment, Outline, Point, Record, RecordContents, RecordSlice, Refusal, Verdict, Vertex, View,
};
use serde_json::{json, Value};

/// What is known of one slice.
struct Judged {
    /// Its number in the record.
    number: usize,
    /// The verdict on the new outline.
    verdict: Result<Verdict, Refusal>,
    /// The edition that it has from then on.
    edition: u32,
    /// The first vertex that has moved, if any has.
    moved: Result<Option<usize>, Refusal>,
}

/// What is to be done with one slice.
#[derive(Debug, Clone, Copy, PartialEq, Eq)]
enum Advice {
    Reopen,
    CutAgain,
    RejectOutline,
}

/// What is compared: the slices of one outline of the record, on the old outline and on the new one.
struct Question {
    source: u8,
    old: Outline,
    new: Outline,
}

/// Judges each slice of the outline that has changed, and the stitch as a whole.
pub fn run(args: &Check) -> Result<Status, Failure> {
    let contents = contents(args)?;
    let question = question(args, &contents)?;
    let judged: Vec<Judged> = contents
        .slices
        .iter()
        .enumerate()
        .filter(|(_, slice)| slice.source_code == question.source)
        .map(|(number, slice)| judged(number, slice, &question))
        .collect();
    let whole = same(question.old.vertices(), question.new.vertices())
        && judged.iter().all(|j| j.advice() == Advice::Reopen);
    let mut out = Out::new();
    if args.json {
        out.json(&json(&question, &judged, whole))?;
    } else {
        for line in lines(&question, &judged, whole) {
            out.line(&line)?;
        }
    }
    out.finish()?;
    Ok(if whole { Status::Good } else { Status::Found })
}

/// The record's contents; it has to be one that is run again.
fn contents(args: &Check) -> Result<RecordContents, Failure> {
    let bytes = input::record(&args.record)?;
    let record = Record::from_bytes(&bytes.bytes[..]);
    let refused = |refusal: Refusal| Failure::Refused {
        name: input::name_of(&args.record),
        number: refusal.number(),
        why: pbr::why(refusal.number(), &bytes),
    };
    record.replay().map_err(refused)?;
    record.contents().map_err(refused)
}

fn question(args: &Check, contents: &RecordContents) -> Result<Question, Failure> {
    let read = |path| outline::read(&input::name_of(path), &input::text(path)?);
    let (old, new) = (read(&args.old)?, read(&args.new)?);
    let source = source_of(args, contents, &old.vertices)?;
    let sealed = if source == 1 {
        &contents.pline1
    } else {
        &contents.pline2
    };
    let old = old.outline(sealed.edition());
    let new = new.outline(old.edition().wrapping_add(1));
    Ok(Question { source, old, new })
}

/// Which outline of the record the old one is.
fn source_of(args: &Check, contents: &RecordContents, old: &[Vertex]) -> Result<u8, Failure> {
    let is = [
        same(old, contents.pline1.vertices()),
        same(old, contents.pline2.vertices()),
    ];
    let unfit = |why: String| Failure::Unfit {
        name: input::name_of(&args.old),
        why,
    };
    match (args.outline, is) {
        (Some(number), _) if is[usize::from(number) - 1] => Ok(number),
        (Some(number), _) => Err(unfit(format!("this is not outline {number} of {}", input::name_of(&args.record)))),
        (None, [true, false]) => Ok(1),
        (None, [false, true]) => Ok(2),
        (None, [true, true]) => Err(Failure::Usage(format!(
            "{}: the two outlines of the record are the same: say with --outline which of them has changed",
            input::name_of(&args.old)
        ))),
        (None, [false, false]) => Err(unfit(format!("this is neither outline of {}, bit for bit", input::name_of(&args.record)))),
    }
}

/// The same vertices, bit for bit.
fn same(one: &[Vertex], other: &[Vertex]) -> bool {
    let bits = |v: &Vertex| [v.x.to_bits(), v.y.to_bits(), v.bulge.to_bits()];
    one.len() == other.len() && one.iter().map(bits).eq(other.iter().map(bits))
}

fn judged(number: usize, slice: &RecordSlice, question: &Question) -> Judged {
    let mut view = slice.view;
    let verdict = view.reopen(&question.new, ends(&slice.view, &question.new));
    Judged {
        number,
        verdict,
        edition: view.edition,
        moved: slice.view.first_moved(&question.old, &question.new),
    }
}

/// The host's word on where the ends of a view lie.
fn ends(view: &View, outline: &Outline) -> OnSegment {
    let vertices = outline.vertices().len().max(1);
    let lies = |index: usize, point: Point| {
        let segment = outline.segment(index % vertices);
        segment.map_or(false, |(from, to)| on_segment(from, to.pos(), point))
    };
    OnSegment {
        start: lies(view.start_index, view.updated_start.pos()),
        end: lies(
            view.start_index.saturating_add(view.end_index_offset),
            view.end_point,
        ),
    }
}

impl Judged {
    fn advice(&self) -> Advice {
        match (&self.verdict, &self.moved) {
            (Ok(Verdict::IsValid), Ok(None)) => Advice::Reopen,
            (Ok(Verdict::SourceHasNoSegments), _) => Advice::RejectOutline,
            (Err(Refusal::Outline | Refusal::Number), _) => Advice::RejectOutline,
            _ => Advice::CutAgain,
        }
    }

    fn verdict(&self) -> String {
        match &self.verdict {
            Ok(verdict) => verdict_words(verdict),
            Err(refusal) => refusal.to_string(),
        }
    }

    fn moved(&self) -> String {
        match &self.moved {
            Ok(None) => "unmoved".to_string(),
            Ok(Some(first)) => format!("its vertex {first} has moved"),
            Err(refusal) => format!("not comparable ({refusal})"),
        }
    }

    fn what_to_do(&self) -> String {
        match self.advice() {
            Advice::Reopen => format!("reopen it: edition {}", self.edition),
            Advice::CutAgain => "cut again".to_string(),
            Advice::RejectOutline => "reject the outline".to_string(),
        }
    }
}

fn verdict_words(verdict: &Verdict) -> String {
    let at = |p: &Point| format!("({}, {})", word(p.x), word(p.y));
    match verdict {
        Verdict::SourceHasNoSegments => "the new outline has no segments".to_string(),
        Verdict::OffsetOutOfRange {
            offset,
            source_length,
        } => {
            format!("its offset {offset} is past the new outline's {source_length} vertices")
        }
        Verdict::UpdatedStartNotOnSegment { start_point } => {
            format!("its start {} is off its segment", at(start_point))
        }
        Verdict::EndPointNotOnSegment { end_point } => {
            format!("its end {} is off its segment", at(end_point))
        }
        Verdict::EndPointOnFinalOffsetVertex { end_point, .. } => {
            format!(
                "its end {} is on the vertex with which its last segment starts",
                at(end_point)
            )
        }
        Verdict::UpdatedBulgeDoesNotMatch {
            updated_bulge,
            expected,
        } => {
            format!(
                "its end bulge {} is not its start's, {}",
                word(*updated_bulge),
                word(*expected)
            )
        }
        Verdict::IsValid => "valid".to_string(),
    }
}

fn lines(question: &Question, judged: &[Judged], whole: bool) -> Vec<String> {
    let mut lines: Vec<String> = judged
        .iter()
        .map(|one| {
            format!(
                "slice {}: {}; {}: {}",
                one.number,
                one.verdict(),
                one.moved(),
                one.what_to_do()
            )
        })
        .collect();
    if judged.is_empty() {
        lines.push(format!("no slice is of outline {}", question.source));
    }
    lines.push(stitch_words(question, whole));
    lines
}

/// What is to be done with the stitch as a whole.
fn stitch_words(question: &Question, whole: bool) -> String {
    let same = same(question.old.vertices(), question.new.vertices());
    match (whole, same) {
        (true, _) => {
            "stitch: both outlines are the same as a whole: reopen every slice, and stitch"
                .to_string()
        }
        (false, true) => "stitch: cut both outlines again".to_string(),
        (false, false) => format!(
            "stitch: outline {} has changed: cut both outlines again",
            question.source
        ),
    }
}

fn json(question: &Question, judged: &[Judged], whole: bool) -> Value {
    let slice = |one: &Judged| {
        json!({
            "slice": one.number,
            "valid": matches!(one.verdict, Ok(Verdict::IsValid)),
            "verdict": one.verdict(),
            "unmoved": matches!(one.moved, Ok(None)),
            "first_moved": one.moved.as_ref().ok().and_then(|first| *first),
            "advice": match one.advice() {
                Advice::Reopen => "reopen",
                Advice::CutAgain => "cut again",
                Advice::RejectOutline => "reject the outline",
            },
            "edition": one.edition,
        })
    };
    json!({
        "outline": question.source,
        "old_edition": question.old.edition(),
        "new_edition": question.new.edition(),
        "same_outline": same(question.old.vertices(), question.new.vertices()),
        "slices": judged.iter().map(slice).collect::<Vec<Value>>(),
        "reopen_stitch": whole,
    })
}
