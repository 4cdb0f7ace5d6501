//! Holds the boundary against the text of `include/mask.h`: the layout of each struct, the
//! parameters of each function, the number of each code. No compiler compares the two.

use super::{
    AreaAnswer, CountAnswer, DoneAnswer, EditionAnswer, HandleAnswer, PruneAnswer, ReopenAnswer,
    ReplayAnswer, ReportAnswer, SettingAnswer, SpanAnswer, StitchAnswer, UnmovedAnswer,
    VerdictAnswer, VertexAnswer, View, ViewAnswer, WindingAnswer,
};
use crate::cuts::MOST_CUTS;
use crate::slices::MOST_SLICES;
use crate::stitch::MOST_VERTICES;
use crate::{ChainEnd, Mode, Point, Record, Refusal, Selector, Split, Starts, Vertex};
use std::mem::{align_of, size_of};

const HEADER: &str = include_str!("../../../../include/mask.h");
const BOUNDARY: &str = include_str!("archive.rs");

/// The header's text without comments.
fn header() -> String {
    let mut text = String::new();
    let mut rest = HEADER;
    while let Some((before, after)) = rest.split_once("/*") {
        text.push_str(before);
        rest = after.split_once("*/").expect("a comment ends").1;
    }
    text + rest
}

/// What stands between two texts, from the first place on where the first one stands.
fn between<'a>(text: &'a str, before: &str, after: &str) -> &'a str {
    let (_, rest) = text
        .split_once(before)
        .unwrap_or_else(|| panic!("no `{before}`"));
    rest.split_once(after)
        .unwrap_or_else(|| panic!("no `{after}` after `{before}`"))
        .0
}

/// The type and the name of each field of a struct of the header.
fn fields(name: &str) -> Vec<(String, String)> {
    let text = header();
    between(&text, &format!("typedef struct {name} {{"), "}")
        .split(';')
        .filter_map(|field| field.trim().split_once(' '))
        .map(|(kind, name)| (kind.to_string(), name.to_string()))
        .collect()
}

/// Size and alignment of a type of the header on x86-64.
fn size_and_alignment(kind: &str) -> (usize, usize) {
    match kind {
        "double" | "size_t" | "int64_t" | "uint64_t" => (8, 8),
        "uint32_t" => (4, 4),
        name => {
            let (size, alignment, _) = layout(name);
            (size, alignment)
        }
    }
}

/// Size, alignment, and the offset of each field of a struct of the header.
fn layout(name: &str) -> (usize, usize, Vec<(String, usize)>) {
    let round_up = |at: usize, to: usize| (at + to - 1) / to * to;
    let (mut end, mut most) = (0, 1);
    let mut offsets = Vec::new();
    for (kind, field) in fields(name) {
        let (size, alignment) = size_and_alignment(&kind);
        end = round_up(end, alignment);
        offsets.push((field, end));
        end += size;
        most = most.max(alignment);
    }
    (round_up(end, most), most, offsets)
}

/// The same of a struct of this crate, read from its memory.
macro_rules! layout_here {
    ($kind:ident: $($field:ident),*) => {{
        let value = $kind::default();
        let start = &value as *const $kind as usize;
        let offsets = vec![$((
            stringify!($field).to_string(),
            &value.$field as *const _ as usize - start,
        )),*];
        (size_of::<$kind>(), align_of::<$kind>(), offsets)
    }};
}

/// What the header defines a name as.
fn defined(name: &str) -> String {
    let text = header();
    between(&text, &format!("#define {name} "), "\n")
        .trim()
        .to_string()
}

#[test]
fn version_and_sizes_are_those_of_the_header() {
    assert_eq!(
        defined("MASK_VERSION"),
        format!("{:?}", env!("CARGO_PKG_VERSION"))
    );
    assert_eq!(defined("MASK_MOST_VERTICES"), MOST_VERTICES.to_string());
    assert_eq!(defined("MASK_MOST_CUTS"), MOST_CUTS.to_string());
    assert_eq!(defined("MASK_MOST_SLICES"), MOST_SLICES.to_string());
    assert_eq!(defined("MASK_MOST_LOOPS"), MOST_SLICES.to_string());
    let of_records = [
        ("MASK_RECORD_MOST_VERTICES", Record::MOST_VERTICES),
        ("MASK_RECORD_MOST_SLICES", Record::MOST_SLICES),
        ("MASK_RECORD_MOST_BYTES", Record::MOST_BYTES),
        ("MASK_RECORD_MOST_ROOM", Record::MOST_ROOM),
    ];
    for (name, here) in of_records {
        assert_eq!(defined(name), here.to_string());
    }
}

#[test]
fn structs_lie_as_in_the_header() {
    let here = [
        ("mask_point", layout_here!(Point: x, y)),
        ("mask_vertex", layout_here!(Vertex: x, y, bulge)),
        (
            "mask_view",
            layout_here!(View: start_index, end_index_offset, updated_start, updated_end_bulge,
                end_point, inverted_direction),
        ),
        (
            "mask_split",
            layout_here!(Split: updated_start, split_vertex),
        ),
        (
            "mask_starts",
            layout_here!(Starts: pline2, pline1_overlapping, pline2_overlapping),
        ),
        (
            "mask_vertex_answer",
            layout_here!(VertexAnswer: refusal, found, vertex),
        ),
        (
            "mask_view_answer",
            layout_here!(ViewAnswer: refusal, found, view),
        ),
        (
            "mask_span_answer",
            layout_here!(SpanAnswer: refusal, moved, start_index, traverse_count),
        ),
        (
            "mask_verdict_answer",
            layout_here!(VerdictAnswer: refusal, verdict, offset, source_length, point, vertex,
                updated_bulge, expected),
        ),
        (
            "mask_reopen_answer",
            layout_here!(ReopenAnswer: refusal, verdict, offset, source_length, point, vertex,
                updated_bulge, expected, edition),
        ),
        (
            "mask_unmoved_answer",
            layout_here!(UnmovedAnswer: refusal, unmoved, first),
        ),
        (
            "mask_count_answer",
            layout_here!(CountAnswer: refusal, count),
        ),
        (
            "mask_prune_answer",
            layout_here!(PruneAnswer: refusal, slices, starts),
        ),
        (
            "mask_stitch_answer",
            layout_here!(StitchAnswer: refusal, rounds, loops, chains),
        ),
        (
            "mask_winding_answer",
            layout_here!(WindingAnswer: refusal, winding),
        ),
        (
            "mask_area_answer",
            layout_here!(AreaAnswer: refusal, negative, high, low),
        ),
        (
            "mask_report_answer",
            layout_here!(ReportAnswer: refusal, count, zero, high, low),
        ),
        (
            "mask_edition_answer",
            layout_here!(EditionAnswer: refusal, edition),
        ),
        (
            "mask_setting_answer",
            layout_here!(SettingAnswer: refusal, tolerance_x, tolerance_y, area_limit),
        ),
        (
            "mask_replay_answer",
            layout_here!(ReplayAnswer: refusal, version, slices, rounds, loops, chains),
        ),
        (
            "mask_handle_answer",
            layout_here!(HandleAnswer: refusal, handle),
        ),
        ("mask_done_answer", layout_here!(DoneAnswer: refusal)),
    ];
    for (name, here) in here {
        assert_eq!(layout(name), here, "{name}");
    }
}

#[test]
fn sizes_that_were_reckoned_by_hand() {
    assert_eq!(size_of::<Vertex>(), 24);
    assert_eq!(size_of::<View>(), 72);
    assert_eq!(size_of::<VerdictAnswer>(), 80);
    assert_eq!(size_of::<ReopenAnswer>(), 88);
    assert_eq!(size_of::<UnmovedAnswer>(), 16);
    assert_eq!(size_of::<PruneAnswer>(), 40);
    assert_eq!(size_of::<AreaAnswer>(), 24);
    assert_eq!(size_of::<ReplayAnswer>(), 40);
}

/// A function: its name, its parameters (name and type), its answer's type.
type Function = (String, Vec<(String, String)>, String);

/// The functions that the header declares, said in Rust's words.
fn declared() -> Vec<Function> {
    let text = header();
    text.split(';')
        .filter_map(|statement| statement.split_once('('))
        .map(|(head, parameters)| {
            let mut words = head.split_whitespace().rev();
            let name = words.next().expect("a name").to_string();
            let answer = rust_type(words.next().expect("a type"));
            let parameters = parameters.trim_end_matches(')').split(',');
            (name, parameters.map(c_parameter).collect(), answer)
        })
        .collect()
}

/// `const double *hit` as `hit` and `*const f64`.
fn c_parameter(text: &str) -> (String, String) {
    let (kind, name) = text.trim().rsplit_once(' ').expect("a type and a name");
    match name.strip_prefix('*') {
        None => (name.to_string(), rust_type(kind)),
        Some(name) => {
            let (word, kind) = match kind.strip_prefix("const ") {
                Some(kind) => ("const", kind),
                None => ("mut", kind),
            };
            (name.to_string(), format!("*{word} {}", rust_type(kind)))
        }
    }
}

fn rust_type(kind: &str) -> String {
    match kind {
        "double" => "f64".to_string(),
        "size_t" => "usize".to_string(),
        "uint32_t" => "u32".to_string(),
        "int64_t" => "i64".to_string(),
        "uint64_t" => "u64".to_string(),
        "uint8_t" => "u8".to_string(),
        name => name
            .strip_prefix("mask_")
            .unwrap_or_else(|| panic!("the type {name} is not known"))
            .split('_')
            .map(|word| word[..1].to_uppercase() + &word[1..])
            .collect(),
    }
}

/// The functions that the boundary declares, with a pointer and a length for each slice.
fn bound() -> Vec<Function> {
    let block = between(BOUNDARY, "declare_entries! {", "\n    }");
    block
        .split(';')
        .filter_map(|function| function.split_once('('))
        .map(|(head, rest)| {
            let (name, here) = head.trim().split_once(" as ").expect("both names");
            assert_eq!(name.strip_prefix("mask_"), Some(here));
            let (parameters, answer) = rest.split_once(") -> ").expect("their end");
            let parameters = parameters
                .split(',')
                .filter_map(|parameter| parameter.trim().split_once(": "))
                .flat_map(|(name, kind)| handed_on(name, kind))
                .collect();
            (name.to_string(), parameters, answer.to_string())
        })
        .collect()
}

/// `hit: &[f64]` as `hit: *const f64` and `hit_len: usize`.
fn handed_on(name: &str, kind: &str) -> Vec<(String, String)> {
    let list = |word: &str, of: &str| {
        let of = of.trim_end_matches(']');
        let pointer = (name.to_string(), format!("*{word} {of}"));
        vec![pointer, (format!("{name}_len"), "usize".to_string())]
    };
    match (kind.strip_prefix("&["), kind.strip_prefix("&mut [")) {
        (Some(of), _) => list("const", of),
        (_, Some(of)) => list("mut", of),
        _ => vec![(name.to_string(), kind.to_string())],
    }
}

#[test]
fn functions_are_declared_in_the_header() {
    let declared = declared();
    let bound = bound();
    assert_eq!(bound.len(), 29);
    for here in bound {
        let there = declared.iter().find(|there| there.0 == here.0);
        assert_eq!(there, Some(&here));
    }
}

/// The names and numbers of an enum of the header, without the prefix.
fn codes(name: &str, prefix: &str) -> Vec<(String, u32)> {
    let text = header();
    between(&text, &format!("enum {name} {{"), "}")
        .split(',')
        .map(|code| {
            let (name, number) = code.split_once('=').expect("a name and a number");
            let name = name.trim().strip_prefix(prefix).unwrap_or(name.trim());
            (name.to_string(), number.trim().parse().expect("a number"))
        })
        .collect()
}

/// `OrAnd` as `OR_AND`.
fn header_name(case: impl std::fmt::Debug) -> String {
    let mut name = String::new();
    for letter in format!("{case:?}").chars() {
        if letter.is_uppercase() && !name.is_empty() {
            name.push('_');
        }
        name.extend(letter.to_uppercase());
    }
    name
}

/// Each of these stands in the header's enum, with the same number.
fn assert_codes(name: &str, prefix: &str, here: impl IntoIterator<Item = (String, u32)>) {
    let there = codes(name, prefix);
    for code in here {
        assert!(there.contains(&code), "{name} has no {code:?}: {there:?}");
    }
}

#[test]
fn codes_are_those_of_the_header() {
    let refusals = (1..=9)
        .chain(11..=22)
        .map(|n| (header_name(Refusal::from_number(n).unwrap()), n));
    assert_codes("mask_refusal", "MASK_REFUSED_", refusals);
    let modes = Mode::ALL.map(|mode| (header_name(mode), mode.code()));
    assert_codes("mask_mode", "MASK_MODE_", modes);
    let selectors = [Selector::OrAnd, Selector::NotXor].map(|s| (header_name(s), s.code()));
    assert_codes("mask_selector", "MASK_SELECTOR_", selectors);
    let endings = [0, 1, 2, 3].map(|n| (header_name(ChainEnd::of_code(n)), n as u32));
    assert_codes("mask_chain_end", "MASK_CHAIN_", endings);
}

#[test]
fn verdicts_are_those_of_the_header() {
    let verdicts = [
        "NO_SEGMENTS",
        "OFFSET",
        "START_NOT_ON_SEGMENT",
        "END_NOT_ON_SEGMENT",
        "END_ON_FINAL_VERTEX",
        "BULGE_MISMATCH",
        "VALID",
    ];
    let numbered = verdicts.map(str::to_string).into_iter().zip(1..);
    assert_codes("mask_verdict", "MASK_VERDICT_", numbered);
}
