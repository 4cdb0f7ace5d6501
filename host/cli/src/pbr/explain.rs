//! The word beside a refusal's number: which slice, which field, what it holds. The number is the library's, and
//! decides; what is said here only finds the place.

use crate::input::RecordBytes;
use crate::number::{counted, grouped, told};
use mask_tools::{Outline, Record, RecordContents, Refusal, Vertex};

/// The largest size of a number: document 01, "Sizes".
const LARGEST: f64 = 1_073_741_824.0;

/// Where in a record the reason for a refusal lies.
pub fn why(number: u32, record: &RecordBytes) -> String {
    let place = match number {
        11 => Some(why_mark(record)),
        12 => why_version(&record.bytes),
        13 => why_length(record),
        _ => Record::from_bytes(record.bytes.clone())
            .contents()
            .ok()
            .and_then(|contents| place_of(number, &contents)),
    };
    place.unwrap_or_else(|| sentence(number))
}

/// Where in a record's contents the reason for a refusal lies.
pub fn why_of_contents(number: u32, contents: &RecordContents) -> String {
    place_of(number, contents).unwrap_or_else(|| sentence(number))
}

/// The library's own sentence, where no place is found.
fn sentence(number: u32) -> String {
    let said = Refusal::from_number(number).map_or_else(String::new, |refusal| refusal.to_string());
    match said.split_once(": ") {
        Some((_, reason)) => reason.to_string(),
        None => said,
    }
}

fn place_of(number: u32, contents: &RecordContents) -> Option<String> {
    match number {
        1 => why_slices(contents),
        2 => why_outline(contents),
        3 => why_code(contents),
        4 => why_tolerance(contents),
        5 => why_number(contents),
        6 => why_start(contents),
        7 => why_offset(contents),
        8 => Some(why_starts(contents)),
        14 => why_edition(contents),
        _ => None,
    }
}

fn why_mark(record: &RecordBytes) -> String {
    if record.length < 5 {
        return format!(
            "{}; a record has at least 26",
            counted(record.length as usize, "byte")
        );
    }
    let mark: String = record.bytes[..3]
        .iter()
        .map(|b| std::ascii::escape_default(*b).to_string())
        .collect();
    format!("the mark is \"{mark}\", and not \"PBR\"")
}

fn why_version(bytes: &[u8]) -> Option<String> {
    let version = count_at(bytes, 3)?;
    Some(format!(
        "the version is {version}; versions 1 and 2 are known"
    ))
}

fn why_length(record: &RecordBytes) -> Option<String> {
    let bytes = &record.bytes;
    let (head, slice, most) = match count_at(bytes, 3)? {
        1 => (26, 54, 4610),
        _ => (42, 58, 4738),
    };
    let found = counted(record.length as usize, "byte");
    if bytes.len() < head {
        return Some(format!("{found}, and the head alone has {head}"));
    }
    let vertices = count_at(bytes, 5)? + count_at(bytes, 7)?;
    let wanted = head as u64 + 24 * vertices + slice * count_at(bytes, head - 2)?;
    if wanted != record.length {
        return Some(format!("{found}, the counts say {}", grouped(wanted)));
    }
    Some(format!(
        "{found}, as the counts say; the most is {}",
        grouped(most)
    ))
}

fn count_at(bytes: &[u8], at: usize) -> Option<u64> {
    let field = bytes.get(at..at + 2)?;
    Some(u64::from(field[0]) + 256 * u64::from(field[1]))
}

fn why_slices(contents: &RecordContents) -> Option<String> {
    let most = Record::MOST_SLICES;
    let count = contents.slices.len();
    (count > most).then(|| format!("{}; the most is {most}", counted(count, "slice")))
}

fn why_outline(contents: &RecordContents) -> Option<String> {
    let most = Record::MOST_VERTICES;
    let wrong = |outline: &&Outline| !(2..=most).contains(&outline.vertex_count());
    let (number, outline) = outlines(contents)
        .into_iter()
        .find(|(_, outline)| wrong(outline))?;
    let count = counted(outline.vertex_count(), "vertex").replace("vertexs", "vertices");
    Some(format!(
        "outline {number} has {count}; it must have 2 to {most}"
    ))
}

fn why_code(contents: &RecordContents) -> Option<String> {
    if contents.selector_code > 1 {
        return Some(format!(
            "the selector is {}; it must be 0 (or_and) or 1 (not_xor)",
            contents.selector_code
        ));
    }
    contents
        .slices
        .iter()
        .enumerate()
        .find_map(|(number, slice)| {
            if !(1..=2).contains(&slice.source_code) {
                return Some(format!(
                    "slice {number}: the source is {}; it must be 1 or 2",
                    slice.source_code
                ));
            }
            (slice.inverted_code > 1).then(|| {
                format!(
                    "slice {number}: the direction is {}; it must be 0 (forward) or 1 (inverted)",
                    slice.inverted_code
                )
            })
        })
}

fn why_tolerance(contents: &RecordContents) -> Option<String> {
    let tolerance = &contents.tolerance;
    let same = tolerance.x.to_bits() == tolerance.y.to_bits();
    let axes = [("of x", tolerance.x), ("of y", tolerance.y)];
    let (axis, value) = axes
        .into_iter()
        .find(|(_, value)| !(*value > 0.0 && *value <= 1.0))?;
    let name = if same {
        "the tolerance".to_string()
    } else {
        format!("the tolerance {axis}")
    };
    Some(format!(
        "{name} is {}; it must be above 0 and at most 1",
        told(value)
    ))
}

fn why_number(contents: &RecordContents) -> Option<String> {
    let of_outline = outlines(contents)
        .into_iter()
        .find_map(|(number, outline)| {
            let vertices = outline.vertices().iter().enumerate();
            vertices.into_iter().find_map(|(index, vertex)| {
                bad_field(&vertex_fields(vertex))
                    .map(|field| format!("outline {number}, vertex {index}: {field}"))
            })
        });
    of_outline.or_else(|| {
        contents
            .slices
            .iter()
            .enumerate()
            .find_map(|(number, slice)| {
                let view = &slice.view;
                let fields = [
                    ("the start's x", view.updated_start.x),
                    ("the start's y", view.updated_start.y),
                    ("the start's bulge", view.updated_start.bulge),
                    ("the end bulge", view.updated_end_bulge),
                    ("the end's x", view.end_point.x),
                    ("the end's y", view.end_point.y),
                ];
                bad_field(&fields).map(|field| format!("slice {number}: {field}"))
            })
    })
}

fn vertex_fields(vertex: &Vertex) -> [(&'static str, f64); 3] {
    [
        ("x", vertex.x),
        ("y", vertex.y),
        ("the bulge", vertex.bulge),
    ]
}

fn bad_field(fields: &[(&str, f64)]) -> Option<String> {
    let bad = |value: f64| !value.is_finite() || value.abs() > LARGEST;
    let (name, value) = fields.iter().find(|(_, value)| bad(*value))?;
    Some(format!(
        "{name} is {}; its size must be at most 2^30",
        told(*value)
    ))
}

fn why_start(contents: &RecordContents) -> Option<String> {
    contents.slices.iter().enumerate().find_map(|(number, slice)| {
        let (source, vertices) = (slice.source_code, vertices_of(contents, slice.source_code)?);
        let start = slice.view.start_index;
        (start >= vertices).then(|| format!("slice {number}: the start is {start}, and outline {source} has vertices 0 to {}", vertices - 1))
    })
}

fn why_offset(contents: &RecordContents) -> Option<String> {
    contents.slices.iter().enumerate().find_map(|(number, slice)| {
        let (source, vertices) = (slice.source_code, vertices_of(contents, slice.source_code)?);
        let offset = slice.view.end_index_offset;
        (offset > vertices).then(|| format!("slice {number}: the offset is {offset}, and outline {source} has {vertices} vertices"))
    })
}

fn why_starts(contents: &RecordContents) -> String {
    let starts = &contents.starts;
    format!(
        "the starts are {} {} {} of {}; none may be below the one before it, or past the slices",
        starts.pline2,
        starts.pline1_overlapping,
        starts.pline2_overlapping,
        counted(contents.slices.len(), "slice")
    )
}

fn why_edition(contents: &RecordContents) -> Option<String> {
    contents
        .slices
        .iter()
        .enumerate()
        .find_map(|(number, slice)| {
            let outline = outline_of(contents, slice.source_code)?;
            let (cut, now) = (slice.view.edition, outline.edition());
            (cut != now).then(|| {
                format!(
                    "slice {number} was cut from edition {cut}, and outline {} is of edition {now}",
                    slice.source_code
                )
            })
        })
}

fn outlines(contents: &RecordContents) -> [(usize, &Outline); 2] {
    [(1, &contents.pline1), (2, &contents.pline2)]
}

fn outline_of(contents: &RecordContents, source: u8) -> Option<&Outline> {
    match source {
        1 => Some(&contents.pline1),
        2 => Some(&contents.pline2),
        _ => None,
    }
}

fn vertices_of(contents: &RecordContents, source: u8) -> Option<usize> {
    outline_of(contents, source).map(Outline::vertex_count)
}

#[cfg(test)]
mod tests {
    use super::super::{draft, laid_out};
    use super::*;
    use std::path::Path;

    const UNION: &str = include_str!("../../../../examples/union.txt");

    fn contents(from: &str, to: &str) -> RecordContents {
        draft("t", &UNION.replacen(from, to, 1), Path::new("."))
            .unwrap()
            .contents
    }

    fn said(number: u32, from: &str, to: &str) -> String {
        why_of_contents(number, &contents(from, to))
    }

    #[test]
    fn places_in_the_contents() {
        assert_eq!(
            said(3, "or_and", "7"),
            "the selector is 7; it must be 0 (or_and) or 1 (not_xor)"
        );
        assert_eq!(
            said(3, "slice 2", "slice 3"),
            "slice 1: the source is 3; it must be 1 or 2"
        );
        assert_eq!(
            said(3, "slice 2 +", "slice 2 4"),
            "slice 1: the direction is 4; it must be 0 (forward) or 1 (inverted)"
        );
        assert_eq!(
            said(4, "1/1024", "0"),
            "the tolerance is 0; it must be above 0 and at most 1"
        );
        assert_eq!(
            said(4, "1/1024", "nan"),
            "the tolerance is not a number (0x7ff8000000000000); it must be above 0 and at most 1"
        );
        assert_eq!(
            said(5, "1 4 4 0", "1 4 inf 0"),
            "outline 1, vertex 2: y is infinite; its size must be at most 2^30"
        );
        assert_eq!(
            said(5, "2 4 0  0  4 2", "2 4 0  0  4e9 2"),
            "slice 0: the end's x is 4000000000; its size must be at most 2^30"
        );
        assert_eq!(
            said(6, "1 + 2 3", "1 + 4 3"),
            "slice 0: the start is 4, and outline 1 has vertices 0 to 3"
        );
        assert_eq!(
            said(7, "1 + 2 3", "1 + 2 5"),
            "slice 0: the offset is 5, and outline 1 has 4 vertices"
        );
        assert_eq!(
            said(8, "1 2 2", "2 1 2"),
            "the starts are 2 1 2 of 2 slices; none may be below the one before it, or past the slices"
        );
        assert_eq!(
            said(9, "1 2 2", "1 2 2"),
            "lent room is smaller than the need"
        );
    }

    #[test]
    fn counts_and_editions() {
        let mut many = contents("", "");
        many.slices = vec![many.slices[0]; 29];
        assert_eq!(why_of_contents(1, &many), "29 slices; the most is 28");
        let mut short = contents("", "");
        short.pline2 = Outline::straight(&[(0.0, 0.0)]);
        assert_eq!(
            why_of_contents(2, &short),
            "outline 2 has 1 vertex; it must have 2 to 64"
        );
        let mut late = contents("", "");
        late.pline1 = late.pline1.clone().with_edition(8);
        assert_eq!(
            why_of_contents(14, &late),
            "slice 0 was cut from edition 0, and outline 1 is of edition 8"
        );
    }

    #[test]
    fn places_in_the_layout() {
        let union = laid_out(&draft("t", UNION, Path::new(".")).unwrap()).unwrap();
        let of = |number, bytes: &[u8]| why(number, &RecordBytes::of(bytes));
        assert_eq!(of(13, &union[..325]), "325 bytes, the counts say 326");
        assert_eq!(of(13, &union[..20]), "20 bytes, and the head alone has 26");
        assert_eq!(of(11, b"PBS12345"), "the mark is \"PBS\", and not \"PBR\"");
        assert_eq!(of(11, b"PBR"), "3 bytes; a record has at least 26");
        assert_eq!(
            of(12, b"PBR\x09\x00"),
            "the version is 9; versions 1 and 2 are known"
        );
        let mut two = union.clone();
        two[3] = 2;
        assert_eq!(of(13, &two[..41]), "41 bytes, and the head alone has 42");
        let long = RecordBytes {
            bytes: union,
            length: 1 << 30,
        };
        assert_eq!(why(13, &long), "1,073,741,824 bytes, the counts say 326");
    }
}
