//! A record laid out as a text says, whatever it says. It is for records that show a refusal: what the proved writer
//! takes, it writes.

use super::{Draft, Edit};
use mask_tools::{Outline, RecordContents, RecordSlice, RecordVersion, Vertex};

/// The bytes of a draft, with its edits; or which edit goes past the end.
pub fn laid_out(draft: &Draft) -> Result<Vec<u8>, String> {
    let mut bytes = head(&draft.contents);
    for outline in [&draft.contents.pline1, &draft.contents.pline2] {
        put_outline(&mut bytes, outline);
    }
    for slice in &draft.contents.slices {
        put_slice(&mut bytes, slice, draft.contents.version);
    }
    for edit in &draft.edits {
        make(&mut bytes, edit).ok_or_else(|| past_the_end(edit, bytes.len()))?;
    }
    Ok(bytes)
}

/// Makes an edit; none where it goes past the end.
fn make(bytes: &mut Vec<u8>, edit: &Edit) -> Option<()> {
    match edit {
        Edit::Set(at, these) => bytes.get_mut(*at..at + these.len())?.copy_from_slice(these),
        Edit::Drop(at, count) => {
            bytes.get(*at..at + count)?;
            bytes.drain(*at..at + count);
        }
        Edit::Copy(at, count, times) => {
            let part = bytes.get(*at..at + count)?.repeat(*times);
            bytes.extend(part);
        }
        Edit::Cut(count) => bytes.truncate(bytes.len().checked_sub(*count)?),
        Edit::Pad(count) => bytes.resize(bytes.len() + count, 0),
    }
    Some(())
}

fn past_the_end(edit: &Edit, length: usize) -> String {
    let item = match edit {
        Edit::Set(at, _) => format!("set {at}"),
        Edit::Drop(at, count) => format!("drop {at} {count}"),
        Edit::Copy(at, count, _) => format!("copy {at} {count}"),
        Edit::Cut(count) | Edit::Pad(count) => format!("cut {count}"),
    };
    format!("`{item}` goes past the end of the record's {length} bytes")
}

fn head(contents: &RecordContents) -> Vec<u8> {
    let counts = [
        contents.pline1.vertex_count(),
        contents.pline2.vertex_count(),
        contents.slices.len(),
    ];
    let [first, second, slices] = counts.map(|count| count as u16);
    let mut bytes = b"PBR".to_vec();
    let version = contents.version.number() as u16;
    for number in [version, first, second] {
        put_count(&mut bytes, number);
    }
    bytes.push(contents.selector_code);
    put_number(&mut bytes, contents.tolerance.x);
    if contents.version == RecordVersion::Two {
        put_number(&mut bytes, contents.tolerance.y);
        bytes.extend(contents.pline1.edition().to_le_bytes());
        bytes.extend(contents.pline2.edition().to_le_bytes());
    }
    let starts = &contents.starts;
    for start in [
        starts.pline2,
        starts.pline1_overlapping,
        starts.pline2_overlapping,
    ] {
        put_count(&mut bytes, start as u16);
    }
    put_count(&mut bytes, slices);
    bytes
}

fn put_count(bytes: &mut Vec<u8>, count: u16) {
    bytes.extend(count.to_le_bytes());
}

fn put_number(bytes: &mut Vec<u8>, number: f64) {
    bytes.extend(number.to_bits().to_le_bytes());
}

fn put_vertex(bytes: &mut Vec<u8>, vertex: Vertex) {
    for number in [vertex.x, vertex.y, vertex.bulge] {
        put_number(bytes, number);
    }
}

fn put_outline(bytes: &mut Vec<u8>, outline: &Outline) {
    for vertex in outline.vertices() {
        put_vertex(bytes, *vertex);
    }
}

fn put_slice(bytes: &mut Vec<u8>, slice: &RecordSlice, version: RecordVersion) {
    let view = &slice.view;
    bytes.extend([slice.source_code, slice.inverted_code]);
    put_count(bytes, view.start_index as u16);
    put_count(bytes, view.end_index_offset as u16);
    put_vertex(bytes, view.updated_start);
    put_number(bytes, view.updated_end_bulge);
    put_number(bytes, view.end_point.x);
    put_number(bytes, view.end_point.y);
    if version == RecordVersion::Two {
        bytes.extend(view.edition.to_le_bytes());
    }
}

#[cfg(test)]
mod tests {
    use super::super::draft;
    use super::*;
    use std::path::Path;

    const EXAMPLES: &str = concat!(env!("CARGO_MANIFEST_DIR"), "/../../examples");

    /// Every example's text makes its record, by the byte.
    #[test]
    fn the_examples_by_the_byte() {
        let mut seen = 0;
        for entry in std::fs::read_dir(EXAMPLES).unwrap() {
            let path = entry.unwrap().path();
            if path.extension().map_or(true, |e| e != "txt") {
                continue;
            }
            let text = std::fs::read_to_string(&path).unwrap();
            let kept = std::fs::read(path.with_extension("pbr")).unwrap();
            let made = draft(&path.display().to_string(), &text, Path::new(EXAMPLES)).unwrap();
            assert_eq!(laid_out(&made).unwrap(), kept, "{}", path.display());
            seen += 1;
        }
        assert!(seen >= 18);
    }

    #[test]
    fn an_edit_past_the_end_is_told() {
        let text = |edit: &str| format!("of union\n{edit}\n");
        let said = |edit: &str| {
            laid_out(&draft("t", &text(edit), Path::new(EXAMPLES)).unwrap()).unwrap_err()
        };
        assert_eq!(
            said("set 326 00"),
            "`set 326` goes past the end of the record's 326 bytes"
        );
        assert_eq!(
            said("cut 327"),
            "`cut 327` goes past the end of the record's 326 bytes"
        );
        assert_eq!(
            said("drop 320 7"),
            "`drop 320 7` goes past the end of the record's 326 bytes"
        );
    }
}
