//! A record as a readable text.

use super::selector_word;
use crate::number::word;
use mask_tools::{Outline, RecordContents, RecordSlice, RecordVersion, Vertex};

/// The text of a record's contents. Read back, it gives the same contents, bit for bit.
pub fn shown(contents: &RecordContents) -> String {
    let two = contents.version == RecordVersion::Two;
    let mut lines = vec![
        format!("version {}", contents.version.number()),
        format!("selector {}", selector_word(contents.selector_code)),
    ];
    lines.push(tolerance_line(contents));
    if two {
        lines.push(format!(
            "editions {} {}",
            contents.pline1.edition(),
            contents.pline2.edition()
        ));
    }
    let starts = &contents.starts;
    lines.push(format!(
        "starts {} {} {}",
        starts.pline2, starts.pline1_overlapping, starts.pline2_overlapping
    ));
    outline_lines(&mut lines, "1", &contents.pline1);
    outline_lines(&mut lines, "2", &contents.pline2);
    lines.extend(contents.slices.iter().map(|slice| slice_line(slice, two)));
    lines.join("\n") + "\n"
}

/// A vertex as three words.
pub fn vertex_words(vertex: &Vertex) -> String {
    format!(
        "{} {} {}",
        word(vertex.x),
        word(vertex.y),
        word(vertex.bulge)
    )
}

fn tolerance_line(contents: &RecordContents) -> String {
    let x = word(contents.tolerance.x);
    match contents.version {
        RecordVersion::One => format!("tolerance {x}"),
        RecordVersion::Two => format!("tolerance {x} {}", word(contents.tolerance.y)),
    }
}

fn outline_lines(lines: &mut Vec<String>, number: &str, outline: &Outline) {
    let vertices = outline.vertices().iter();
    lines.extend(vertices.map(|vertex| format!("{number} {}", vertex_words(vertex))));
}

fn slice_line(slice: &RecordSlice, with_edition: bool) -> String {
    let view = &slice.view;
    let direction = match slice.inverted_code {
        0 => "+".to_string(),
        1 => "-".to_string(),
        other => other.to_string(),
    };
    let mut line = format!(
        "slice {} {direction} {} {} {} {} {} {}",
        slice.source_code,
        view.start_index,
        view.end_index_offset,
        vertex_words(&view.updated_start),
        word(view.updated_end_bulge),
        word(view.end_point.x),
        word(view.end_point.y)
    );
    if with_edition {
        line.push_str(&format!(" {}", view.edition));
    }
    line
}

#[cfg(test)]
mod tests {
    use super::super::{draft, laid_out};
    use super::*;
    use std::path::Path;

    const TWO: &str =
        "version 2\nselector not_xor\ntolerance 0.5 0.25\neditions 7 3\nstarts 1 1 2\n\
        1 0 -0.0 0.1\n1 4 0x7ff8000000000001 0\n2 1e300 2 0\n2 6 2 0\n\
        slice 1 - 2 3 2 4 0 0 4 2 7\nslice 9 5 0 3 4 2 0 0 2 4 4294967295\n";

    #[test]
    fn a_text_comes_back_as_it_was() {
        let made = draft("t", TWO, Path::new(".")).unwrap();
        assert_eq!(shown(&made.contents), TWO);
        assert_eq!(
            laid_out(&draft("t", &shown(&made.contents), Path::new(".")).unwrap()),
            laid_out(&made)
        );
    }
}
