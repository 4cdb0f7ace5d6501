//! `masks show`: a record as a readable text.

use crate::args::Show;
use crate::failure::{Failure, Status};
use crate::input;
use crate::number::word;
use crate::output::Out;
use crate::pbr;
use mask_tools::{Outline, Record, RecordContents, RecordSlice};
use serde_json::{json, Value};

/// Prints the text of a record whose layout is whole.
pub fn run(args: &Show) -> Result<Status, Failure> {
    let record = input::record(&args.record)?;
    let name = input::name_of(&args.record);
    let contents = Record::from_bytes(&record.bytes[..])
        .contents()
        .map_err(|refusal| {
            let number = refusal.number();
            Failure::Refused {
                name: name.clone(),
                number,
                why: pbr::why(number, &record),
            }
        })?;
    let mut out = Out::new();
    if args.json {
        out.json(&contents_json(&name, &contents))?;
    } else {
        out.text(&pbr::shown(&contents))?;
    }
    out.finish()?;
    Ok(Status::Good)
}

fn contents_json(name: &str, contents: &RecordContents) -> Value {
    let starts = &contents.starts;
    json!({
        "file": name,
        "version": contents.version.number(),
        "selector": pbr::selector_word(contents.selector_code),
        "tolerance": numbers(&[contents.tolerance.x, contents.tolerance.y]),
        "starts": [starts.pline2, starts.pline1_overlapping, starts.pline2_overlapping],
        "outlines": [outline_json(&contents.pline1), outline_json(&contents.pline2)],
        "slices": contents.slices.iter().map(slice_json).collect::<Vec<Value>>(),
    })
}

fn outline_json(outline: &Outline) -> Value {
    let vertices = outline.vertices().iter();
    let vertices: Vec<Value> = vertices.map(|v| numbers(&[v.x, v.y, v.bulge])).collect();
    json!({ "edition": outline.edition(), "vertices": vertices })
}

fn slice_json(slice: &RecordSlice) -> Value {
    let view = &slice.view;
    let start = &view.updated_start;
    json!({
        "source": slice.source_code,
        "inverted": slice.inverted_code,
        "start": view.start_index,
        "offset": view.end_index_offset,
        "from": numbers(&[start.x, start.y, start.bulge]),
        "end_bulge": number(view.updated_end_bulge),
        "to": numbers(&[view.end_point.x, view.end_point.y]),
        "edition": view.edition,
    })
}

fn numbers(values: &[f64]) -> Value {
    values.iter().map(|value| number(*value)).collect()
}

/// A number. JSON has none that is not finite, so such a one is its bit pattern as a string.
fn number(value: f64) -> Value {
    if value.is_finite() {
        return json!(value);
    }
    json!(word(value))
}
