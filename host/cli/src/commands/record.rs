//! `masks record`: a record, made from a readable text.

use crate::args::Record;
use crate::failure::{Failure, Status};
use crate::input;
use crate::pbr::{self, Draft};
use crate::save;
use std::path::Path;

/// Makes the record.
pub fn run(args: &Record) -> Result<Status, Failure> {
    let name = input::name_of(&args.text);
    let folder = args.text.parent().unwrap_or_else(|| Path::new(""));
    let draft = pbr::draft(&name, &input::text(&args.text)?, folder)?;
    let bytes = if args.unchecked {
        pbr::laid_out(&draft).map_err(|why| Failure::Unfit { name, why })?
    } else {
        written(name, &draft)?
    };
    save::save(&args.record, &bytes)?;
    Ok(Status::Good)
}

/// What the proved writer makes of a draft, or why it refuses.
fn written(name: String, draft: &Draft) -> Result<Vec<u8>, Failure> {
    if let Some(line) = draft.edited_on {
        let why = "this edits the record's bytes, which is for --unchecked alone".to_string();
        return Err(Failure::Line { name, line, why });
    }
    match draft.contents.write(draft.contents.version) {
        Ok(record) => Ok(record.into_bytes()),
        Err(refusal) => {
            let number = refusal.number();
            let why = pbr::why_of_contents(number, &draft.contents);
            Err(Failure::Refused { name, number, why })
        }
    }
}
