//! `masks replay`: records, run again.

use crate::answer::Answer;
use crate::args::Replay;
use crate::failure::{Failure, Status};
use crate::input::{self, RecordBytes};
use crate::output::{tell, Out};
use crate::pbr;
use rayon::prelude::*;
use std::path::{Path, PathBuf};

/// How many records are read and run before their lines are printed.
const AT_A_TIME: usize = 1024;

/// A record and its answer.
struct Replayed {
    name: String,
    record: RecordBytes,
    answer: Answer,
}

/// Replays the records and prints their answers, in the order in which they were named.
pub fn run(args: &Replay) -> Result<Status, Failure> {
    let files = input::or_standard_input(&args.files);
    let mut out = Out::new();
    let mut status = Status::Good;
    for part in files.chunks(AT_A_TIME) {
        let replayed: Vec<Result<Replayed, Failure>> =
            part.par_iter().map(|path| replayed(path)).collect();
        for one in replayed {
            status = status.max(print(args, &files, one, &mut out)?);
        }
    }
    out.finish()?;
    Ok(status)
}

fn replayed(path: &Path) -> Result<Replayed, Failure> {
    let record = input::record(path)?;
    let answer = Answer::of(&record);
    let name = input::name_of(path);
    Ok(Replayed {
        name,
        record,
        answer,
    })
}

/// Prints one answer. What could not be read is said, and the others go on.
fn print(
    args: &Replay,
    files: &[PathBuf],
    one: Result<Replayed, Failure>,
    out: &mut Out,
) -> Result<Status, Failure> {
    let one = match one {
        Ok(one) => one,
        Err(failure) => {
            tell(&failure);
            return Ok(failure.status());
        }
    };
    if args.json {
        out.json(&one.answer.json(&one.name, &one.record))?;
    } else {
        let text = if args.loops {
            one.answer.full_text()
        } else {
            one.answer.text()
        };
        let prefix = if files.len() > 1 {
            format!("{}: ", one.name)
        } else {
            String::new()
        };
        for line in text.lines() {
            out.line(&format!("{prefix}{line}"))?;
        }
    }
    Ok(said(&one))
}

/// Says why a record is refused.
fn said(one: &Replayed) -> Status {
    let number = match one.answer.refusal() {
        Some(number) => number,
        None => return Status::Good,
    };
    tell(&Failure::Refused {
        name: one.name.clone(),
        number,
        why: pbr::why(number, &one.record),
    });
    Status::Found
}
