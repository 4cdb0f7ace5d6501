//! `masks draw`: a picture of a record, or of two side by side.

use crate::args::Draw;
use crate::failure::{Failure, Status};
use crate::output::tell;
use crate::picture::{picture, Subject};
use crate::save;
use std::io::{ErrorKind, Write};
use std::path::Path;
use std::process::{Command, Stdio};

/// The programs that make a PNG of an SVG, with what each is called with; the SVG comes on standard input.
const CONVERTERS: [(&str, &[&str]); 3] = [
    ("rsvg-convert", &["--format", "png", "--zoom", "2"]),
    (
        "inkscape",
        &["--pipe", "--export-type=png", "--export-filename=-"],
    ),
    ("magick", &["svg:-", "png:-"]),
];

/// What a picture is written as.
enum Kind {
    Svg,
    Png,
}

/// Draws the record, and says where one is refused.
pub fn run(args: &Draw) -> Result<Status, Failure> {
    let kind = kind(&args.out)?;
    let paths = [Some(&args.record), args.beside.as_ref()];
    let subjects: Vec<Subject> = paths
        .into_iter()
        .flatten()
        .map(|path| Subject::read(path))
        .collect::<Result<_, _>>()?;
    let svg = picture(&subjects);
    let bytes = match kind {
        Kind::Svg => svg.into_bytes(),
        Kind::Png => png(&svg)?,
    };
    save::save(&args.out, &bytes)?;
    let mut status = Status::Good;
    for subject in subjects {
        if let Some((number, why)) = subject.refused {
            tell(&Failure::Refused {
                name: subject.name,
                number,
                why,
            });
            status = Status::Found;
        }
    }
    Ok(status)
}

/// A device, which has no ending, is given an SVG.
fn kind(out: &Path) -> Result<Kind, Failure> {
    match out.extension().and_then(|ending| ending.to_str()) {
        Some("svg") => Ok(Kind::Svg),
        Some("png") => Ok(Kind::Png),
        None if std::fs::metadata(out)
            .map_or(false, |there| !there.is_file() && !there.is_dir()) =>
        {
            Ok(Kind::Svg)
        }
        _ => Err(Failure::Usage(format!(
            "{}: the name of a picture ends in .svg or .png",
            out.display()
        ))),
    }
}

/// The PNG that the first converter makes that is there.
fn png(svg: &str) -> Result<Vec<u8>, Failure> {
    for (program, words) in CONVERTERS {
        let started = Command::new(program)
            .args(words)
            .stdin(Stdio::piped())
            .stdout(Stdio::piped())
            .spawn();
        let mut child = match started {
            Ok(child) => child,
            Err(error) if error.kind() == ErrorKind::NotFound => continue,
            Err(error) => return Err(Failure::Helper(format!("{program} cannot be run: {error}"))),
        };
        if let Some(mut input) = child.stdin.take() {
            let _ = input.write_all(svg.as_bytes());
        }
        let done = child.wait_with_output();
        return match done {
            Ok(done) if done.status.success() && done.stdout.starts_with(b"\x89PNG") => {
                Ok(done.stdout)
            }
            _ => Err(Failure::Helper(format!(
                "{program} did not make a PNG of the picture"
            ))),
        };
    }
    let programs: Vec<&str> = CONVERTERS.iter().map(|(program, _)| *program).collect();
    Err(Failure::Helper(format!(
        "no program that makes a PNG is there; one of these is needed: {}",
        programs.join(", ")
    )))
}
