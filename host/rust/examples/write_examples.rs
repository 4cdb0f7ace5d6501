//! The records of `examples`, by the library's writer: each from the text beside it. A text gives a
//! stitch line by line, or names another text and says which bytes of that one's record are edited,
//! so that refusals can be shown. `masks record --help` describes the lines.
//!
//! ```text
//! write_examples FOLDER            writes FOLDER/*.pbr from FOLDER/*.txt
//! write_examples --check FOLDER    says which of them are not what it would write
//! ```

use mask_tools::{
    Outline, Point, Record, RecordVersion, Selector, Slice, Slices, Source, Starts, Tolerance,
    Vertex, View,
};
use std::env;
use std::error::Error;
use std::fs;
use std::path::{Path, PathBuf};
use std::process::ExitCode;

type Fault = Box<dyn Error>;

/// The words with which a line can begin: of a stitch, and of an edit of its record.
const ITEMS: [&str; 9] = [
    "of",
    "version",
    "selector",
    "tolerance",
    "editions",
    "starts",
    "1",
    "2",
    "slice",
];
const EDITS: [&str; 5] = ["set", "drop", "copy", "cut", "pad"];

/// A text's lines, the words of each, without comments.
struct Lines {
    lines: Vec<Vec<String>>,
}

impl Lines {
    fn of(text: &str) -> Lines {
        let words = |line: &str| -> Vec<String> {
            let (said, _) = line.split_once('#').unwrap_or((line, ""));
            said.split_whitespace().map(str::to_string).collect()
        };
        let lines = text.lines().map(words).filter(|line| !line.is_empty());
        Lines {
            lines: lines.collect(),
        }
    }

    /// A line whose first word is not known.
    fn unknown(&self) -> Option<&[String]> {
        let known =
            |line: &[String]| ITEMS.contains(&&line[0][..]) || EDITS.contains(&&line[0][..]);
        self.lines
            .iter()
            .map(|line| &line[..])
            .find(|line| !known(line))
    }

    /// The words after the first of each line that begins with `name`.
    fn all<'a>(&'a self, name: &'a str) -> impl Iterator<Item = &'a [String]> {
        let named = self.lines.iter().filter(move |line| line[0] == name);
        named.map(|line| &line[1..])
    }

    /// The words after the first of the line that begins with `name`.
    fn one(&self, name: &str) -> Option<&[String]> {
        let line = self.lines.iter().find(|line| line[0] == name)?;
        Some(&line[1..])
    }

    /// The same of a line that must be there.
    fn expect(&self, name: &str) -> Result<&[String], Fault> {
        Ok(self.one(name).ok_or(format!("no line `{name}`"))?)
    }
}

/// A fraction or a decimal number, or a bit pattern.
fn number(word: &str) -> Result<f64, Fault> {
    if let Some(pattern) = word.strip_prefix("0x") {
        return Ok(f64::from_bits(u64::from_str_radix(pattern, 16)?));
    }
    let (above, below) = word.split_once('/').unwrap_or((word, "1"));
    Ok(above.parse::<f64>()? / below.parse::<f64>()?)
}

fn numbers(words: &[String]) -> Result<Vec<f64>, Fault> {
    words.iter().map(|word| number(word)).collect()
}

fn counts(words: &[String]) -> Result<Vec<usize>, Fault> {
    words.iter().map(|word| Ok(word.parse()?)).collect()
}

fn outline(lines: &Lines, name: &str, edition: u32) -> Result<Outline, Fault> {
    let vertex = |words: &[String]| match numbers(words)?[..] {
        [x, y, bulge] => Ok(Vertex::new(x, y, bulge)),
        _ => Err("a vertex has three numbers".into()),
    };
    let vertices: Result<Vec<Vertex>, Fault> = lines.all(name).map(vertex).collect();
    Ok(Outline::new(vertices?).with_edition(edition))
}

fn slice(words: &[String], editions: [u32; 2]) -> Result<Slice, Fault> {
    if !(10..=11).contains(&words.len()) {
        return Err("a slice has 10 words, or 11 with its edition".into());
    }
    let (source, edition) = match words[0].as_str() {
        "1" => (Source::Pline1, editions[0]),
        "2" => (Source::Pline2, editions[1]),
        other => return Err(format!("a source is 1 or 2, and not {other}").into()),
    };
    let inverted_direction = match words[1].as_str() {
        "+" => false,
        "-" => true,
        other => return Err(format!("a direction is + or -, and not {other}").into()),
    };
    let places = counts(&words[2..4])?;
    let view = match numbers(&words[4..10])?[..] {
        [x, y, bulge, updated_end_bulge, end_x, end_y] => View {
            start_index: places[0],
            end_index_offset: places[1],
            updated_start: Vertex::new(x, y, bulge),
            updated_end_bulge,
            end_point: Point::new(end_x, end_y),
            inverted_direction,
            edition: words
                .get(10)
                .map_or(Ok(edition), |word| word.parse::<u32>())?,
        },
        _ => return Err("a slice has six numbers".into()),
    };
    Ok(Slice { source, view })
}

/// The record of the stitch that the lines give: by the library's writer.
fn written(lines: &Lines) -> Result<Record, Fault> {
    let version = match lines.one("version") {
        None => RecordVersion::One,
        Some(words) => match words.concat().as_str() {
            "1" => RecordVersion::One,
            "2" => RecordVersion::Two,
            other => return Err(format!("no version {other} is written").into()),
        },
    };
    let selector = match lines.expect("selector")?.concat().as_str() {
        "or_and" => Selector::OrAnd,
        "not_xor" => Selector::NotXor,
        other => return Err(format!("no selector {other} is written").into()),
    };
    let tolerance = match numbers(lines.expect("tolerance")?)?[..] {
        [both] => Tolerance::new(both),
        [x, y] => Tolerance { x, y },
        _ => return Err("a tolerance has one number or two".into()),
    };
    let editions = match lines.one("editions") {
        None => [0, 0],
        Some([one, two]) => [one.parse()?, two.parse()?],
        Some(_) => return Err("there are two editions".into()),
    };
    let starts = match counts(lines.expect("starts")?)?[..] {
        [pline2, pline1_overlapping, pline2_overlapping] => Starts {
            pline2,
            pline1_overlapping,
            pline2_overlapping,
        },
        _ => return Err("there are three starts".into()),
    };
    let list: Result<Vec<Slice>, Fault> = lines
        .all("slice")
        .map(|words| slice(words, editions))
        .collect();
    let slices = Slices {
        list: list?.into_iter().collect(),
        starts,
    };
    Ok(Record::write(
        version,
        &outline(lines, "1", editions[0])?,
        &outline(lines, "2", editions[1])?,
        &slices,
        selector,
        tolerance,
    )?)
}

/// Makes the edits that the lines say, in turn.
fn edited(lines: &Lines, mut bytes: Vec<u8>) -> Result<Vec<u8>, Fault> {
    for line in &lines.lines {
        let (edit, rest) = (line[0].as_str(), &line[1..]);
        if edit == "set" {
            set(&mut bytes, rest)?;
        } else if EDITS.contains(&edit) {
            let length = bytes.len();
            match (edit, &counts(rest)?[..]) {
                ("drop", &[at, count]) if at + count <= length => {
                    bytes.drain(at..at + count);
                }
                ("copy", &[at, count, times]) if at + count <= length => {
                    let part = bytes[at..at + count].repeat(times);
                    bytes.extend(part);
                }
                ("cut", &[count]) if count <= length => bytes.truncate(length - count),
                ("pad", &[count]) => bytes.resize(length + count, 0),
                _ => return Err(format!("`{}` is not understood", line.join(" ")).into()),
            }
        }
    }
    Ok(bytes)
}

/// The bytes from a place on are these, in hex.
fn set(bytes: &mut [u8], words: &[String]) -> Result<(), Fault> {
    let (at, these) = words.split_first().ok_or("`set` has a place")?;
    let at: usize = at.parse()?;
    for (place, word) in these.iter().enumerate() {
        let byte = bytes.get_mut(at + place);
        *byte.ok_or("`set` goes past the end")? = u8::from_str_radix(word, 16)?;
    }
    Ok(())
}

/// The bytes of a text's record.
fn record(folder: &Path, name: &str) -> Result<Vec<u8>, Fault> {
    let lines = Lines::of(&fs::read_to_string(
        folder.join(name).with_extension("txt"),
    )?);
    if let Some(line) = lines.unknown() {
        return Err(format!("`{}` is not understood", line.join(" ")).into());
    }
    let good = match lines.one("of") {
        Some(words) => record(folder, &words.concat())?,
        None => written(&lines)?.into_bytes(),
    };
    edited(&lines, good)
}

/// The names of the texts, in order.
fn names(folder: &Path) -> Result<Vec<String>, Fault> {
    let mut names = Vec::new();
    for entry in fs::read_dir(folder)? {
        let path = entry?.path();
        if path.extension().map_or(false, |kind| kind == "txt") {
            names.extend(
                path.file_stem()
                    .and_then(|stem| stem.to_str())
                    .map(str::to_string),
            );
        }
    }
    names.sort();
    Ok(names)
}

fn run(folder: &Path, check: bool) -> Result<usize, Fault> {
    let names = names(folder)?;
    let mut wrong = 0;
    for name in &names {
        let bytes = record(folder, name).map_err(|fault| format!("{name}: {fault}"))?;
        let path = folder.join(name).with_extension("pbr");
        if check && fs::read(&path).ok().as_ref() != Some(&bytes) {
            println!("{name}: the record is not what the library writes");
            wrong += 1;
        } else if !check {
            fs::write(&path, &bytes)?;
        }
    }
    println!("{} records, {wrong} wrong", names.len());
    Ok(wrong)
}

fn main() -> ExitCode {
    let words: Vec<String> = env::args().skip(1).collect();
    let check = words.first().map_or(false, |word| word == "--check");
    let folder = match &words[usize::from(check)..] {
        [folder] => PathBuf::from(folder),
        _ => {
            eprintln!("usage: write_examples [--check] FOLDER");
            return ExitCode::from(2);
        }
    };
    match run(&folder, check) {
        Ok(0) => ExitCode::SUCCESS,
        Ok(_) => ExitCode::FAILURE,
        Err(fault) => {
            eprintln!("write_examples: {fault}");
            ExitCode::FAILURE
        }
    }
}
