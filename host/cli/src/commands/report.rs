//! `masks report`: the report on straight masks in whole microdegrees.

use crate::args::Report;
use crate::failure::{Failure, Status};
use crate::input;
use crate::number::{counted, grouped};
use crate::output::{tell, Out};
use mask_tools::{straight_report, StraightReport, WholeOutline};
use rayon::prelude::*;
use serde_json::{json, Value};
use std::io::{BufRead, BufReader, Read};
use std::path::{Path, PathBuf};

/// The largest size of a coordinate.
const LARGEST: i64 = 400_000_000;
/// The most vertices of an outline.
const MOST_VERTICES: usize = 1024;
/// The most outlines of a report.
const MOST_OUTLINES: usize = 4096;
/// What is kept of a line. Whatever is longer is no pair, unless it is blank.
const KEPT_OF_A_LINE: usize = 4096;
/// How many bad lines of a file are told one by one.
const TOLD: usize = 20;

/// An outline as it was read.
#[derive(Debug, Clone, Default, PartialEq)]
struct Lines {
    /// Its number, from 1.
    number: usize,
    /// Its first line and its last.
    lines: (usize, usize),
    /// Its vertices, or one more than it may have.
    vertices: Vec<(i64, i64)>,
    /// How many it has.
    count: usize,
    /// The first line with a coordinate that is out of range, and that coordinate.
    out_of_range: Option<(usize, String)>,
}

impl Lines {
    fn is_refused(&self) -> bool {
        self.count < 2 || self.count > MOST_VERTICES || self.out_of_range.is_some()
    }
}

/// What was read of a file.
#[derive(Debug, Default)]
struct Gathered {
    outlines: Vec<Lines>,
    /// How many outlines there are. Past the most only those are kept that have a fault of their own.
    count: usize,
    /// The line on which the first outline past the most begins.
    past_most: Option<usize>,
    bad: Vec<(usize, String)>,
    bad_count: usize,
}

/// What a line is.
#[derive(Debug, PartialEq)]
enum Line {
    Pair([i64; 2], Option<String>),
    Empty,
    Comment,
    Bad(String),
}

/// Reports on each file.
pub fn run(args: &Report) -> Result<Status, Failure> {
    let files = input::or_standard_input(&args.files);
    let gathered: Vec<Result<Gathered, Failure>> =
        files.par_iter().map(|path| gathered(path)).collect();
    let mut out = Out::new();
    let mut status = Status::Good;
    for (path, one) in files.iter().zip(gathered) {
        status = status.max(match one {
            Ok(gathered) => print(args, &files, path, &gathered, &mut out)?,
            Err(failure) => {
                tell(&failure);
                failure.status()
            }
        });
    }
    out.finish()?;
    Ok(status)
}

fn gathered(path: &Path) -> Result<Gathered, Failure> {
    let (source, _) = input::open(path)?;
    let mut reader = BufReader::with_capacity(1 << 16, source);
    let mut gathered = Gathered::default();
    let mut open = Lines::default();
    let mut number = 0;
    while let Some(line) = next_line(&mut reader).map_err(|error| input::unread(path, error))? {
        number += 1;
        gathered.take(&mut open, number, understood(&line));
    }
    gathered.end(&mut open);
    Ok(gathered)
}

/// The next line without its end; no more of it than is kept, and none at the end of the input.
fn next_line(reader: &mut impl BufRead) -> std::io::Result<Option<Vec<u8>>> {
    let mut line = Vec::new();
    let limit = KEPT_OF_A_LINE as u64;
    if reader.by_ref().take(limit).read_until(b'\n', &mut line)? == 0 {
        return Ok(None);
    }
    if line.last() == Some(&b'\n') {
        line.pop();
    } else if line.len() == KEPT_OF_A_LINE {
        skip_line(reader, &mut line)?;
    }
    Ok(Some(line))
}

/// Passes over the rest of a long line. Where something other than blanks stands there, the line is made one that is
/// no pair.
fn skip_line(reader: &mut impl BufRead, line: &mut Vec<u8>) -> std::io::Result<()> {
    loop {
        let part = reader.fill_buf()?;
        if part.is_empty() {
            return Ok(());
        }
        let end = part.iter().position(|b| *b == b'\n');
        let rest = &part[..end.unwrap_or(part.len())];
        if line.len() == KEPT_OF_A_LINE
            && !line.contains(&b'#')
            && !rest.iter().all(|b| is_blank(*b))
        {
            line.push(b'?');
        }
        let used = end.map_or(part.len(), |at| at + 1);
        reader.consume(used);
        if end.is_some() {
            return Ok(());
        }
    }
}

fn is_blank(byte: u8) -> bool {
    matches!(byte, b' ' | b'\t' | b'\r')
}

/// What a line is.
fn understood(line: &[u8]) -> Line {
    let before = line.split(|b| *b == b'#').next().unwrap_or(&[]);
    let words: Vec<&[u8]> = before
        .split(|b| is_blank(*b))
        .filter(|w| !w.is_empty())
        .collect();
    match words[..] {
        [] if before.len() < line.len() => Line::Comment,
        [] => Line::Empty,
        [x, y] => match (whole(x), whole(y)) {
            (Some(first), Some(second)) => {
                let far = [(first, x), (second, y)]
                    .into_iter()
                    .find(|(value, _)| value.abs() > LARGEST);
                Line::Pair([first, second], far.map(|(_, word)| short(word)))
            }
            _ => Line::Bad(short(before)),
        },
        _ => Line::Bad(short(before)),
    }
}

/// A whole number with or without a sign. What is past the range stays past it.
fn whole(word: &[u8]) -> Option<i64> {
    let (negative, digits) = match word {
        [b'-', digits @ ..] => (true, digits),
        [b'+', digits @ ..] => (false, digits),
        digits => (false, digits),
    };
    if digits.is_empty() || !digits.iter().all(u8::is_ascii_digit) {
        return None;
    }
    let size = digits.iter().fold(0, |size: i64, digit| {
        if size > LARGEST {
            size
        } else {
            10 * size + i64::from(digit - b'0')
        }
    });
    Some(if negative { -size } else { size })
}

/// The beginning of a text that is to be told.
fn short(bytes: &[u8]) -> String {
    let text: String = String::from_utf8_lossy(bytes)
        .trim()
        .chars()
        .map(|c| if c.is_control() { '?' } else { c })
        .collect();
    if text.chars().count() <= 40 {
        return text;
    }
    text.chars().take(37).chain("...".chars()).collect()
}

impl Gathered {
    fn take(&mut self, open: &mut Lines, number: usize, line: Line) {
        match line {
            Line::Pair([x, y], far) => {
                if open.count == 0 {
                    open.lines.0 = number;
                }
                open.lines.1 = number;
                open.count += 1;
                if open.vertices.len() <= MOST_VERTICES {
                    open.vertices.push((x, y));
                }
                if open.out_of_range.is_none() {
                    open.out_of_range = far.map(|word| (number, word));
                }
            }
            Line::Empty => self.end(open),
            Line::Comment => {}
            Line::Bad(text) => {
                self.bad_count += 1;
                if self.bad.len() < TOLD {
                    self.bad.push((number, text));
                }
            }
        }
    }

    /// The outline that was read is whole.
    fn end(&mut self, open: &mut Lines) {
        if open.count == 0 {
            return;
        }
        self.count += 1;
        let mut outline = std::mem::take(open);
        outline.number = self.count;
        if self.count == MOST_OUTLINES + 1 {
            self.past_most = Some(outline.lines.0);
        }
        if self.count <= MOST_OUTLINES + 1 || outline.is_refused() {
            self.outlines.push(outline);
        }
    }

    /// The library's report.
    fn report(&self) -> Result<StraightReport, u32> {
        let outlines: Vec<WholeOutline> = self
            .outlines
            .iter()
            .map(|o| WholeOutline::new(&o.vertices))
            .collect();
        straight_report(&outlines).map_err(|refusal| refusal.number())
    }

    /// Where the reason for a refusal lies.
    fn why(&self, number: u32) -> String {
        let place = match number {
            2 => self
                .outlines
                .iter()
                .find(|o| o.count < 2 || o.count > MOST_VERTICES)
                .map(why_size),
            18 => self.outlines.iter().find_map(why_range),
            19 => self.past_most.map(|line| {
                format!(
                    "line {line}: outline 4,097 begins, of {}; the most is 4,096",
                    grouped(self.count as u64)
                )
            }),
            _ => None,
        };
        place.unwrap_or_else(|| "the report is refused".to_string())
    }
}

fn why_size(outline: &Lines) -> String {
    let (first, last) = outline.lines;
    let lines = if first == last {
        format!("line {first}")
    } else {
        format!("lines {first} to {last}")
    };
    let vertices = counted(outline.count, "vertex").replace("vertexs", "vertices");
    format!(
        "outline {}, {lines}: {vertices}; it must have 2 to 1,024",
        outline.number
    )
}

fn why_range(outline: &Lines) -> Option<String> {
    let (line, word) = outline.out_of_range.as_ref()?;
    Some(format!(
        "outline {}, line {line}: the coordinate {word} is beyond 400,000,000",
        outline.number
    ))
}

/// Prints the report on one file, or says why there is none.
fn print(
    args: &Report,
    files: &[PathBuf],
    path: &Path,
    gathered: &Gathered,
    out: &mut Out,
) -> Result<Status, Failure> {
    let name = input::name_of(path);
    if gathered.bad_count > 0 {
        return bad_lines(args, name, gathered, out);
    }
    let prefix = if files.len() > 1 {
        format!("{name}: ")
    } else {
        String::new()
    };
    match gathered.report() {
        Ok(report) if args.json => out.json(&report_json(&name, &report))?,
        Ok(report) => {
            out.line(&format!("{prefix}outlines {}", report.count))?;
            out.line(&format!("{prefix}area zero {}", report.zero))?;
            out.line(&format!(
                "{prefix}total of the absolute doubled areas {}",
                report.doubled_total
            ))?;
        }
        Err(number) => {
            let why = gathered.why(number);
            if args.json {
                out.json(&json!({ "file": name, "refused": number, "why": why }))?;
            } else {
                out.line(&format!("{prefix}refused {number}"))?;
            }
            tell(&Failure::Refused { name, number, why });
            return Ok(Status::Found);
        }
    }
    Ok(Status::Good)
}

fn bad_lines(
    args: &Report,
    name: String,
    gathered: &Gathered,
    out: &mut Out,
) -> Result<Status, Failure> {
    for (line, text) in &gathered.bad {
        tell(&Failure::Line {
            name: name.clone(),
            line: *line,
            why: format!("no pair of whole numbers: `{text}`"),
        });
    }
    let untold = gathered.bad_count - gathered.bad.len();
    if untold > 0 {
        let why = format!(
            "{} more are no pair of whole numbers",
            counted(untold, "line")
        );
        tell(&Failure::Unfit {
            name: name.clone(),
            why,
        });
    }
    if args.json {
        let lines: Vec<usize> = gathered.bad.iter().map(|(line, _)| *line).collect();
        out.json(
            &json!({ "file": name, "bad_lines": gathered.bad_count, "first_bad_lines": lines }),
        )?;
    }
    Ok(Status::Found)
}

/// The total passes 64 bits, so it is a string.
fn report_json(name: &str, report: &StraightReport) -> Value {
    json!({
        "file": name,
        "refused": null,
        "outlines": report.count,
        "area_zero": report.zero,
        "doubled_total": report.doubled_total.to_string(),
    })
}

#[cfg(test)]
mod tests {
    use super::*;

    fn read(text: &[u8]) -> Gathered {
        let mut reader = BufReader::with_capacity(16, text);
        let (mut gathered, mut open, mut number) = (Gathered::default(), Lines::default(), 0);
        while let Some(line) = next_line(&mut reader).unwrap() {
            number += 1;
            gathered.take(&mut open, number, understood(&line));
        }
        gathered.end(&mut open);
        gathered
    }

    #[test]
    fn lines_and_what_they_are() {
        assert_eq!(understood(b" +1\t-2 \r"), Line::Pair([1, -2], None));
        assert_eq!(understood(b"1 2 # a comment"), Line::Pair([1, 2], None));
        assert_eq!(understood(b"# a comment"), Line::Comment);
        assert_eq!(understood(b" \t\r"), Line::Empty);
        assert_eq!(
            understood(b"400000001 0"),
            Line::Pair([400_000_001, 0], Some("400000001".into()))
        );
        for bad in [
            &b"1"[..],
            b"1 2 3",
            b"1.5 2",
            b"+ 2",
            b"--1 2",
            b"1 \0",
            b"\xff 1",
        ] {
            assert!(matches!(understood(bad), Line::Bad(_)), "{bad:?}");
        }
        assert_eq!(
            understood(b"99999999999999999999999 -99999999999999999999999").far(),
            Some("99999999999999999999999")
        );
    }

    impl Line {
        fn far(&self) -> Option<&str> {
            match self {
                Line::Pair(_, far) => far.as_deref(),
                _ => None,
            }
        }
    }

    #[test]
    fn outlines_and_their_lines() {
        let gathered = read(b"0 0\n# between\n4 0\n4 4\n\n\n1 1\n\n 2 2\n3 3");
        let lines: Vec<_> = gathered
            .outlines
            .iter()
            .map(|o| (o.number, o.lines, o.count))
            .collect();
        assert_eq!(lines, [(1, (1, 4), 3), (2, (7, 7), 1), (3, (9, 10), 2)]);
        assert_eq!(
            gathered.why(2),
            "outline 2, line 7: 1 vertex; it must have 2 to 1,024"
        );
    }

    #[test]
    fn long_lines_are_passed_over() {
        let mut text = vec![b' '; 100_000];
        text.extend(b"\n1 1\n2 2\n");
        let blank = read(&text);
        assert_eq!((blank.count, blank.bad_count), (1, 0));
        assert_eq!(blank.outlines[0].lines, (2, 3));
        let zeros = read(&vec![0; 100_000]);
        assert_eq!((zeros.count, zeros.bad_count), (0, 1));
        let mut text = b"1 1".to_vec();
        text.extend(vec![b' '; 5000]);
        text.extend(b"7\n");
        assert_eq!(read(&text).bad_count, 1);
    }

    #[test]
    fn beyond_the_most_only_faults_are_kept() {
        let mut text = "0 0\n1 1\n\n".repeat(5000);
        text.push_str("7 7\n\n0 0\n1 1\n");
        let gathered = read(text.as_bytes());
        assert_eq!((gathered.count, gathered.outlines.len()), (5002, 4098));
        assert_eq!(
            gathered.why(2),
            "outline 5001, line 15001: 1 vertex; it must have 2 to 1,024"
        );
        assert_eq!(
            gathered.why(19),
            "line 12289: outline 4,097 begins, of 5,002; the most is 4,096"
        );
    }
}
