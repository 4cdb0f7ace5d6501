//! Files and standard input.

use crate::failure::Failure;
use mask_tools::Record;
use std::fs::{self, File};
use std::io::{self, Read};
use std::os::unix::io::AsFd;
use std::path::{Path, PathBuf};

/// The name that stands for standard input.
const STANDARD_INPUT: &str = "-";

/// How much of a record is read: one byte more than it has at most, so that a longer one is seen to be longer.
const READ_OF_A_RECORD: u64 = Record::MOST_BYTES as u64 + 1;

/// The most bytes of a text that is read as a whole.
const MOST_OF_A_TEXT: u64 = 1 << 20;

/// A record as it was read.
#[derive(Debug, Clone, PartialEq, Eq)]
pub struct RecordBytes {
    /// Its first bytes, all of them where it has no more than a record has at most.
    pub bytes: Vec<u8>,
    /// How long the file is, as far as it is known.
    pub length: u64,
}

impl RecordBytes {
    /// A record that lies in memory.
    #[cfg(test)]
    pub fn of(bytes: &[u8]) -> RecordBytes {
        RecordBytes {
            bytes: bytes.to_vec(),
            length: bytes.len() as u64,
        }
    }
}

/// How a path is called in messages.
pub fn name_of(path: &Path) -> String {
    if is_standard_input(path) {
        return "standard input".to_string();
    }
    path.display().to_string()
}

/// The paths, or standard input where there are none.
pub fn or_standard_input(paths: &[PathBuf]) -> Vec<PathBuf> {
    if paths.is_empty() {
        return vec![PathBuf::from(STANDARD_INPUT)];
    }
    paths.to_vec()
}

/// Whether the path stands for standard input.
pub fn is_standard_input(path: &Path) -> bool {
    path.as_os_str() == STANDARD_INPUT
}

/// Opens a path, and gives how long it is where it is a file.
pub fn open(path: &Path) -> Result<(Box<dyn Read>, Option<u64>), Failure> {
    if is_standard_input(path) {
        if input_is_closed() {
            return Err(Failure::ClosedInput);
        }
        // Rust's own reader of standard input takes one that cannot be read for an empty one.
        let input = io::stdin().as_fd().try_clone_to_owned();
        let input = input.map_err(|error| unread(path, error))?;
        return Ok((Box::new(File::from(input)), None));
    }
    let file = File::open(path).map_err(|error| unread(path, error))?;
    let length = file
        .metadata()
        .ok()
        .filter(|m| m.is_file())
        .map(|m| m.len());
    Ok((Box::new(file), length))
}

/// Reads a record. Of a longer file no more is read than shows that it is longer.
pub fn record(path: &Path) -> Result<RecordBytes, Failure> {
    let (source, length) = open(path)?;
    let mut bytes = Vec::with_capacity(512);
    source
        .take(READ_OF_A_RECORD)
        .read_to_end(&mut bytes)
        .map_err(|error| unread(path, error))?;
    let read = bytes.len() as u64;
    let length = if read < READ_OF_A_RECORD {
        read
    } else {
        length.unwrap_or(read)
    };
    Ok(RecordBytes { bytes, length })
}

/// Reads a text as a whole.
pub fn text(path: &Path) -> Result<String, Failure> {
    let (source, _) = open(path)?;
    let mut bytes = Vec::new();
    source
        .take(MOST_OF_A_TEXT + 1)
        .read_to_end(&mut bytes)
        .map_err(|error| unread(path, error))?;
    let unfit = |why: &str| Failure::Unfit {
        name: name_of(path),
        why: why.to_string(),
    };
    if bytes.len() as u64 > MOST_OF_A_TEXT {
        return Err(unfit(
            "more than 1,048,576 bytes, which no text of a record has",
        ));
    }
    let is_text = |c: char| !c.is_control() || matches!(c, '\n' | '\r' | '\t');
    match String::from_utf8(bytes) {
        Ok(text) if text.chars().all(is_text) => Ok(text),
        _ => Err(unfit("no text: it has bytes that no text has")),
    }
}

/// What could not be read.
pub fn unread(path: &Path, error: io::Error) -> Failure {
    Failure::Read {
        name: name_of(path),
        error,
    }
}

/// Whether standard input was closed when the program was started. Rust then puts the null device, opened to be
/// read and written, in its place, and reading would end at once as if the input were empty.
fn input_is_closed() -> bool {
    let is_null = fs::read_link("/proc/self/fd/0").map_or(false, |to| to == Path::new("/dev/null"));
    let information = fs::read_to_string("/proc/self/fdinfo/0").unwrap_or_default();
    is_null && both_ways(&information)
}

/// Whether what the system says of an open file has the flag "to be read and written" (octal 2).
fn both_ways(information: &str) -> bool {
    let flags = information
        .lines()
        .find_map(|line| line.strip_prefix("flags:"));
    let flags = flags.and_then(|flags| u32::from_str_radix(flags.trim(), 8).ok());
    flags.map_or(false, |flags| flags & 3 == 2)
}

#[cfg(test)]
mod tests {
    use super::*;

    #[test]
    fn flags_of_an_open_file() {
        assert!(both_ways("pos:\t0\nflags:\t0100002\nmnt_id:\t25\n"));
        assert!(!both_ways("pos:\t0\nflags:\t0100000\nmnt_id:\t25\n"));
        assert!(!both_ways("pos:\t0\nflags:\t0100001\n"));
        assert!(!both_ways(""));
    }

    #[test]
    fn no_files_are_standard_input() {
        let paths = or_standard_input(&[]);
        assert_eq!(paths.len(), 1);
        assert!(is_standard_input(&paths[0]));
        assert_eq!(name_of(&paths[0]), "standard input");
        assert!(!is_standard_input(Path::new("./-")));
    }
}
