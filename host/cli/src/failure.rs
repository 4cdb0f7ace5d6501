//! What went wrong, as a sentence and as an exit status.

use std::fmt;
use std::io;

/// How a command ended. The number is its exit status.
#[derive(Debug, Clone, Copy, PartialEq, Eq, PartialOrd, Ord)]
pub enum Status {
    /// All is well.
    Good = 0,
    /// Something was refused, or differs from what was kept.
    Found = 1,
    /// Something could not be read or written, or the command was used wrongly.
    Failed = 2,
}

/// Why a command, or its work on one file, did not come to its end.
#[derive(Debug)]
pub enum Failure {
    /// A file or a stream could not be read.
    Read {
        /// What was to be read.
        name: String,
        /// Why it could not be.
        error: io::Error,
    },
    /// A file or a stream could not be written.
    Write {
        /// What was to be written.
        name: String,
        /// Why it could not be.
        error: io::Error,
    },
    /// Nothing can come from standard input.
    ClosedInput,
    /// A line of a text is not understood.
    Line {
        /// The text.
        name: String,
        /// The line, counted from 1.
        line: usize,
        /// What is wrong with it.
        why: String,
    },
    /// A text or a record as a whole cannot be used.
    Unfit {
        /// The text or the record.
        name: String,
        /// What is wrong with it.
        why: String,
    },
    /// The library refuses.
    Refused {
        /// What was refused.
        name: String,
        /// The refusal's number.
        number: u32,
        /// Where in it the reason lies.
        why: String,
    },
    /// The command was used wrongly.
    Usage(String),
    /// A program that was to help is not there, or failed.
    Helper(String),
}

impl Failure {
    /// The exit status that it leads to.
    pub fn status(&self) -> Status {
        match self {
            Failure::Line { .. } | Failure::Unfit { .. } | Failure::Refused { .. } => Status::Found,
            _ => Status::Failed,
        }
    }
}

impl fmt::Display for Failure {
    fn fmt(&self, f: &mut fmt::Formatter<'_>) -> fmt::Result {
        match self {
            Failure::Read { name, error } => write!(f, "{name}: cannot be read: {}", plain(error)),
            Failure::Write { name, error } => {
                write!(f, "{name}: cannot be written: {}", plain(error))
            }
            Failure::ClosedInput => write!(
                f,
                "standard input: nothing can be read: it is closed, or it is the null device"
            ),
            Failure::Line { name, line, why } => write!(f, "{name}: line {line}: {why}"),
            Failure::Unfit { name, why } => write!(f, "{name}: {why}"),
            Failure::Refused { name, number, why } => write!(f, "{name}: refused {number}: {why}"),
            Failure::Usage(why) | Failure::Helper(why) => write!(f, "{why}"),
        }
    }
}

/// The system's words, without the number that Rust adds to them.
fn plain(error: &io::Error) -> String {
    let said = error.to_string();
    match said.find(" (os error") {
        Some(end) => said[..end].to_string(),
        None => said,
    }
}

#[cfg(test)]
mod tests {
    use super::*;

    #[test]
    fn statuses_by_kind() {
        let name = || "a".to_string();
        let error = || io::Error::from_raw_os_error(2);
        let found = [
            Failure::Line {
                name: name(),
                line: 3,
                why: name(),
            },
            Failure::Unfit {
                name: name(),
                why: name(),
            },
            Failure::Refused {
                name: name(),
                number: 13,
                why: name(),
            },
        ];
        let failed = [
            Failure::Read {
                name: name(),
                error: error(),
            },
            Failure::Write {
                name: name(),
                error: error(),
            },
            Failure::ClosedInput,
            Failure::Usage(name()),
            Failure::Helper(name()),
        ];
        assert!(found.iter().all(|f| f.status() == Status::Found));
        assert!(failed.iter().all(|f| f.status() == Status::Failed));
    }

    #[test]
    fn the_systems_words_without_its_number() {
        let failure = Failure::Read {
            name: "a.pbr".to_string(),
            error: io::Error::from_raw_os_error(2),
        };
        let said = failure.to_string();
        assert_eq!(said, "a.pbr: cannot be read: No such file or directory");
    }
}
