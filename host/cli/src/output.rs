//! Standard output and standard error. What cannot be written is told: a full disk, a pipe that nobody reads.

use crate::failure::Failure;
use serde_json::Value;
use std::io::{self, BufWriter, StdoutLock, Write};

/// Standard output.
pub struct Out {
    lines: BufWriter<StdoutLock<'static>>,
}

impl Out {
    /// Standard output, with nothing written yet.
    pub fn new() -> Out {
        Out {
            lines: BufWriter::with_capacity(1 << 16, io::stdout().lock()),
        }
    }

    /// Writes a text as it is.
    pub fn text(&mut self, text: &str) -> Result<(), Failure> {
        self.lines.write_all(text.as_bytes()).map_err(unwritten)
    }

    /// Writes a line.
    pub fn line(&mut self, line: &str) -> Result<(), Failure> {
        self.text(line)?;
        self.text("\n")
    }

    /// Writes a value as one line of JSON.
    pub fn json(&mut self, value: &Value) -> Result<(), Failure> {
        self.line(&value.to_string())
    }

    /// All is written, or it is told that it is not. What is not finished may be lost.
    pub fn finish(mut self) -> Result<(), Failure> {
        self.lines.flush().map_err(unwritten)
    }
}

fn unwritten(error: io::Error) -> Failure {
    Failure::Write {
        name: "standard output".to_string(),
        error,
    }
}

/// Says something on standard error. Where even that cannot be written, the exit status is left to say it.
pub fn say(what: &str) {
    let _ = writeln!(io::stderr(), "masks: {what}");
}

/// Says what went wrong.
pub fn tell(failure: &Failure) {
    say(&failure.to_string());
}
