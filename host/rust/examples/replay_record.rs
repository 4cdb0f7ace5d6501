//! What the program `replay` prints, by the archive's entry `mask_record_replay`: the lines of the
//! record in a file, or on standard input where none is named. host/replay/check compares both with
//! an independent reading.

use mask_tools::Record;
use std::env;
use std::fs;
use std::io::{self, Read};
use std::process::ExitCode;

/// One byte more than the longest record, so that a longer one is seen to be longer.
const MOST: u64 = Record::MOST_BYTES as u64 + 1;

fn read(from: impl Read) -> io::Result<Vec<u8>> {
    let mut bytes = Vec::new();
    from.take(MOST).read_to_end(&mut bytes)?;
    Ok(bytes)
}

fn main() -> ExitCode {
    let words: Vec<String> = env::args().skip(1).collect();
    let (name, bytes) = match &words[..] {
        [] => ("standard input", read(io::stdin())),
        [path] => (&path[..], fs::File::open(path).and_then(read)),
        _ => {
            eprintln!("usage: replay_record [FILE]");
            return ExitCode::from(2);
        }
    };
    match bytes.map(|bytes| Record::from_bytes(bytes).replay()) {
        Ok(Ok(replay)) => print!("{replay}"),
        Ok(Err(refusal)) => println!("refused {}", refusal.number()),
        Err(fault) => {
            eprintln!("replay_record: {name}: {fault}");
            return ExitCode::FAILURE;
        }
    }
    ExitCode::SUCCESS
}
