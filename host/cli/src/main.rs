//! `masks`: records, masks and pictures, for operators.
//!
//! Every answer is the library's (`mask_tools`, so the proved entries). What is written here reads files, finds the
//! place of a fault, compares, prints and draws.

#![forbid(unsafe_code)]
#![warn(missing_docs)]
#![warn(rust_2018_idioms)]

mod answer;
mod args;
mod commands;
mod failure;
mod geometry;
mod input;
mod number;
mod outline;
mod output;
mod pbr;
mod picture;
mod save;

use args::{Command, Masks};
use clap::error::ErrorKind;
use clap::Parser;
use failure::{Failure, Status};
use std::process::ExitCode;

fn main() -> ExitCode {
    let status = match Masks::try_parse() {
        Ok(masks) => run(&masks.command).unwrap_or_else(|failure| {
            output::tell(&failure);
            failure.status()
        }),
        Err(error) => help_or_usage(&error),
    };
    ExitCode::from(status as u8)
}

fn run(command: &Command) -> Result<Status, Failure> {
    match command {
        Command::Replay(args) => commands::replay::run(args),
        Command::Vault(args) => commands::vault::run(args),
        Command::Draw(args) => commands::draw::run(args),
        Command::Record(args) => commands::record::run(args),
        Command::Show(args) => commands::show::run(args),
        Command::Report(args) => commands::report::run(args),
        Command::Check(args) => commands::check::run(args),
        Command::Completions(args) => commands::completions::run(args),
    }
}

/// Prints help where it was asked for, and else what is wrong with the command line.
fn help_or_usage(error: &clap::Error) -> Status {
    let asked = matches!(
        error.kind(),
        ErrorKind::DisplayHelp | ErrorKind::DisplayVersion
    );
    match error
        .print()
        .and_then(|()| std::io::Write::flush(&mut std::io::stdout()))
    {
        Ok(()) if asked => Status::Good,
        Ok(()) => Status::Failed,
        Err(error) => {
            let name = "standard output".to_string();
            output::tell(&Failure::Write { name, error });
            Status::Failed
        }
    }
}
