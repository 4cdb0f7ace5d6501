//! `masks completions`: what a shell has to know to complete the command line.

use crate::args::{Completions, Masks};
use crate::failure::{Failure, Status};
use crate::output::Out;
use clap::CommandFactory;

/// Prints the completions for a shell.
pub fn run(args: &Completions) -> Result<Status, Failure> {
    let mut made = Vec::new();
    clap_complete::generate(args.shell, &mut Masks::command(), "masks", &mut made);
    let mut out = Out::new();
    out.text(&String::from_utf8_lossy(&made))?;
    out.finish()?;
    Ok(Status::Good)
}
