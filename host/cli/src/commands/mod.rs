//! The subcommands, one a file.

pub mod check;
pub mod completions;
pub mod draw;
pub mod record;
pub mod replay;
pub mod report;
pub mod show;
pub mod vault;
