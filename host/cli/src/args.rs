//! The command line.

use clap::{Args, Parser, Subcommand};
use clap_complete::Shell;
use std::path::PathBuf;

const ABOUT: &str = "\
Records, masks and pictures, for operators.

A record (*.pbr) is an archived stitch of two outlines: the outlines, the slices that were cut from them, and \
how they were joined. It can be run again, bit for bit, and this is proved. `masks` runs records again, compares \
a whole vault with the answers kept beside it, draws them, and makes them from readable texts and back.";

const AFTER: &str = "\
A day with it:
  masks vault --accept archive/     keep the answer of each new record
  masks vault archive/              after an upgrade: is every answer as it was?
  masks replay archive/day3.pbr     one record again, and why where it is refused
  masks draw archive/day3.pbr d.svg a picture of it
  masks draw old.pbr d.svg --beside new.pbr
                                    two records side by side: a late packet is seen at a glance
  masks show archive/day3.pbr       its readable text
  masks check old.pbr a-old.txt a-new.txt
                                    which slices can be kept where an outline has changed

Exit status:
  0  all is well
  1  something was refused, a text has a fault, or an answer differs from the one kept
  2  a file cannot be read or written, or the command was used wrongly

Refusals have numbers. Of records: 11 the mark is not PBR; 12 unknown version; 13 the length is not as the counts \
say; 1 too many slices; 2 an outline is too short or too long; 3 an unknown code; 4 a tolerance is out of range; 5 a \
number is not finite or too large; 6 a start and 7 an offset is past its outline; 8 the starts are out of order; 14 a \
slice was cut from another edition of its outline. Of reports: 18 a coordinate is out of range; 19 too many outlines. \
Beside each number, standard error says where the reason lies.

docs/OPERATORS.md walks through a day.";

/// Records, masks and pictures, for operators.
#[derive(Debug, Parser)]
#[command(name = "masks", version, about = ABOUT, after_help = AFTER, max_term_width = 110)]
pub struct Masks {
    /// What is to be done.
    #[command(subcommand)]
    pub command: Command,
}

/// What is to be done.
#[derive(Debug, Subcommand)]
pub enum Command {
    /// Run records again: the counts, and a line for each chain
    Replay(Replay),
    /// Run every record of a folder again, and compare with the answers kept beside them
    Vault(Vault),
    /// Draw a record, or two side by side, as SVG or PNG
    Draw(Draw),
    /// Make a record from a readable text
    Record(Record),
    /// Print the readable text of a record
    Show(Show),
    /// Report on straight masks in whole microdegrees
    Report(Report),
    /// Say which slices of a record can be kept where one of its outlines has changed
    Check(Check),
    /// Print completions for a shell
    Completions(Completions),
}

/// `masks replay`
#[derive(Debug, Args)]
#[command(after_help = "\
Prints what the proved program `replay` prints: `slices S rounds R loops L`, and for each chain its slices, how it \
ended (closed, small, empty: no slice starts at its end, unselected: slices start there and none is taken) and the \
vertices of its loop. Where there are several records, each line begins with its record's name.")]
pub struct Replay {
    /// The records; standard input where none is named, or by the name -
    #[arg(value_name = "FILE")]
    pub files: Vec<PathBuf>,
    /// Print the vertices of the loops too, each number to its last bit
    #[arg(long)]
    pub loops: bool,
    /// Print one line of JSON for each record
    #[arg(long)]
    pub json: bool,
}

/// `masks vault`
#[derive(Debug, Args)]
#[command(after_help = "\
The answer of NAME.pbr is kept beside it in NAME.pbr.answer: what `masks replay --loops` prints, so the vertices of \
the loops are compared to their last bit. Folders within the folder are looked into. A refusal is an answer like any \
other: it is kept, and it is no difference where it is the one kept.

The status is 1 where an answer differs, where a record is gone whose answer is kept, or where a new record is \
refused.")]
pub struct Vault {
    /// The folder
    #[arg(value_name = "DIR")]
    pub folder: PathBuf,
    /// Keep the answers of records that have none kept
    #[arg(long)]
    pub accept: bool,
    /// Keep the answers that differ too, in the place of the old ones
    #[arg(long)]
    pub accept_changed: bool,
    /// Print one line of JSON
    #[arg(long)]
    pub json: bool,
}

/// `masks draw`
#[derive(Debug, Args)]
#[command(after_help = "\
A refused record is drawn too, as far as its numbers name anything, with the reason in the picture; the status is then 1. \
For a picture that ends in .png one of the programs rsvg-convert, inkscape or magick has to be there.")]
pub struct Draw {
    /// The record
    #[arg(value_name = "RECORD")]
    pub record: PathBuf,
    /// The picture: a name that ends in .svg or .png
    #[arg(value_name = "OUT")]
    pub out: PathBuf,
    /// A second record, drawn beside the first on the same scale, with what has moved marked
    #[arg(long, value_name = "RECORD")]
    pub beside: Option<PathBuf>,
}

/// `masks record`
#[derive(Debug, Args)]
#[command(after_help = "\
One item to a line, words parted by blanks; # starts a comment. Vertices and slices are numbered from 0:

  version 2                       1 where this line is left out
  selector or_and                 or not_xor
  tolerance 1/1024                in version 2 also two, of x and of y
  editions 7 3                    of the outlines, in version 2; 0 where this line is left out
  starts 1 2 2                    where the slices of outline 2, the overlaps of 1 and the
                                  overlaps of 2 begin
  1 0 0 0                         a vertex of outline 1: x y bulge
  2 2 2 0                         a vertex of outline 2
  slice 1 + 2 3  2 4 0  0  4 2    source, + or - (inverted), start, offset; start x y bulge;
                                  end bulge; end x y; in version 2 also an edition, where it
                                  is not its outline's

A number is a fraction, a decimal number, or 0x and the 16 hex digits of its bits. The record is written by the \
proved writer, which refuses what could not be run again. For records that show a refusal there is --unchecked: it \
takes every code and number, `of NAME` for the text NAME.txt beside this one, and edits of the bytes, made in turn:

  set 9 02 00                     the bytes from place 9 on are these, in hex
  drop 26 72                      72 bytes are taken out from place 26 on
  copy 272 54 27                  the 54 bytes from place 272 on are added at the end, 27 times
  cut 1, pad 1                    1 byte is taken off, or 1 byte 0 is added, at the end")]
pub struct Record {
    /// The text; standard input by the name -
    #[arg(value_name = "TEXT")]
    pub text: PathBuf,
    /// The record to be written
    #[arg(value_name = "RECORD")]
    pub record: PathBuf,
    /// Write what the text says even where it would be refused
    #[arg(long)]
    pub unchecked: bool,
}

/// `masks show`
#[derive(Debug, Args)]
pub struct Show {
    /// The record; standard input by the name -
    #[arg(value_name = "RECORD")]
    pub record: PathBuf,
    /// Print one line of JSON
    #[arg(long)]
    pub json: bool,
}

/// `masks report`
#[derive(Debug, Args)]
#[command(after_help = "\
A vertex a line: two whole numbers, of at most 400,000,000 in size. An empty line ends an outline; # starts a comment, \
and a line with a comment alone ends none. Where there are several files, each has its own report.")]
pub struct Report {
    /// The files; standard input where none is named, or by the name -
    #[arg(value_name = "FILE")]
    pub files: Vec<PathBuf>,
    /// Print one line of JSON for each file
    #[arg(long)]
    pub json: bool,
}

/// `masks check`
#[derive(Debug, Args)]
#[command(after_help = "\
An outline is a text: a vertex a line, x y and the bulge (0 where it is left out), numbers as in `masks record`; \
`edition N` gives its edition, and # starts a comment. The old outline has to be one of the record's, bit for bit; so \
it tells which of the two has changed. The new one has the next edition where none is given.

For each slice of that outline: the verdict of mask_reopen on the new outline, whether mask_unmoved finds it the same \
piece, and what to do. The last line is of the stitch as a whole. The status is 0 where the whole stitch can be \
reopened, else 1. docs/REOPENING.md gives the reasons.")]
pub struct Check {
    /// The record that holds the slices
    #[arg(value_name = "RECORD")]
    pub record: PathBuf,
    /// The outline that they were cut from
    #[arg(value_name = "OLD_OUTLINE")]
    pub old: PathBuf,
    /// The outline that came in its place
    #[arg(value_name = "NEW_OUTLINE")]
    pub new: PathBuf,
    /// Which outline of the record has changed, where the old one is both
    #[arg(long, value_name = "1 or 2", value_parser = clap::value_parser!(u8).range(1..=2))]
    pub outline: Option<u8>,
    /// Print one line of JSON
    #[arg(long)]
    pub json: bool,
}

/// `masks completions`
#[derive(Debug, Args)]
pub struct Completions {
    /// The shell
    #[arg(value_enum, value_name = "SHELL")]
    pub shell: Shell,
}

#[cfg(test)]
mod tests {
    use super::*;
    use clap::CommandFactory;

    #[test]
    fn the_command_line_is_sound() {
        Masks::command().debug_assert();
    }
}
