//! What the signs mean: those that are in the picture.

use super::panel::sign_at;
use super::subject::Subject;
use super::svg::{px, Svg};
use mask_tools::{ChainEnd, Point};

/// The width of a column, and the height of a row.
const COLUMN: f64 = 288.0;
const ROW: f64 = 22.0;

/// A sign and what it means.
#[derive(Debug, Clone, Copy, PartialEq, Eq)]
pub enum Entry {
    Outline(u8),
    Slice(u8),
    Inverted,
    Overlap,
    Stale,
    Before,
    Moved,
    Join,
    Gap,
    Loop,
    End(ChainEnd),
}

impl Entry {
    const ALL: [Entry; 15] = [
        Entry::Outline(1),
        Entry::Outline(2),
        Entry::Slice(1),
        Entry::Slice(2),
        Entry::Inverted,
        Entry::Overlap,
        Entry::Stale,
        Entry::Before,
        Entry::Moved,
        Entry::Join,
        Entry::Gap,
        Entry::Loop,
        Entry::End(ChainEnd::NoCandidate),
        Entry::End(ChainEnd::NotSelected),
        Entry::End(ChainEnd::TooSmall),
    ];

    /// Whether the picture of these records has it.
    fn is_in(self, subjects: &[Subject]) -> bool {
        match self {
            Entry::Outline(_) => true,
            Entry::Before | Entry::Moved => has_changed(subjects),
            Entry::Join => any_join(subjects, |end, start| end == start),
            Entry::Gap => any_join(subjects, |end, start| end != start),
            Entry::Loop => any_end(subjects, ChainEnd::Closed),
            Entry::End(end) => any_end(subjects, end),
            Entry::Slice(_) | Entry::Inverted | Entry::Overlap | Entry::Stale => {
                any_slice(subjects, |subject, slice| self.is_of(subject, slice))
            }
        }
    }

    /// Whether it is the sign of a slice.
    fn is_of(self, subject: &Subject, number: usize) -> bool {
        let slice = &subject.contents.slices[number];
        let stale = subject.is_stale(number);
        match self {
            Entry::Slice(source) => slice.source_code == source && !stale,
            Entry::Inverted => slice.inverted_code == 1 && !stale,
            Entry::Overlap => subject.is_overlap(number),
            _ => stale,
        }
    }
}

/// The entries for what these records show.
pub fn entries(subjects: &[Subject]) -> Vec<Entry> {
    let mut entries = Entry::ALL.to_vec();
    entries.retain(|entry| entry.is_in(subjects));
    entries
}

fn any_slice(subjects: &[Subject], test: impl Fn(&Subject, usize) -> bool) -> bool {
    subjects.iter().any(|subject| {
        let ways = subject.ways.iter().enumerate();
        ways.into_iter()
            .any(|(number, way)| way.is_some() && test(subject, number))
    })
}

fn any_join(subjects: &[Subject], test: impl Fn(Point, Point) -> bool) -> bool {
    subjects.iter().any(|subject| {
        let chains = subject.chains();
        let mut joins = chains.iter().flat_map(|chain| subject.joined(chain));
        joins.any(|(end, start)| test(end, start))
    })
}

fn any_end(subjects: &[Subject], end: ChainEnd) -> bool {
    subjects
        .iter()
        .any(|subject| subject.chains().iter().any(|chain| chain.end == end))
}

/// Whether the two records have different outlines.
fn has_changed(subjects: &[Subject]) -> bool {
    match subjects {
        [one, other] => [1, 2]
            .iter()
            .any(|source| one.vertices(*source) != other.vertices(*source)),
        _ => false,
    }
}

fn columns(width: f64) -> usize {
    ((width / COLUMN) as usize).max(1)
}

/// How high the legend is.
pub fn height(entries: &[Entry], width: f64) -> f64 {
    let rows = (entries.len() + columns(width) - 1) / columns(width);
    ROW * rows as f64 + 12.0
}

/// Draws the legend at this left and top, in this width.
pub fn draw(svg: &mut Svg, entries: &[Entry], [left, top, width]: [f64; 3]) {
    svg.open("legend");
    svg.path(
        "grid",
        &format!("M{} {}H{}", px(left), px(top), px(left + width)),
    );
    for (number, entry) in entries.iter().enumerate() {
        let (column, row) = (number % columns(width), number / columns(width));
        let at = (left + column as f64 * COLUMN, top + 18.0 + row as f64 * ROW);
        sign(svg, *entry, at);
        svg.text("said", (at.0 + 44.0, at.1 + 4.0), words(*entry));
    }
    svg.close();
}

fn sign(svg: &mut Svg, entry: Entry, (x, y): (f64, f64)) {
    let line = format!("M{} {}H{}", px(x), px(y), px(x + 34.0));
    let middle = (x + 17.0, y);
    match entry {
        Entry::Outline(source) => {
            svg.path(&format!("outline {}", colour(source)), &line);
            svg.circle(&format!("vertex {}", colour(source)), middle, 3.5);
        }
        Entry::Slice(source) => {
            svg.path(&format!("slice {}", colour(source)), &line);
            let head = format!("M{} {}l-14 6v-12Z", px(x + 25.0), px(y));
            svg.path(&format!("arrow {}", colour(source)), &head);
        }
        Entry::Inverted => svg.path("slice one inverted", &line),
        Entry::Overlap => {
            svg.path("slice two", &line);
            svg.path("overlap-core", &line);
        }
        Entry::Stale => svg.path("slice stale", &line),
        Entry::Before => svg.path("before", &line),
        Entry::Moved => {
            svg.circle("moved", middle, 8.0);
            svg.circle("vertex one", middle, 3.5);
        }
        Entry::Join | Entry::Gap => {
            svg.circle("join", middle, 7.0);
            if entry == Entry::Gap {
                svg.circle("join-gap", middle, 3.5);
            }
        }
        Entry::Loop => svg.rectangle("loop", [x, y - 7.0, 34.0, 14.0]),
        Entry::End(end) => svg.path("end", &sign_at(end, middle)),
    }
}

fn colour(source: u8) -> &'static str {
    if source == 1 {
        "one"
    } else {
        "two"
    }
}

fn words(entry: Entry) -> &'static str {
    match entry {
        Entry::Outline(1) => "outline 1, its vertices numbered",
        Entry::Outline(_) => "outline 2, its vertices numbered",
        Entry::Slice(1) => "slice of outline 1, and its direction",
        Entry::Slice(_) => "slice of outline 2, and its direction",
        Entry::Inverted => "slice that runs against its outline",
        Entry::Overlap => "slice that runs on both outlines",
        Entry::Stale => "slice of another edition, read now",
        Entry::Before => "outline as it was in the first record",
        Entry::Moved => "vertex whose number meant another",
        Entry::Join => "join: the ends are the same",
        Entry::Gap => "join within tolerance: the ends differ",
        Entry::Loop => "loop: the inside of the answer",
        Entry::End(ChainEnd::NotSelected) => "chain that ended unselected",
        Entry::End(ChainEnd::TooSmall) => "chain that ended small",
        Entry::End(_) => "chain that ended empty",
    }
}
