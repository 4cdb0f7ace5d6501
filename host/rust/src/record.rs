//! Records of stitches: written, run again, and taken apart.

use crate::ffi;
use crate::lent;
use crate::list::List;
use crate::{
    ChainEnd, Outline, Point, Refusal, Selector, Slice, Slices, Source, Starts, Stitched,
    Tolerance, Vertex, View,
};
use std::fmt;

/// A version of the record.
#[derive(Debug, Clone, Copy, PartialEq, Eq, PartialOrd, Ord, Hash)]
pub enum RecordVersion {
    /// Version 1: one tolerance, and no editions. It reads as equal tolerances and edition 0.
    One,
    /// Version 2: both tolerances, the outlines' editions and each slice's.
    Two,
}

impl RecordVersion {
    /// Both.
    pub const ALL: [RecordVersion; 2] = [RecordVersion::One, RecordVersion::Two];

    /// Its number, 1 or 2.
    pub const fn number(self) -> u32 {
        match self {
            RecordVersion::One => 1,
            RecordVersion::Two => 2,
        }
    }

    pub(crate) fn of_number(number: u32) -> RecordVersion {
        match number {
            1 => RecordVersion::One,
            2 => RecordVersion::Two,
            other => panic!("the archive gave version {other}: it is not the one of this wrapper"),
        }
    }
}

/// The record `PBR` of a stitch: bytes, whatever they hold. A replay says whether they are a record.
///
/// ```
/// use mask_tools::{Outline, Point, Record, RecordVersion, Refusal, Selector, Slice, Slices};
/// use mask_tools::{Source, Starts, Tolerance, Vertex, View};
///
/// # fn main() -> Result<(), Refusal> {
/// let a = Outline::straight(&[(0.0, 0.0), (4.0, 0.0), (4.0, 4.0), (0.0, 4.0)]).with_edition(7);
/// let b = Outline::straight(&[(2.0, 2.0), (6.0, 2.0), (6.0, 6.0), (2.0, 6.0)]);
/// let part = |source, start_index, edition, from: (f64, f64), to: (f64, f64)| Slice {
///     source,
///     view: View {
///         start_index,
///         end_index_offset: 3,
///         updated_start: Vertex::new(from.0, from.1, 0.0),
///         end_point: Point::new(to.0, to.1),
///         edition,
///         ..View::default()
///     },
/// };
/// // The union of two squares: the outside of A, then the outside of B.
/// let slices = Slices {
///     list: [
///         part(Source::Pline1, 2, 7, (2.0, 4.0), (4.0, 2.0)),
///         part(Source::Pline2, 0, 0, (4.0, 2.0), (2.0, 4.0)),
///     ]
///     .into(),
///     starts: Starts { pline2: 1, pline1_overlapping: 2, pline2_overlapping: 2 },
/// };
/// let tolerance = Tolerance { x: 1.0 / 1024.0, y: 1.0 / 4096.0 };
/// let record =
///     Record::write(RecordVersion::Two, &a, &b, &slices, Selector::OrAnd, tolerance)?;
/// assert_eq!(record.bytes().len(), 350);
///
/// // Bytes go into a file, and come back.
/// let replay = Record::from_bytes(record.bytes()).replay()?;
/// assert_eq!(replay.to_string(), "slices 2 rounds 2 loops 1\n0 1 closed 8\n");
/// assert_eq!(replay.stitched.loops().next().map(|lp| lp.len()), Some(8));
///
/// // Version 1 has one tolerance, so two that differ are refused.
/// let one = Record::write(RecordVersion::One, &a, &b, &slices, Selector::OrAnd, tolerance);
/// assert_eq!(one, Err(Refusal::Tolerance));
/// # Ok(())
/// # }
/// ```
#[derive(Debug, Clone, PartialEq, Eq, Hash, Default)]
pub struct Record {
    bytes: Vec<u8>,
}

impl Record {
    /// The most vertices of an outline in a record.
    pub const MOST_VERTICES: usize = 64;
    /// The most slices in a record.
    pub const MOST_SLICES: usize = 28;
    /// The most bytes of a record, which is one of version 2. Of version 1 it is 4,610.
    pub const MOST_BYTES: usize = 4738;
    /// The most vertices that a replay needs room for.
    pub const MOST_ROOM: usize = 1 + Record::MOST_SLICES * (Record::MOST_VERTICES + 1);

    /// These bytes. None are refused here: [`replay`](Record::replay) looks at them.
    pub fn from_bytes(bytes: impl Into<Vec<u8>>) -> Record {
        Record {
            bytes: bytes.into(),
        }
    }

    /// Its bytes.
    pub fn bytes(&self) -> &[u8] {
        &self.bytes
    }

    /// Its bytes, given away.
    pub fn into_bytes(self) -> Vec<u8> {
        self.bytes
    }

    /// The record of a stitch: of the outlines, slices and selector that [`stitch`](crate::stitch)
    /// takes, and of the tolerances of its setting. Every record that is written can be replayed, and
    /// gives what the stitch gives.
    ///
    /// It takes outlines of at most 64 vertices and at most 28 slices. Version 1 holds one tolerance
    /// and no edition: it refuses two that differ, and leaves editions out. Slices of another edition
    /// than their outline are refused in both versions.
    ///
    /// Refusals: `Length`, `Outline`, `Tolerance`, `Number`, `Index`, `Count`, `Starts`, `Edition`; and
    /// `Code`, as of a stitch.
    pub fn write(
        version: RecordVersion,
        pline1: &Outline,
        pline2: &Outline,
        slices: &Slices,
        selector: Selector,
        tolerance: Tolerance,
    ) -> Result<Record, Refusal> {
        Record::written(|bytes| {
            lent::record_write(version, pline1, pline2, slices, selector, tolerance, bytes)
        })
    }

    /// What a call writes that is lent room for the longest record.
    fn written(call: impl FnOnce(&mut [u8]) -> Result<usize, Refusal>) -> Result<Record, Refusal> {
        let mut bytes = vec![0; Record::MOST_BYTES];
        let length = call(&mut bytes)?;
        bytes.truncate(length);
        Ok(Record { bytes })
    }

    /// Runs the stitch again that it holds.
    ///
    /// Refusals: `Mark`, `Version`, `Size`; then `Length`, `Outline`, `Code`, `Tolerance`, `Number`,
    /// `Index`, `Count`, `Starts`, `Edition`.
    pub fn replay(&self) -> Result<Replay, Refusal> {
        let mut lists = Stitched::with_room(Record::MOST_ROOM, Record::MOST_SLICES);
        let counts = lent::record_replay(&self.bytes, lists.room())?;
        Ok(Replay {
            version: counts.version,
            slices: counts.slices,
            stitched: lists.keep(counts.stitched),
        })
    }

    /// What it holds, field by field, also where a replay refuses it with 1 to 8 or 14.
    ///
    /// Whether its layout is whole is asked of the proved replay. The fields are then read by this
    /// crate, in plain Rust, and nothing of that is proved. It can be checked where the record is
    /// accepted: written again ([`RecordContents::write`]), the contents give the same bytes, and
    /// what is written is proved to hold what was handed in. The tests of this crate do so.
    ///
    /// Refusals: `Mark`, `Version`, `Size`.
    pub fn contents(&self) -> Result<RecordContents, Refusal> {
        match self.replay() {
            Err(refusal @ (Refusal::Mark | Refusal::Version | Refusal::Size)) => Err(refusal),
            _ => Ok(Fields { left: &self.bytes }.contents()),
        }
    }
}

/// What a replay gives: the stitch of a record.
///
/// Printed, it is what the program `replay` prints of the record: a line of counts, and then one line
/// for each chain: its slices, how it ended, and the vertices of its loop.
#[derive(Debug, Clone, PartialEq)]
pub struct Replay {
    /// The record's version.
    pub version: RecordVersion,
    /// How many slices it holds.
    pub slices: usize,
    /// The loops and chains that they make.
    pub stitched: Stitched,
}

impl fmt::Display for Replay {
    fn fmt(&self, f: &mut fmt::Formatter<'_>) -> fmt::Result {
        let (rounds, loops) = (self.stitched.rounds(), self.stitched.loop_count());
        writeln!(f, "slices {} rounds {rounds} loops {loops}", self.slices)?;
        let mut closed = self.stitched.loops();
        for chain in self.stitched.chains() {
            for slice in chain.slices {
                write!(f, "{slice} ")?;
            }
            let (word, vertices) = match chain.end {
                ChainEnd::Closed => ("closed", closed.next().map_or(0, |lp| lp.len())),
                ChainEnd::TooSmall => ("small", 0),
                ChainEnd::NoCandidate => ("empty", 0),
                ChainEnd::NotSelected => ("unselected", 0),
            };
            writeln!(f, "{word} {vertices}")?;
        }
        Ok(())
    }
}

/// What a record holds, field by field, as it stands there: a code can be unknown, and a number out of
/// range. [`Record::contents`] says how far it can be relied on.
#[derive(Debug, Clone, PartialEq)]
pub struct RecordContents {
    /// The record's version.
    pub version: RecordVersion,
    /// The first outline. Of version 1 it is of edition 0.
    pub pline1: Outline,
    /// The second outline. Of version 1 it is of edition 0.
    pub pline2: Outline,
    /// The code of the selector: 0 or 1, or a number that is refused.
    pub selector_code: u8,
    /// The tolerances. Of version 1 both are the same.
    pub tolerance: Tolerance,
    /// Where the classes of slices begin.
    pub starts: Starts,
    /// The slices.
    pub slices: Vec<RecordSlice>,
}

/// A slice as it stands in a record.
#[derive(Debug, Clone, Copy, PartialEq)]
pub struct RecordSlice {
    /// The code of its outline: 1 or 2, or a number that is refused.
    pub source_code: u8,
    /// The code of its direction: 0 forward, 1 inverted, or a number that is refused.
    pub inverted_code: u8,
    /// The part of the outline. It is inverted where the code is 1. Of version 1 it is of edition 0.
    pub view: View,
}

impl RecordSlice {
    /// The slice; none where a code is unknown.
    pub fn slice(&self) -> Option<Slice> {
        let source = match self.source_code {
            1 => Source::Pline1,
            2 => Source::Pline2,
            _ => return None,
        };
        (self.inverted_code <= 1).then_some(Slice {
            source,
            view: self.view,
        })
    }
}

impl RecordContents {
    /// The selector; none where its code is unknown.
    pub fn selector(&self) -> Option<Selector> {
        match self.selector_code {
            0 => Some(Selector::OrAnd),
            1 => Some(Selector::NotXor),
            _ => None,
        }
    }

    /// The slices as a stitch takes them; none where a code is unknown.
    pub fn as_slices(&self) -> Option<Slices> {
        let list: Option<List<Slice>> = self.slices.iter().map(RecordSlice::slice).collect();
        list.map(|list| Slices {
            list,
            starts: self.starts,
        })
    }

    /// The record of them, in this version. So a record of version 1 is written again as version 2.
    /// Codes are handed on as they are: an unknown one is refused.
    ///
    /// Refusals: as of [`Record::write`].
    pub fn write(&self, version: RecordVersion) -> Result<Record, Refusal> {
        let mut codes = Vec::new();
        let mut numbers = Vec::new();
        let mut editions = Vec::new();
        for slice in &self.slices {
            let view = &slice.view;
            codes.extend([slice.source_code, slice.inverted_code].map(usize::from));
            codes.extend([view.start_index, view.end_index_offset]);
            numbers.extend(view.numbers());
            editions.push(view.edition);
        }
        Record::written(|bytes| {
            let answer = ffi::record_write(
                version.number(),
                self.pline1.numbers(),
                self.pline1.vertex_count(),
                self.pline1.edition(),
                self.pline2.numbers(),
                self.pline2.vertex_count(),
                self.pline2.edition(),
                &codes,
                &numbers,
                &editions,
                self.slices.len(),
                self.starts.pline2,
                self.starts.pline1_overlapping,
                self.starts.pline2_overlapping,
                self.selector_code.into(),
                self.tolerance.x,
                self.tolerance.y,
                bytes,
            );
            Refusal::check(answer.refusal, answer.count)
        })
    }
}

/// The fields of a record whose layout is whole, taken from the front on.
struct Fields<'a> {
    left: &'a [u8],
}

impl Fields<'_> {
    fn take<const N: usize>(&mut self) -> [u8; N] {
        let whole =
            "the archive took a record that is not whole: it is not the one of this wrapper";
        let (front, rest) = self.left.split_at(N.min(self.left.len()));
        self.left = rest;
        front.try_into().expect(whole)
    }

    fn byte(&mut self) -> u8 {
        let [byte] = self.take();
        byte
    }

    fn count(&mut self) -> usize {
        u16::from_le_bytes(self.take()).into()
    }

    fn edition(&mut self) -> u32 {
        u32::from_le_bytes(self.take())
    }

    fn number(&mut self) -> f64 {
        f64::from_bits(u64::from_le_bytes(self.take()))
    }

    fn vertex(&mut self) -> Vertex {
        Vertex {
            x: self.number(),
            y: self.number(),
            bulge: self.number(),
        }
    }

    fn contents(&mut self) -> RecordContents {
        let _mark: [u8; 3] = self.take();
        let version = RecordVersion::of_number(self.count() as u32);
        let vertices1 = self.count();
        let vertices2 = self.count();
        let selector_code = self.byte();
        let (tolerance, edition1, edition2) = self.tolerance_and_editions(version);
        let starts = Starts {
            pline2: self.count(),
            pline1_overlapping: self.count(),
            pline2_overlapping: self.count(),
        };
        let slices = self.count();
        RecordContents {
            version,
            pline1: self.outline(vertices1, edition1),
            pline2: self.outline(vertices2, edition2),
            selector_code,
            tolerance,
            starts,
            slices: (0..slices).map(|_| self.slice(version)).collect(),
        }
    }

    fn tolerance_and_editions(&mut self, version: RecordVersion) -> (Tolerance, u32, u32) {
        match version {
            RecordVersion::One => (Tolerance::new(self.number()), 0, 0),
            RecordVersion::Two => {
                let tolerance = Tolerance {
                    x: self.number(),
                    y: self.number(),
                };
                (tolerance, self.edition(), self.edition())
            }
        }
    }

    fn outline(&mut self, vertices: usize, edition: u32) -> Outline {
        let outline: Outline = (0..vertices).map(|_| self.vertex()).collect();
        outline.with_edition(edition)
    }

    fn slice(&mut self, version: RecordVersion) -> RecordSlice {
        let source_code = self.byte();
        let inverted_code = self.byte();
        let view = View {
            start_index: self.count(),
            end_index_offset: self.count(),
            updated_start: self.vertex(),
            updated_end_bulge: self.number(),
            end_point: Point {
                x: self.number(),
                y: self.number(),
            },
            inverted_direction: inverted_code == 1,
            edition: match version {
                RecordVersion::One => 0,
                RecordVersion::Two => self.edition(),
            },
        };
        RecordSlice {
            source_code,
            inverted_code,
            view,
        }
    }
}

#[cfg(test)]
mod tests {
    use super::*;
    use crate::ffi::standin::{told, Lent, Reply};
    use crate::ffi::{CountAnswer, ReplayAnswer};

    fn outlines() -> [Outline; 2] {
        [
            Outline::straight(&[(0.0, 0.0), (4.0, 0.0), (4.0, 4.0)]).with_edition(u32::MAX),
            Outline::straight(&[(2.0, 2.0), (6.0, 2.0)]).with_edition(5),
        ]
    }

    fn slices() -> Slices {
        let forward = View::of_numbers(1, 2, &[0.5, 1.0, -0.25, 0.125, 3.0, -7.0], u32::MAX);
        let inverted = View {
            inverted_direction: true,
            edition: 5,
            ..forward
        };
        Slices {
            list: List::from([
                Slice {
                    source: Source::Pline1,
                    view: forward,
                },
                Slice {
                    source: Source::Pline2,
                    view: inverted,
                },
            ]),
            starts: Starts {
                pline2: 1,
                pline1_overlapping: 2,
                pline2_overlapping: 3,
            },
        }
    }

    const AXES: Tolerance = Tolerance { x: 0.5, y: 0.25 };

    fn counted(count: usize) -> Reply {
        Reply::of(CountAnswer { refusal: 0, count })
    }

    fn refused(refusal: u32) -> Reply {
        Reply::of(ReplayAnswer {
            refusal,
            ..ReplayAnswer::default()
        })
    }

    /// A record by hand: field by field, as document 02 lists them.
    fn by_hand(version: RecordVersion, selector_code: u8, last: (u8, u8)) -> Vec<u8> {
        let [one, two] = outlines();
        let mut bytes = b"PBR".to_vec();
        for count in [version.number() as u16, 3, 2] {
            bytes.extend(count.to_le_bytes());
        }
        bytes.push(selector_code);
        bytes.extend(0.5f64.to_le_bytes());
        if version == RecordVersion::Two {
            bytes.extend(0.25f64.to_le_bytes());
            bytes.extend(u32::MAX.to_le_bytes());
            bytes.extend(5u32.to_le_bytes());
        }
        for count in [1u16, 2, 3, 2] {
            bytes.extend(count.to_le_bytes());
        }
        for number in one.numbers().iter().chain(two.numbers()) {
            bytes.extend(number.to_le_bytes());
        }
        for (codes, edition) in [((1, 0), u32::MAX), (last, 5)] {
            bytes.extend([codes.0, codes.1]);
            for count in [1u16, 2] {
                bytes.extend(count.to_le_bytes());
            }
            for number in [0.5f64, 1.0, -0.25, 0.125, 3.0, -7.0] {
                bytes.extend(number.to_le_bytes());
            }
            if version == RecordVersion::Two {
                bytes.extend(edition.to_le_bytes());
            }
        }
        bytes
    }

    #[test]
    fn a_stitch_is_lent_to_the_writer() {
        let [one, two] = outlines();
        let slices = slices();
        for version in RecordVersion::ALL {
            let reply = counted(3).with_bytes(&[7, 8, 9, 10]);
            let (written, calls) = told([reply], || {
                Record::write(version, &one, &two, &slices, Selector::NotXor, AXES)
            });
            assert_eq!(written, Ok(Record::from_bytes([7, 8, 9])));
            let call = &calls[0];
            assert_eq!(call.entry, "record_write");
            assert_eq!(call.lent("version"), Lent::Code(version.number()));
            assert_eq!(call.lent("outline1"), Lent::Numbers(one.numbers().to_vec()));
            assert_eq!(call.lent("vc1"), Lent::Count(3));
            assert_eq!(call.lent("edition1"), Lent::Code(u32::MAX));
            assert_eq!(call.lent("outline2"), Lent::Numbers(two.numbers().to_vec()));
            assert_eq!(call.lent("vc2"), Lent::Count(2));
            assert_eq!(call.lent("edition2"), Lent::Code(5));
            let codes = vec![1, 0, 1, 2, 2, 1, 1, 2];
            assert_eq!(call.lent("slice_at"), Lent::Counts(codes));
            let numbers = [0.5, 1.0, -0.25, 0.125, 3.0, -7.0].repeat(2);
            assert_eq!(call.lent("slice"), Lent::Numbers(numbers));
            let editions = vec![u32::MAX, 5];
            assert_eq!(call.lent("slice_edition"), Lent::Editions(editions));
            assert_eq!(call.lent("slices"), Lent::Count(2));
            assert_eq!(call.lent("pline2"), Lent::Count(1));
            assert_eq!(call.lent("pline1_overlapping"), Lent::Count(2));
            assert_eq!(call.lent("pline2_overlapping"), Lent::Count(3));
            assert_eq!(call.lent("selector"), Lent::Code(1));
            assert_eq!(call.lent("tolerance_x"), Lent::Number(0.5));
            assert_eq!(call.lent("tolerance_y"), Lent::Number(0.25));
            assert_eq!(call.lent("bytes"), Lent::Room(4738));
        }
    }

    #[test]
    fn the_writers_refusals_are_errors() {
        let [one, two] = outlines();
        for refusal in (1..=9).chain([12, 14]) {
            let answer = CountAnswer { refusal, count: 0 };
            let (written, _) = told([Reply::of(answer)], || {
                let version = RecordVersion::Two;
                Record::write(version, &one, &two, &slices(), Selector::OrAnd, AXES)
            });
            assert_eq!(written.map_err(Refusal::number), Err(refusal));
        }
    }

    #[test]
    fn a_replay_is_taken_apart_and_printed() {
        let answer = ReplayAnswer {
            refusal: 0,
            version: 2,
            slices: 5,
            rounds: 5,
            loops: 2,
            chains: 5,
        };
        let writes = vec![
            vec![3, 8],
            vec![0, 3, 1, 2, 4],
            vec![1, 2, 3, 4, 5],
            vec![0, 1, 2, 3, 0],
        ];
        let room = (0..24).map(f64::from).collect();
        let reply = Reply::writing(answer, writes, vec![room]);
        let record = Record::from_bytes(vec![1, 2, 3]);
        let (replay, calls) = told([reply], || record.replay());
        let replay = replay.unwrap();
        assert_eq!((replay.version, replay.slices), (RecordVersion::Two, 5));
        assert_eq!(replay.stitched.rounds(), 5);
        let loops: Vec<usize> = replay.stitched.loops().map(|lp| lp.len()).collect();
        assert_eq!(loops, [3, 5]);
        assert_eq!(
            replay.to_string(),
            "slices 5 rounds 5 loops 2\n0 closed 3\n3 small 0\n1 empty 0\n2 unselected 0\n4 closed 5\n"
        );
        let call = &calls[0];
        assert_eq!(call.entry, "record_replay");
        assert_eq!(call.lent("bytes"), Lent::Answers(vec![1, 2, 3]));
        assert_eq!(call.lent("room"), Lent::Room(3 * 1821));
        for list in ["ends", "chain", "chain_ends", "chain_how"] {
            assert_eq!(call.lent(list), Lent::Room(28));
        }
    }

    #[test]
    fn no_slices_leave_no_chains() {
        let answer = ReplayAnswer {
            version: 1,
            ..ReplayAnswer::default()
        };
        let (replay, _) = told([Reply::of(answer)], || Record::default().replay());
        let replay = replay.unwrap();
        assert_eq!(replay.to_string(), "slices 0 rounds 0 loops 0\n");
        assert_eq!(replay.stitched, Stitched::default());
    }

    #[test]
    fn the_replays_refusals_are_errors() {
        for refusal in (1..=9).chain(11..=14) {
            let (replay, _) = told([refused(refusal)], || Record::default().replay());
            assert_eq!(replay.map_err(Refusal::number), Err(refusal));
        }
    }

    #[test]
    fn contents_are_the_fields() {
        for version in RecordVersion::ALL {
            let record = Record::from_bytes(by_hand(version, 1, (2, 1)));
            let (contents, _) = told([refused(14)], || record.contents());
            let contents = contents.unwrap();
            let two = version == RecordVersion::Two;
            let [mut pline1, mut pline2] = outlines();
            let mut slices = slices();
            if !two {
                pline1 = pline1.with_edition(0);
                pline2 = pline2.with_edition(0);
                let no_edition = |slice: Slice| Slice {
                    view: View {
                        edition: 0,
                        ..slice.view
                    },
                    ..slice
                };
                slices.list = slices.iter().map(no_edition).collect();
            }
            assert_eq!(contents.version, version);
            assert_eq!((&contents.pline1, &contents.pline2), (&pline1, &pline2));
            let tolerance = if two { AXES } else { Tolerance::new(0.5) };
            assert_eq!(contents.tolerance, tolerance);
            assert_eq!(contents.selector(), Some(Selector::NotXor));
            assert_eq!(contents.as_slices(), Some(slices));
        }
    }

    #[test]
    fn unknown_codes_stand_as_they_are() {
        let version = RecordVersion::Two;
        let hand = |selector, codes| Record::from_bytes(by_hand(version, selector, codes));
        for (record, selector, last) in [
            (hand(2, (2, 1)), 2, (2, 1)),
            (hand(255, (0, 0)), 255, (0, 0)),
            (hand(0, (3, 1)), 0, (3, 1)),
            (hand(0, (1, 2)), 0, (1, 2)),
        ] {
            let (contents, _) = told([refused(3)], || record.contents());
            let contents = contents.unwrap();
            assert_eq!(contents.selector_code, selector);
            assert_eq!(contents.selector().is_some(), selector < 2);
            let slice = contents.slices[1];
            assert_eq!((slice.source_code, slice.inverted_code), last);
            let known = matches!(last, (1 | 2, 0 | 1));
            assert_eq!(slice.slice().is_some(), known);
            assert_eq!(contents.as_slices().is_some(), known);

            // They are handed to the writer as they are.
            let refusal = CountAnswer {
                refusal: 3,
                count: 0,
            };
            let (again, calls) = told([Reply::of(refusal)], || contents.write(version));
            assert_eq!(again, Err(Refusal::Code));
            let codes = vec![1, 0, 1, 2, last.0.into(), last.1.into(), 1, 2];
            assert_eq!(calls[0].lent("slice_at"), Lent::Counts(codes));
            assert_eq!(calls[0].lent("selector"), Lent::Code(selector.into()));
        }
    }

    #[test]
    fn what_is_no_record_has_no_contents() {
        for number in [11, 12, 13] {
            let record = Record::from_bytes(by_hand(RecordVersion::One, 0, (2, 0)));
            let (contents, _) = told([refused(number)], || record.contents());
            assert_eq!(contents.map_err(Refusal::number), Err(number));
        }
    }

    #[test]
    #[should_panic(expected = "not the one of this wrapper")]
    fn a_record_that_is_not_whole_is_another_archive() {
        let mut bytes = by_hand(RecordVersion::Two, 0, (2, 0));
        bytes.pop();
        let _ = told([refused(14)], || Record::from_bytes(bytes).contents());
    }

    #[test]
    #[should_panic(expected = "not the one of this wrapper")]
    fn an_unknown_version_is_another_archive() {
        RecordVersion::of_number(3);
    }

    #[test]
    fn the_length_is_the_need() {
        let needed = lent::record_bytes_needed;
        assert_eq!(needed(RecordVersion::One, [4, 4], 2), 326);
        assert_eq!(needed(RecordVersion::Two, [4, 4], 2), 350);
        assert_eq!(needed(RecordVersion::One, [64, 64], 28), 4610);
        assert_eq!(needed(RecordVersion::Two, [64, 64], 28), Record::MOST_BYTES);
        let most = needed(RecordVersion::Two, [usize::MAX, 1], usize::MAX);
        assert_eq!(most, usize::MAX);
        for version in RecordVersion::ALL {
            let bytes = by_hand(version, 0, (2, 0));
            assert_eq!(needed(version, [3, 2], 2), bytes.len());
        }
    }
}
