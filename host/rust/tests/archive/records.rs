//! Records of stitches, through the archive: written, run again, and taken apart.

use crate::shapes::{a, b, hits, masks, named, Draw, T};
use mask_tools::{
    lent, stitch, Mode, Named, Outline, Overlaps, Point, Record, RecordContents, RecordVersion,
    Refusal, Selector, Slice, Slices, Source, Starts, StraightHost, Tolerance, Vertex, View,
};
use std::fs;
use std::path::Path;

/// What a stitch is made of.
#[derive(Clone)]
struct Held {
    pline1: Outline,
    pline2: Outline,
    slices: Slices,
    selector: Selector,
    tolerance: Tolerance,
}

const FINER: Tolerance = Tolerance {
    x: T.x,
    y: T.y / 4.0,
};

impl Held {
    /// What two squares are made into.
    fn squares(mode: Mode) -> Held {
        let (a, b) = (a().with_edition(7), b().with_edition(u32::MAX));
        let (hits, laps) = (hits(), Overlaps::new());
        let found = masks(&a, &b, &hits, &laps).combine(mode, &mut StraightHost);
        Held {
            slices: found.unwrap().slices,
            pline1: a,
            pline2: b,
            selector: mode.selector(),
            tolerance: T,
        }
    }

    fn write(&self, version: RecordVersion) -> Result<Record, Refusal> {
        let (one, two) = (&self.pline1, &self.pline2);
        Record::write(
            version,
            one,
            two,
            &self.slices,
            self.selector,
            self.tolerance,
        )
    }

    fn setting(&self) -> Named<'static> {
        named(self.tolerance, 0.0)
    }

    /// The same as a record of version 1 reads: with edition 0 throughout.
    fn without_editions(&self) -> Held {
        let of_no_edition = |slice: Slice| Slice {
            view: View {
                edition: 0,
                ..slice.view
            },
            ..slice
        };
        Held {
            pline1: self.pline1.clone().with_edition(0),
            pline2: self.pline2.clone().with_edition(0),
            slices: Slices {
                list: self.slices.iter().map(of_no_edition).collect(),
                ..self.slices
            },
            ..*self
        }
    }

    /// Slices on a small grid, so that chains meet, end and close in every way.
    fn drawn(draw: &mut Draw) -> Held {
        let editions = [0, 1, 1 << 31, u32::MAX];
        let tolerances = [1.0 / 1024.0, 0.5, 1.0];
        let count = [0, 1, 2, 3, 5, 8, 13, 28][draw.below(8)];
        let outlines = [0, 1].map(|_| {
            let vertices = (0..2 + draw.below(5)).map(|_| vertex(draw));
            let outline: Outline = vertices.collect();
            outline.with_edition(editions[draw.below(4)])
        });
        let list = (0..count).map(|_| slice(draw, &outlines)).collect();
        let mut starts = [0; 3].map(|_| draw.below(count + 1));
        starts.sort_unstable();
        let [pline1, pline2] = outlines;
        Held {
            pline1,
            pline2,
            slices: Slices {
                list,
                starts: Starts {
                    pline2: starts[0],
                    pline1_overlapping: starts[1],
                    pline2_overlapping: starts[2],
                },
            },
            selector: [Selector::OrAnd, Selector::NotXor][draw.below(2)],
            tolerance: Tolerance {
                x: tolerances[draw.below(3)],
                y: tolerances[draw.below(3)],
            },
        }
    }
}

fn vertex(draw: &mut Draw) -> Vertex {
    let bulges = [0.0, -0.0, 0.5, -1.0];
    let (x, y) = (draw.below(3) as f64, draw.below(3) as f64);
    Vertex::new(x, y, bulges[draw.below(4)])
}

fn slice(draw: &mut Draw, outlines: &[Outline; 2]) -> Slice {
    let source = [Source::Pline1, Source::Pline2][draw.below(2)];
    let outline = &outlines[usize::from(source == Source::Pline2)];
    let vc = outline.vertex_count();
    let end = vertex(draw);
    Slice {
        source,
        view: View {
            start_index: draw.below(vc),
            end_index_offset: draw.below(2) * draw.below(vc + 1),
            updated_start: vertex(draw),
            updated_end_bulge: end.bulge,
            end_point: Point::new(end.x, end.y),
            inverted_direction: draw.below(2) == 1,
            edition: outline.edition(),
        },
    }
}

/// What a record holds is what was handed in.
fn assert_held(contents: &RecordContents, held: &Held) {
    assert_eq!(contents.pline1, held.pline1);
    assert_eq!(contents.pline2, held.pline2);
    assert_eq!(contents.selector(), Some(held.selector));
    assert_eq!(contents.tolerance, held.tolerance);
    assert_eq!(contents.as_slices().as_ref(), Some(&held.slices));
}

#[test]
fn the_squares_in_both_versions() {
    for (version, union_length) in [(RecordVersion::One, 326), (RecordVersion::Two, 350)] {
        for mode in Mode::ALL {
            let held = Held::squares(mode);
            let record = held.write(version).unwrap();
            assert_eq!(record.bytes().len(), union_length);
            assert_eq!(
                &record.bytes()[..5],
                [b'P', b'B', b'R', version.number() as u8, 0]
            );
            let replay = record.replay().unwrap();
            assert_eq!((replay.version, replay.slices), (version, 2));
            let closed = replay.stitched.get_loop(0).map_or(0, |lp| lp.len());
            let lines = format!("slices 2 rounds 2 loops 1\n0 1 closed {closed}\n");
            assert_eq!(replay.to_string(), lines);
        }
    }
}

/// Writing, then a replay: the stitch itself. Taken apart: what was written. Written again: the same
/// bytes. Version 1 written again as version 2: the same stitch.
#[test]
fn drawn_stitches_there_and_back() {
    let mut draw = Draw(14);
    let mut loops = 0;
    for _ in 0..3_000 {
        let held = Held::drawn(&mut draw);
        let (one, two) = (&held.pline1, &held.pline2);
        let expected = stitch(one, two, &held.slices, held.selector, held.setting()).unwrap();
        loops += expected.loop_count();
        let record = held.write(RecordVersion::Two).unwrap();
        let replay = record.replay().unwrap();
        assert_eq!(replay.version, RecordVersion::Two);
        assert_eq!(replay.slices, held.slices.len());
        assert_eq!(replay.stitched, expected);
        let contents = record.contents().unwrap();
        assert_held(&contents, &held);
        assert_eq!(contents.write(RecordVersion::Two), Ok(record));

        let same = held.tolerance.x == held.tolerance.y;
        let old = held.write(RecordVersion::One);
        assert_eq!(old.is_ok(), same);
        if !same {
            assert_eq!(old, Err(Refusal::Tolerance));
            continue;
        }
        let old = old.unwrap();
        let contents = old.contents().unwrap();
        assert_held(&contents, &held.without_editions());
        assert_eq!(contents.write(RecordVersion::One).as_ref(), Ok(&old));
        let again = contents.write(RecordVersion::Two).unwrap();
        assert_eq!(old.replay().unwrap().stitched, expected);
        assert_eq!(again.replay().unwrap().stitched, expected);
    }
    assert!(loops > 500, "{loops}");
}

/// The lines of `examples/expected`, by the record's name.
fn expected() -> Vec<(String, String)> {
    let folder = Path::new(env!("CARGO_MANIFEST_DIR")).join("../../examples");
    let stored = fs::read_to_string(folder.join("expected")).unwrap();
    let parts = stored.split("== ").skip(1);
    let part = |part: &str| {
        let (name, lines) = part.split_once('\n').unwrap();
        (folder.join(name).display().to_string(), lines.to_string())
    };
    parts.map(part).collect()
}

/// The lines of the program `replay`.
fn lines(record: &Record) -> String {
    match record.replay() {
        Ok(replay) => replay.to_string(),
        Err(refusal) => format!("refused {}\n", refusal.number()),
    }
}

#[test]
fn the_examples_give_their_lines() {
    let expected = expected();
    assert!(expected.len() > 30);
    for (path, stored) in expected {
        let record = Record::from_bytes(fs::read(&path).unwrap());
        assert_eq!(lines(&record), stored, "{path}");
        // Taken apart and written again: the same bytes, or the same refusal.
        match record.contents() {
            Ok(contents) => {
                let again = contents.write(contents.version);
                assert_eq!(again.is_ok(), !stored.starts_with("refused"), "{path}");
                assert_eq!(again, record.replay().map(|_| record), "{path}");
            }
            Err(refusal) => assert!((11..=13).contains(&refusal.number()), "{path}"),
        }
    }
}

/// Each byte of the union as several others: what is taken apart gives the same bytes or the same
/// refusal when it is written again.
#[test]
fn damaged_records_are_taken_apart_as_the_archive_reads_them() {
    for version in RecordVersion::ALL {
        let good = Held {
            tolerance: if version == RecordVersion::Two {
                FINER
            } else {
                T
            },
            ..Held::squares(Mode::Union)
        };
        let good = good.write(version).unwrap().into_bytes();
        for at in 0..good.len() {
            for value in [0, 1, 2, 3, 127, 128, 255, good[at] ^ 1, good[at] ^ 128] {
                let mut bytes = good.clone();
                bytes[at] = value;
                let record = Record::from_bytes(bytes);
                let replayed = record.replay().map(|_| ());
                match record.contents() {
                    Ok(contents) => {
                        let again = contents.write(version);
                        assert_eq!(again.as_ref().map(|_| ()), replayed.as_ref().map(|_| ()));
                        assert!(again.map_or(true, |again| again == record), "{at} {value}");
                    }
                    Err(refusal) => assert_eq!(replayed, Err(refusal)),
                }
            }
        }
    }
}

#[test]
fn any_bytes_end_in_an_answer() {
    let mut draw = Draw(1);
    for length in 0..600 {
        let mut bytes: Vec<u8> = (0..length).map(|_| draw.word() as u8).collect();
        assert_eq!(
            Record::from_bytes(&bytes[..]).replay().err(),
            Some(Refusal::Mark)
        );
        if length >= 5 {
            bytes[..5].copy_from_slice(b"PBR\x03\0");
            let record = Record::from_bytes(&bytes[..]);
            assert_eq!(record.replay().err(), Some(Refusal::Version));
            assert_eq!(record.contents().err(), Some(Refusal::Version));
            bytes[3] = 1 + (length % 2) as u8;
            let record = Record::from_bytes(bytes);
            assert_eq!(record.contents().err(), Some(Refusal::Size));
        }
    }
}

/// A record of another edition is refused, and can still be taken apart.
#[test]
fn a_late_slice_is_refused_and_can_be_shown() {
    let held = Held::squares(Mode::Union);
    let mut bytes = held.write(RecordVersion::Two).unwrap().into_bytes();
    let last = bytes.len() - 4;
    bytes[last..].copy_from_slice(&5u32.to_le_bytes());
    let record = Record::from_bytes(bytes);
    assert_eq!(record.replay(), Err(Refusal::Edition));
    let contents = record.contents().unwrap();
    assert_eq!(contents.slices[1].view.edition, 5);
    assert_eq!(contents.pline2.edition(), u32::MAX);
    for version in RecordVersion::ALL {
        assert_eq!(contents.write(version), Err(Refusal::Edition));
    }
}

#[test]
fn a_writer_lends_room_of_its_own() {
    let held = Held::squares(Mode::Union);
    for version in RecordVersion::ALL {
        let record = held.write(version).unwrap();
        let need = lent::record_bytes_needed(version, [4, 4], 2);
        assert_eq!(record.bytes().len(), need);
        for (room, expected) in [
            (need, Ok(need)),
            (need + 9, Ok(need)),
            (need - 1, Err(Refusal::Room)),
            (0, Err(Refusal::Room)),
        ] {
            let mut bytes = vec![0xa5; room];
            let (one, two) = (&held.pline1, &held.pline2);
            let (slices, t) = (&held.slices, held.tolerance);
            let found = lent::record_write(version, one, two, slices, held.selector, t, &mut bytes);
            assert_eq!(found, expected);
            let written = found.unwrap_or(0);
            assert_eq!(bytes[..written], record.bytes()[..written]);
            assert!(bytes[written..].iter().all(|&byte| byte == 0xa5));
        }
        for (vertices, entries, expected) in [
            (9, 2, None),
            (8, 2, Some(Refusal::Room)),
            (9, 1, Some(Refusal::Room)),
        ] {
            let mut room = vec![7.0; 3 * vertices];
            let [mut ends, mut chain, mut chain_ends, mut chain_how] = [0; 4].map(|_| [7; 2]);
            let lists = lent::StitchRoom {
                room: &mut room,
                ends: &mut ends,
                chain: &mut chain[..entries],
                chain_ends: &mut chain_ends,
                chain_how: &mut chain_how,
            };
            let found = lent::record_replay(record.bytes(), lists);
            assert_eq!(found.err(), expected);
            assert_eq!(ends, if expected.is_none() { [8, 0] } else { [7, 7] });
            assert_eq!(room.iter().all(|&x| x == 7.0), expected.is_some());
        }
    }
}
