//! What is drawn: a record, its answer, and the way that each slice runs.

use super::frame::{drawable, Bounds};
use crate::answer::Answer;
use crate::failure::Failure;
use crate::input;
use crate::pbr;
use mask_tools::{ChainEnd, Outline, Point, Record, RecordContents, Vertex};
use std::path::Path;

/// A record that is to be drawn.
pub struct Subject {
    /// Its name.
    pub name: String,
    /// What it holds.
    pub contents: RecordContents,
    /// What the library answers to it.
    pub answer: Answer,
    /// Why it is refused, where it is.
    pub refused: Option<(u32, String)>,
    /// The vertices of each slice on its outline; none where its numbers name none.
    pub ways: Vec<Option<Vec<Vertex>>>,
}

/// A chain as it is drawn.
pub struct Drawn {
    /// Its slices.
    pub slices: Vec<usize>,
    /// How it ended.
    pub end: ChainEnd,
    /// The vertices of its loop, 0 unless it closed.
    pub vertices: usize,
}

impl Subject {
    /// Reads a record and runs it again. Its layout has to be whole.
    pub fn read(path: &Path) -> Result<Subject, Failure> {
        let bytes = input::record(path)?;
        let name = input::name_of(path);
        let contents = Record::from_bytes(&bytes.bytes[..])
            .contents()
            .map_err(|refusal| {
                let number = refusal.number();
                let why = format!("{}; it cannot be drawn", pbr::why(number, &bytes));
                Failure::Refused {
                    name: name.clone(),
                    number,
                    why,
                }
            })?;
        let answer = Answer::of(&bytes);
        let refused = answer
            .refusal()
            .map(|number| (number, pbr::why(number, &bytes)));
        let ways = contents
            .slices
            .iter()
            .map(|slice| way(&contents, slice))
            .collect();
        Ok(Subject {
            name,
            contents,
            answer,
            refused,
            ways,
        })
    }

    /// Outline 1 or 2.
    pub fn outline(&self, source: u8) -> &Outline {
        if source == 1 {
            &self.contents.pline1
        } else {
            &self.contents.pline2
        }
    }

    /// The vertices of an outline that can be drawn.
    pub fn vertices(&self, source: u8) -> Vec<Vertex> {
        self.outline(source)
            .vertices()
            .iter()
            .copied()
            .filter(drawable)
            .collect()
    }

    /// Whether a slice was cut from another edition of its outline.
    pub fn is_stale(&self, slice: usize) -> bool {
        let slice = &self.contents.slices[slice];
        slice.view.edition != self.outline(slice.source_code).edition()
    }

    /// Whether a slice is one that runs on both outlines.
    pub fn is_overlap(&self, slice: usize) -> bool {
        slice >= self.contents.starts.pline1_overlapping
    }

    /// The chains, where the record is not refused.
    pub fn chains(&self) -> Vec<Drawn> {
        let replay = match self.answer.replay() {
            Some(replay) => replay,
            None => return Vec::new(),
        };
        let mut loops = replay.stitched.loops();
        let drawn = replay.stitched.chains().map(|chain| Drawn {
            slices: chain.slices.to_vec(),
            end: chain.end,
            vertices: if chain.end == ChainEnd::Closed {
                loops.next().map_or(0, <[Vertex]>::len)
            } else {
                0
            },
        });
        drawn.collect()
    }

    /// Where the slices of a chain meet: the end of one, and the start of the next.
    pub fn joined(&self, chain: &Drawn) -> Vec<(Point, Point)> {
        let closes = matches!(chain.end, ChainEnd::Closed | ChainEnd::TooSmall);
        let first = chain.slices.first().filter(|_| closes);
        let next = chain.slices.iter().skip(1).chain(first);
        let ends = |slice: &usize| -> Option<(Point, Point)> {
            let way = self.ways[*slice].as_deref()?;
            Some((way.first()?.pos(), way.last()?.pos()))
        };
        let meet = |(one, other): (&usize, &usize)| Some((ends(one)?.1, ends(other)?.0));
        chain.slices.iter().zip(next).filter_map(meet).collect()
    }

    /// The loops, where the record is not refused.
    pub fn loops(&self) -> Vec<Vec<Vertex>> {
        let replay = self.answer.replay();
        replay
            .iter()
            .flat_map(|r| r.stitched.loops())
            .map(<[Vertex]>::to_vec)
            .collect()
    }

    /// Adds all that is drawn of it to the bounds.
    pub fn enclose(&self, bounds: &mut Bounds) {
        for source in [1, 2] {
            bounds.add(&self.vertices(source), true);
        }
        for way in self.ways.iter().flatten() {
            bounds.add(way, false);
        }
    }
}

/// The vertices of a slice, by the proved entry.
fn way(contents: &RecordContents, slice: &mask_tools::RecordSlice) -> Option<Vec<Vertex>> {
    let outline = match slice.source_code {
        1 => &contents.pline1,
        2 => &contents.pline2,
        _ => return None,
    };
    let vertices: Vec<Vertex> = slice.view.vertices(outline).ok()?.collect();
    vertices.iter().all(drawable).then_some(vertices)
}
