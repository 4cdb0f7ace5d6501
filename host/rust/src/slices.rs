//! Slices: which candidates and overlaps stay.

use crate::lent::{self, Pruned, SliceRoom};
use crate::list::{Flat, Layout, List};
use crate::{Candidates, Overlaps, Refusal, Selector, Source, Starts, View};

/// The most slices: 768 candidates of each outline, and 128 overlaps for each.
pub(crate) const MOST_SLICES: usize = 2 * 768 + 2 * 128;

/// What the two outlines are made into.
#[derive(Debug, Clone, Copy, PartialEq, Eq, Hash)]
pub enum Mode {
    /// What lies in one of them or in both.
    Union,
    /// What lies in both.
    Intersection,
    /// What lies in the first and not in the second.
    FirstMinusSecond,
    /// What lies in the second and not in the first.
    SecondMinusFirst,
}

impl Mode {
    /// All four.
    pub const ALL: [Mode; 4] = [
        Mode::Union,
        Mode::Intersection,
        Mode::FirstMinusSecond,
        Mode::SecondMinusFirst,
    ];

    /// The selector that goes with it.
    pub const fn selector(self) -> Selector {
        match self {
            Mode::Union | Mode::Intersection => Selector::OrAnd,
            Mode::FirstMinusSecond | Mode::SecondMinusFirst => Selector::NotXor,
        }
    }

    pub(crate) const fn code(self) -> u32 {
        match self {
            Mode::Union => 0,
            Mode::Intersection => 1,
            Mode::FirstMinusSecond => 2,
            Mode::SecondMinusFirst => 3,
        }
    }
}

/// A part of an outline that the stitch joins to others, end to start.
#[derive(Debug, Clone, Copy, PartialEq)]
pub struct Slice {
    /// The outline that it is a part of.
    pub source: Source,
    /// The part, forward or inverted. Its edition is that of the outline that it was cut from.
    pub view: View,
}

/// The slices of a stitch, at most 1,792, in their four classes.
#[derive(Debug, Clone, PartialEq, Default)]
pub struct Slices {
    /// The slices.
    pub list: List<Slice>,
    /// Where the classes begin.
    pub starts: Starts,
}

impl Slices {
    /// How many there are.
    pub fn len(&self) -> usize {
        self.list.len()
    }

    /// Whether there are none.
    pub fn is_empty(&self) -> bool {
        self.list.is_empty()
    }

    /// The slices, in order.
    pub fn iter(&self) -> crate::list::Iter<'_, Slice> {
        self.list.iter()
    }

    /// The slices that a call writes into room for so many. Beyond the most the call is refused,
    /// whatever the room.
    pub(crate) fn written(
        need: usize,
        call: impl FnOnce(SliceRoom<'_>) -> Result<Pruned, Refusal>,
    ) -> Result<Slices, Refusal> {
        let mut list = List::with_room(need.min(MOST_SLICES));
        let room = list.room();
        let pruned = call(SliceRoom {
            slice_at: &mut room.indexes,
            slice: &mut room.numbers,
            slice_edition: &mut room.editions,
        })?;
        list.truncate(pruned.slices);
        Ok(Slices {
            list,
            starts: pruned.starts,
        })
    }
}

/// The candidates of one outline, and for each whether it lies inside the other outline.
#[derive(Debug, Clone, PartialEq, Default)]
pub struct Answered {
    /// The candidates.
    pub candidates: Candidates,
    /// The host's answer to each.
    pub inside: Vec<bool>,
}

/// The slices that `mode` keeps. `opposing` says whether the two outlines run in opposing
/// directions. `vertex_counts` and `answered` are of outline 1 and of outline 2. A slice has the
/// edition of its candidate or overlap, whatever that is: [`stitch`](crate::stitch) compares it.
///
/// Refusals: `Length`, `Outline`, `Number`, `Index`, `Count`.
pub fn prune(
    mode: Mode,
    opposing: bool,
    vertex_counts: [usize; 2],
    answered: [&Answered; 2],
    overlaps: &Overlaps,
) -> Result<Slices, Refusal> {
    let inside = answered.map(|one| codes_of(&one.inside));
    let candidates = answered.map(|one| &one.candidates);
    let answered = [
        (candidates[0], &inside[0][..]),
        (candidates[1], &inside[1][..]),
    ];
    Slices::written(lent::slices_needed(candidates, overlaps), |room| {
        lent::prune(mode, opposing, vertex_counts, answered, overlaps, room)
    })
}

/// Yes and no as the library takes them.
fn codes_of(answers: &[bool]) -> Vec<u8> {
    answers.iter().copied().map(u8::from).collect()
}

impl Layout for Slice {
    const INDEXES: usize = 4;
    const NUMBERS: usize = 6;
    const EDITIONS: usize = 1;

    fn write(&self, to: &mut Flat) {
        to.indexes.extend([
            self.source.code() as usize,
            usize::from(self.view.inverted_direction),
            self.view.start_index,
            self.view.end_index_offset,
        ]);
        to.numbers.extend(self.view.numbers());
        to.editions.push(self.view.edition);
    }

    fn read(indexes: &[usize], numbers: &[f64], editions: &[u32]) -> Self {
        let forward = View::of_numbers(indexes[2], indexes[3], numbers, editions[0]);
        Slice {
            source: if indexes[0] == 1 {
                Source::Pline1
            } else {
                Source::Pline2
            },
            view: View {
                inverted_direction: indexes[1] != 0,
                ..forward
            },
        }
    }
}

#[cfg(test)]
mod tests {
    use super::*;
    use crate::ffi::standin::{told, Lent, Reply};
    use crate::ffi::PruneAnswer;
    use crate::{Candidate, Overlap};

    fn answered(start_index: usize, inside: &[bool]) -> Answered {
        let edition = 10 * start_index as u32;
        let view = View::of_numbers(start_index, 9, &[1.0, 2.0, 3.0, 4.0, 5.0, 6.0], edition);
        let candidate = Candidate {
            view,
            ..Candidate::default()
        };
        Answered {
            candidates: inside.iter().map(|_| candidate).collect(),
            inside: inside.to_vec(),
        }
    }

    #[test]
    fn a_slice_comes_back() {
        for source in [Source::Pline1, Source::Pline2] {
            for inverted_direction in [false, true] {
                let forward = View::of_numbers(7, 8, &[1.0, 2.0, 3.0, 4.0, 5.0, 6.0], 3);
                let view = View {
                    inverted_direction,
                    ..forward
                };
                let slice = Slice { source, view };
                let list = List::from([slice, slice]);
                assert_eq!(list.get(1), Some(slice));
                let code = usize::from(inverted_direction);
                assert_eq!(list.indexes()[..4], [source.code() as usize, code, 7, 8]);
                assert_eq!(list.editions(), [3, 3]);
            }
        }
    }

    #[test]
    fn prune_lends_both_sides_and_the_need() {
        let starts = Starts {
            pline2: 1,
            pline1_overlapping: 1,
            pline2_overlapping: 2,
        };
        let answer = PruneAnswer {
            refusal: 0,
            slices: 2,
            starts,
        };
        let reply = Reply::writing(
            answer,
            vec![vec![1, 1, 5, 9, 2, 0, 6, 9]],
            vec![vec![1.0; 12]],
        )
        .with_editions(&[50, u32::MAX]);
        let sides = [answered(5, &[true, false]), answered(6, &[false])];
        let view_data = View {
            edition: u32::MAX,
            ..View::default()
        };
        let laps = Overlaps::from([Overlap {
            view_data,
            ..Overlap::default()
        }]);
        let (slices, calls) = told([reply], || {
            let sides = [&sides[0], &sides[1]];
            prune(Mode::SecondMinusFirst, true, [10, 20], sides, &laps)
        });
        let slices = slices.unwrap();
        assert_eq!((slices.len(), slices.starts), (2, starts));
        let last = slices.list.get(1).unwrap();
        assert_eq!((last.source, last.view.start_index), (Source::Pline2, 6));
        assert!(slices.iter().next().unwrap().view.inverted_direction);
        let editions: Vec<u32> = slices.iter().map(|slice| slice.view.edition).collect();
        assert_eq!(editions, [50, u32::MAX]);

        let call = &calls[0];
        assert_eq!(call.entry, "prune");
        assert_eq!(call.lent("mode"), Lent::Code(3));
        assert_eq!(call.lent("opposing"), Lent::Code(1));
        assert_eq!(call.lent("vc1"), Lent::Count(10));
        assert_eq!(call.lent("vc2"), Lent::Count(20));
        assert_eq!(call.lent("cand_at1"), Lent::Counts(vec![5, 9, 5, 9]));
        assert_eq!(call.lent("inside1"), Lent::Answers(vec![1, 0]));
        assert_eq!(call.lent("count1"), Lent::Count(2));
        assert_eq!(call.lent("cand_at2"), Lent::Counts(vec![6, 9]));
        let numbers = vec![1.0, 2.0, 3.0, 4.0, 5.0, 6.0];
        assert_eq!(call.lent("cand2"), Lent::Numbers(numbers));
        assert_eq!(call.lent("inside2"), Lent::Answers(vec![0]));
        assert_eq!(call.lent("count2"), Lent::Count(1));
        assert_eq!(call.lent("laps"), Lent::Count(1));
        assert_eq!(call.lent("cand_edition1"), Lent::Editions(vec![50, 50]));
        assert_eq!(call.lent("cand_edition2"), Lent::Editions(vec![60]));
        assert_eq!(call.lent("lap_edition"), Lent::Editions(vec![u32::MAX]));
        assert_eq!(call.lent("slice_edition"), Lent::Room(5));
        assert_eq!(call.lent("slice_at"), Lent::Room(5 * 4));
        assert_eq!(call.lent("slice"), Lent::Room(5 * 6));
    }

    #[test]
    fn a_refusal_comes_through() {
        let refused = PruneAnswer {
            refusal: 7,
            ..PruneAnswer::default()
        };
        let none = Answered::default();
        let (found, _) = told([Reply::of(refused)], || {
            prune(Mode::Union, false, [4, 4], [&none, &none], &Overlaps::new())
        });
        assert_eq!(found, Err(Refusal::Count));
    }

    #[test]
    fn each_mode_has_its_selector() {
        let selectors = Mode::ALL.map(Mode::selector);
        let expected = [
            Selector::OrAnd,
            Selector::OrAnd,
            Selector::NotXor,
            Selector::NotXor,
        ];
        assert_eq!(selectors, expected);
    }
}
