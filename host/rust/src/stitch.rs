//! The stitch: slices into loops; and the area pass.

use crate::ffi;
use crate::lent::{self, StitchCounts, StitchRoom};
use crate::slices::MOST_SLICES;
use crate::{Named, Outline, Refusal, Slice, Slices, Vertex};

/// The most vertices of an outline.
pub(crate) const MOST_VERTICES: usize = 1024;

/// Which slice a chain goes on with, where several start at its end.
#[derive(Debug, Clone, Copy, PartialEq, Eq, Hash)]
pub enum Selector {
    /// For union and intersection.
    OrAnd,
    /// For the differences.
    NotXor,
}

impl Selector {
    pub(crate) const fn code(self) -> u32 {
        match self {
            Selector::OrAnd => 0,
            Selector::NotXor => 1,
        }
    }
}

/// How a chain of slices ended. Only a closed one gives a loop.
#[derive(Debug, Clone, Copy, PartialEq, Eq, Hash)]
pub enum ChainEnd {
    /// It came back to its first slice, and its loop is returned.
    Closed,
    /// It came back to its first slice with fewer than 3 vertices.
    TooSmall,
    /// No slice starts at its end.
    NoCandidate,
    /// Some slices start at its end, but the selector takes none of them.
    NotSelected,
}

impl ChainEnd {
    pub(crate) fn of_code(code: usize) -> ChainEnd {
        match code {
            0 => ChainEnd::Closed,
            1 => ChainEnd::TooSmall,
            2 => ChainEnd::NoCandidate,
            3 => ChainEnd::NotSelected,
            other => panic!("the archive gave ending {other}: it is not the one of this wrapper"),
        }
    }
}

/// A chain of slices.
#[derive(Debug, Clone, Copy, PartialEq, Eq)]
pub struct Chain<'a> {
    /// The numbers of its slices, in the order in which they were joined.
    pub slices: &'a [usize],
    /// How it ended.
    pub end: ChainEnd,
}

/// What a stitch gives.
#[derive(Debug, Clone, PartialEq, Default)]
pub struct Stitched {
    vertices: Vec<f64>,
    ends: Vec<usize>,
    chain: Vec<usize>,
    chain_ends: Vec<usize>,
    chain_how: Vec<usize>,
    rounds: usize,
}

impl Stitched {
    /// How many loops there are.
    pub fn loop_count(&self) -> usize {
        self.ends.len()
    }

    /// Loop number `index`, without the vertex that closes it; none where there is no such loop.
    pub fn get_loop(&self, index: usize) -> Option<&[Vertex]> {
        part(ffi::vertices_of(&self.vertices), &self.ends, index)
    }

    /// The loops, in the order of the chains that gave them.
    pub fn loops(&self) -> impl Iterator<Item = &[Vertex]> + '_ {
        (0..).map_while(move |index| self.get_loop(index))
    }

    /// How many chains there are. Each closed one gave a loop.
    pub fn chain_count(&self) -> usize {
        self.chain_ends.len()
    }

    /// The chains, in order. Every slice is in one of them.
    pub fn chains(&self) -> impl Iterator<Item = Chain<'_>> + '_ {
        self.chain_how.iter().enumerate().map(move |(index, &how)| {
            let slices = part(&self.chain, &self.chain_ends, index).unwrap_or(&[]);
            Chain {
                slices,
                end: ChainEnd::of_code(how),
            }
        })
    }

    /// How many rounds were made: as many as there are slices.
    pub fn rounds(&self) -> usize {
        self.rounds
    }

    /// Room for so many vertices and slices, all 0.
    pub(crate) fn with_room(vertices: usize, slices: usize) -> Stitched {
        Stitched {
            vertices: vec![0.0; 3 * vertices],
            ends: vec![0; slices],
            chain: vec![0; slices],
            chain_ends: vec![0; slices],
            chain_how: vec![0; slices],
            rounds: 0,
        }
    }

    /// The lists, to be written.
    pub(crate) fn room(&mut self) -> StitchRoom<'_> {
        StitchRoom {
            room: &mut self.vertices,
            ends: &mut self.ends,
            chain: &mut self.chain,
            chain_ends: &mut self.chain_ends,
            chain_how: &mut self.chain_how,
        }
    }

    /// Keeps what was written.
    pub(crate) fn keep(mut self, counts: StitchCounts) -> Stitched {
        let last = |ends: &[usize]| ends.last().copied().unwrap_or(0);
        self.ends.truncate(counts.loops);
        self.vertices.truncate(3 * last(&self.ends));
        self.chain_ends.truncate(counts.chains);
        self.chain_how.truncate(counts.chains);
        self.chain.truncate(last(&self.chain_ends));
        self.rounds = counts.rounds;
        self
    }
}

/// Part number `index` of a list whose parts end where `ends` says.
fn part<'a, T>(list: &'a [T], ends: &[usize], index: usize) -> Option<&'a [T]> {
    let end = *ends.get(index)?;
    let start = if index == 0 { 0 } else { ends[index - 1] };
    list.get(start..end)
}

/// The loops that the slices of two outlines make. Each slice must be of its outline's edition.
///
/// The tolerances are those of the setting.
///
/// Refusals: `Length`, `Outline`, `UnknownSetting`, `Tolerance`, `Number`, `Index`, `Count`,
/// `Starts`, `Edition`; and `Code` where the slices were listed by a store whose memory no store wrote
/// ([`Store::from_bytes`](crate::Store::from_bytes)).
pub fn stitch(
    pline1: &Outline,
    pline2: &Outline,
    slices: &Slices,
    selector: Selector,
    setting: Named<'_>,
) -> Result<Stitched, Refusal> {
    let mut lists = Stitched::with_room(room_for_vertices(slices), slices.len().min(MOST_SLICES));
    let counts = lent::stitch(pline1, pline2, slices, selector, setting, lists.room())?;
    Ok(lists.keep(counts))
}

/// The need of a call that is not refused for its slices: their number or their offsets. For a
/// call that is refused, any room is enough.
fn room_for_vertices(slices: &Slices) -> usize {
    if slices.len() > MOST_SLICES || slices.iter().any(out_of_range) {
        return 0;
    }
    lent::vertices_needed(slices)
}

fn out_of_range(slice: Slice) -> bool {
    slice.view.end_index_offset > MOST_VERTICES
}

/// The numbers of the loops whose area is not less than the setting's limit, whatever its sign: loops
/// that run clockwise are measured as others are. The library takes at most 1,792 areas.
///
/// Refusals: `Length`, `UnknownSetting`, `Tolerance`, `Number`.
pub fn area_pass(areas: &[f64], setting: Named<'_>) -> Result<Vec<usize>, Refusal> {
    let mut kept = vec![0; areas.len().min(MOST_SLICES)];
    let count = lent::area_pass(areas, setting, &mut kept)?;
    kept.truncate(count);
    Ok(kept)
}

#[cfg(test)]
mod tests {
    use super::*;
    use crate::ffi::standin::{told, Lent, Reply};
    use crate::ffi::{CountAnswer, StitchAnswer};
    use crate::{Settings, Source, Starts, View};

    fn outline() -> Outline {
        Outline::straight(&[(0.0, 0.0), (1.0, 0.0), (1.0, 1.0)])
    }

    fn slices(offsets: &[usize]) -> Slices {
        let slice = |&end_index_offset| Slice {
            source: Source::Pline2,
            view: View {
                end_index_offset,
                edition: end_index_offset as u32,
                ..View::default()
            },
        };
        Slices {
            list: offsets.iter().map(slice).collect(),
            starts: Starts {
                pline2: 1,
                pline1_overlapping: 2,
                pline2_overlapping: 3,
            },
        }
    }

    fn stitch_empty(slices: &Slices) -> Result<Stitched, Refusal> {
        let settings = Settings::new();
        stitch(
            &outline(),
            &outline(),
            slices,
            Selector::OrAnd,
            settings.named(1),
        )
    }

    fn refused(refusal: u32) -> Reply {
        Reply::of(StitchAnswer {
            refusal,
            ..StitchAnswer::default()
        })
    }

    #[test]
    fn loops_and_chains_are_taken_apart() {
        let answer = StitchAnswer {
            refusal: 0,
            rounds: 5,
            loops: 2,
            chains: 4,
        };
        let room: Vec<f64> = (0..15).map(f64::from).collect();
        let reply = Reply::writing(
            answer,
            vec![
                vec![2, 5],
                vec![0, 3, 1, 4, 2],
                vec![2, 3, 4, 5],
                vec![0, 1, 2, 3],
            ],
            vec![room],
        );
        let slices = slices(&[0, 1, 2, 3, 0]);
        let (first, second) = (outline().with_edition(u32::MAX), outline().with_edition(6));
        let settings = Settings::new();
        let (found, calls) = told([reply], || {
            stitch(
                &first,
                &second,
                &slices,
                Selector::NotXor,
                settings.named(7),
            )
        });
        let found = found.unwrap();
        assert_eq!((found.rounds(), found.loop_count()), (5, 2));
        let v = |k: f64| Vertex::new(k, k + 1.0, k + 2.0);
        let loops: Vec<&[Vertex]> = found.loops().collect();
        assert_eq!(loops, [&[v(0.0), v(3.0)][..], &[v(6.0), v(9.0), v(12.0)]]);
        assert_eq!(found.get_loop(2), None);
        assert_eq!(found.chain_count(), 4);
        let chains: Vec<(&[usize], ChainEnd)> = found.chains().map(|c| (c.slices, c.end)).collect();
        let expected = [
            (&[0, 3][..], ChainEnd::Closed),
            (&[1], ChainEnd::TooSmall),
            (&[4], ChainEnd::NoCandidate),
            (&[2], ChainEnd::NotSelected),
        ];
        assert_eq!(chains, expected);

        let call = &calls[0];
        assert_eq!(call.entry, "stitch");
        assert_eq!(call.lent("vc1"), Lent::Count(3));
        assert_eq!(call.lent("slices"), Lent::Count(5));
        let front = vec![2, 0, 0, 0, 2, 0, 0, 1, 2, 0, 0, 2, 2, 0, 0, 3, 2, 0, 0, 0];
        assert_eq!(call.lent("slice_at"), Lent::Counts(front));
        assert_eq!(call.lent("edition1"), Lent::Code(u32::MAX));
        assert_eq!(call.lent("edition2"), Lent::Code(6));
        let editions = vec![0, 1, 2, 3, 0];
        assert_eq!(call.lent("slice_edition"), Lent::Editions(editions));
        assert_eq!(call.lent("pline2"), Lent::Count(1));
        assert_eq!(call.lent("pline1_overlapping"), Lent::Count(2));
        assert_eq!(call.lent("pline2_overlapping"), Lent::Count(3));
        assert_eq!(call.lent("selector"), Lent::Code(1));
        assert_eq!(call.lent("entered"), Lent::Counts(vec![0]));
        assert_eq!(call.lent("settings"), Lent::Numbers(vec![0.0; 48]));
        assert_eq!(call.lent("setting"), Lent::Count(7));
        assert_eq!(call.lent("room"), Lent::Room(3 * (1 + 1 + 2 + 3 + 4 + 1)));
        for list in ["ends", "chain", "chain_ends", "chain_how"] {
            assert_eq!(call.lent(list), Lent::Room(5));
        }
    }

    #[test]
    fn no_loops_leave_no_vertices() {
        let answer = StitchAnswer {
            rounds: 1,
            chains: 1,
            ..StitchAnswer::default()
        };
        let writes = vec![vec![], vec![0], vec![1], vec![2]];
        let (found, _) = told([Reply::writing(answer, writes, vec![])], || {
            stitch_empty(&slices(&[0]))
        });
        let found = found.unwrap();
        assert_eq!(found.loops().count(), 0);
        let chain = Chain {
            slices: &[0],
            end: ChainEnd::NoCandidate,
        };
        assert!(found.chains().eq([chain]));
    }

    #[test]
    fn slices_that_are_refused_get_no_room() {
        let many = vec![0; MOST_SLICES + 1];
        let cases = [(1, many), (7, vec![0, usize::MAX]), (7, vec![1025])];
        for (number, offsets) in cases {
            let slices = slices(&offsets);
            let (found, calls) = told([refused(number)], || stitch_empty(&slices));
            assert_eq!(found, Err(Refusal::from_number(number).unwrap()));
            assert_eq!(calls[0].lent("room"), Lent::Room(0));
        }
        let most = slices(&[1024; MOST_SLICES]);
        assert_eq!(room_for_vertices(&most), 1 + 1025 * 1792);
        assert_eq!(lent::vertices_needed(&slices(&[usize::MAX, 5])), usize::MAX);
    }

    #[test]
    fn every_refusal_comes_through() {
        for number in 1..=17 {
            let (found, _) = told([refused(number)], || stitch_empty(&slices(&[])));
            assert_eq!(found.map_err(Refusal::number), Err(number));
        }
    }

    #[test]
    #[should_panic(expected = "not the one of this wrapper")]
    fn an_unknown_ending_is_another_archive() {
        ChainEnd::of_code(4);
    }

    #[test]
    fn the_area_pass_keeps_what_was_counted() {
        let answer = CountAnswer {
            refusal: 0,
            count: 2,
        };
        let reply = Reply::writing(answer, vec![vec![0, 2]], vec![]);
        let settings = Settings::new();
        let (kept, calls) = told([reply], || area_pass(&[3.0, 1.0, 4.0], settings.named(2)));
        assert_eq!(kept, Ok(vec![0, 2]));
        let call = &calls[0];
        assert_eq!(call.lent("areas"), Lent::Numbers(vec![3.0, 1.0, 4.0]));
        assert_eq!(call.lent("loops"), Lent::Count(3));
        assert_eq!(call.lent("entered"), Lent::Counts(vec![0]));
        assert_eq!(call.lent("settings"), Lent::Numbers(vec![0.0; 48]));
        assert_eq!(call.lent("setting"), Lent::Count(2));
        assert_eq!(call.lent("kept"), Lent::Room(3));
    }
}
