//! Where two outlines meet, the cuts that this gives, and the candidates between the cuts.

use crate::lent::{self, CandidateRoom};
use crate::list::{Flat, Layout, List};
use crate::{Outline, Point, Refusal, Source, Split, Tolerance, Vertex, View};

/// The most cuts of an outline: 512 intersections and the two ends of 128 overlaps.
pub(crate) const MOST_CUTS: usize = 512 + 2 * 128;

/// A point where the two outlines cross or touch. On each outline it is on the segment of its
/// start index, and not at that segment's end.
#[derive(Debug, Clone, Copy, PartialEq, Default)]
pub struct Intersection {
    /// The segment of outline 1.
    pub start_index1: usize,
    /// The segment of outline 2.
    pub start_index2: usize,
    /// Where it is.
    pub point: Point,
}

/// Basic intersections, at most 512.
pub type Intersections = List<Intersection>;

/// A joined overlap: a stretch along which the two outlines run on each other.
#[derive(Debug, Clone, Copy, PartialEq, Default)]
pub struct Overlap {
    /// The segments of outline 1 and of outline 2 on which it starts.
    pub start_indexes: (usize, usize),
    /// The segments of outline 1 and of outline 2 on which it ends.
    pub end_indexes: (usize, usize),
    /// Its view, of outline 2: its edition is that of outline 2 when the overlap was found. It runs as
    /// outline 2 does: `inverted_direction` is not looked at.
    pub view_data: View,
    /// Whether the two outlines run against each other along it.
    pub opposing_directions: bool,
}

/// Joined overlaps, at most 128.
pub type Overlaps = List<Overlap>;

/// A cut of an outline.
#[derive(Debug, Clone, Copy, PartialEq, Default)]
pub struct Cut {
    /// The segment that it is on.
    pub segment: usize,
    /// Whether an overlap begins here: then no candidate starts at it.
    pub overlap_mark: bool,
    /// Its number of arrival: the intersections, then the start and the end of each overlap.
    pub arrival: usize,
    /// Where it is.
    pub point: Point,
}

/// The cuts of one outline, in order.
pub type Cuts = List<Cut>;

/// What the host says of one cut.
#[derive(Debug, Clone, Copy, PartialEq, Default)]
pub struct CutSplit {
    /// The split of the running vertex at the cut: the segment's start at the segment's first
    /// cut, and from there on the split vertex of the cut before.
    pub split: Split,
    /// The split vertex of the whole segment at the cut. It counts at a segment's last cut only.
    pub split_vertex_of_segment: Vertex,
}

/// What the host says of each cut, in the order of the cuts.
pub type Splits = List<CutSplit>;

/// The two vertices whose midpoint the host tests: the middle of the line or arc between them.
#[derive(Debug, Clone, Copy, PartialEq, Default)]
pub struct Probe {
    /// From here, with its bulge,
    pub start: Vertex,
    /// to here.
    pub end: Vertex,
}

impl Probe {
    /// The middle of the straight line between the two. It is the point to be tested where the
    /// bulge of `start` is 0.
    pub fn chord_midpoint(self) -> Point {
        Point::new(
            (self.start.x + self.end.x) / 2.0,
            (self.start.y + self.end.y) / 2.0,
        )
    }
}

/// A part of an outline between two cuts.
#[derive(Debug, Clone, Copy, PartialEq, Default)]
pub struct Candidate {
    /// The part, forward: `inverted_direction` is not looked at. Its edition is the outline's.
    pub view: View,
    /// What the host tests to learn whether the part lies inside the other outline.
    pub probe: Probe,
}

/// The candidates of one outline, at most 768.
#[derive(Debug, Clone, PartialEq, Default)]
pub struct Candidates {
    views: List<ForwardView>,
    probes: List<Probe>,
}

impl Candidates {
    /// How many there are.
    pub fn len(&self) -> usize {
        self.views.len()
    }

    /// Whether there are none.
    pub fn is_empty(&self) -> bool {
        self.views.is_empty()
    }

    /// Candidate number `index`; none where there is no such candidate.
    pub fn get(&self, index: usize) -> Option<Candidate> {
        let view = self.views.get(index)?.0;
        let probe = self.probes.get(index)?;
        Some(Candidate { view, probe })
    }

    /// The candidates, in order.
    pub fn iter(&self) -> impl ExactSizeIterator<Item = Candidate> + '_ {
        self.views
            .iter()
            .zip(&self.probes)
            .map(|(view, probe)| Candidate {
                view: view.0,
                probe,
            })
    }

    /// What the host tests of each candidate, in order.
    pub fn probes(&self) -> impl ExactSizeIterator<Item = Probe> + '_ {
        self.probes.iter()
    }

    /// What a call writes into room for so many, as many as it says.
    fn written(
        need: usize,
        write: impl FnOnce(CandidateRoom<'_>) -> Result<usize, Refusal>,
    ) -> Result<Candidates, Refusal> {
        let mut views = List::<ForwardView>::with_room(need);
        let mut probes = List::<Probe>::with_room(need);
        let room = views.room();
        let count = write(CandidateRoom {
            cand_at: &mut room.indexes,
            cand: &mut room.numbers,
            probe: &mut probes.room().numbers,
            cand_edition: &mut room.editions,
        })?;
        views.truncate(count);
        probes.truncate(count);
        Ok(Candidates { views, probes })
    }

    pub(crate) fn indexes(&self) -> &[usize] {
        self.views.indexes()
    }

    pub(crate) fn numbers(&self) -> &[f64] {
        self.views.numbers()
    }

    pub(crate) fn editions(&self) -> &[u32] {
        self.views.editions()
    }
}

impl FromIterator<Candidate> for Candidates {
    fn from_iter<I: IntoIterator<Item = Candidate>>(candidates: I) -> Self {
        let mut all = Candidates::default();
        for candidate in candidates {
            all.views.push(ForwardView(candidate.view));
            all.probes.push(candidate.probe);
        }
        all
    }
}

/// The cuts of one outline in their order: by segment, then by distance from the segment's start
/// vertex, then by arrival. `source` says which of the two outlines it is.
///
/// Refusals: `Length`, `Outline`, `Tolerance`, `Number`, `Index`, and `Count` for the view of an
/// overlap where the outline is outline 2.
///
/// ```
/// use mask_tools::{cut_order, Intersection, Intersections, Outline, Overlaps, Point, Source};
/// use mask_tools::Tolerance;
///
/// # fn main() -> Result<(), mask_tools::Refusal> {
/// let square = Outline::straight(&[(0.0, 0.0), (4.0, 0.0), (4.0, 4.0), (0.0, 4.0)]);
/// let on_the_first_edge = |x| Intersection {
///     start_index1: 0,
///     start_index2: 0,
///     point: Point::new(x, 0.0),
/// };
/// let hits = Intersections::from([3.0, 1.0].map(on_the_first_edge));
/// let t = Tolerance::new(1e-5);
/// let cuts = cut_order(&square, Source::Pline1, &hits, &Overlaps::new(), t)?;
/// let arrivals: Vec<usize> = cuts.iter().map(|cut| cut.arrival).collect();
/// assert_eq!(arrivals, [1, 0]);
/// # Ok(())
/// # }
/// ```
pub fn cut_order(
    outline: &Outline,
    source: Source,
    intersections: &Intersections,
    overlaps: &Overlaps,
    tolerance: Tolerance,
) -> Result<Cuts, Refusal> {
    let mut cuts = Cuts::with_room(room_for_cuts(intersections, overlaps));
    let room = cuts.room();
    let count = lent::cut_order(
        outline,
        source,
        intersections,
        overlaps,
        tolerance,
        &mut room.indexes,
        &mut room.numbers,
    )?;
    cuts.truncate(count);
    Ok(cuts)
}

/// The candidates of one outline: the pieces between neighbouring cuts of a segment, and the walks
/// from a segment's last cut to the next segment that has one. `splits` are the host's, one for
/// each cut of [`cut_order`] with the same lists; [`split_cuts`](crate::split_cuts) asks for them.
///
/// Refusals: those of [`cut_order`]; `Length` also where there is not one split for each cut, and
/// `Number` for a number of a split.
pub fn candidates(
    outline: &Outline,
    source: Source,
    intersections: &Intersections,
    overlaps: &Overlaps,
    splits: &Splits,
    tolerance: Tolerance,
) -> Result<Candidates, Refusal> {
    let need = room_for_cuts(intersections, overlaps);
    Candidates::written(need, |room| {
        lent::candidates(
            outline,
            source,
            intersections,
            overlaps,
            splits,
            tolerance,
            room,
        )
    })
}

/// The same with the cuts as [`cut_order`] gave them: to check that order takes less time than to
/// find it again. The cuts are a hint: with any others the answer is that of [`candidates`] too.
///
/// Refusals: those of [`candidates`].
pub fn candidates_along(
    outline: &Outline,
    source: Source,
    intersections: &Intersections,
    overlaps: &Overlaps,
    cuts: &Cuts,
    splits: &Splits,
    tolerance: Tolerance,
) -> Result<Candidates, Refusal> {
    let need = room_for_cuts(intersections, overlaps);
    Candidates::written(need, |room| {
        lent::candidates_along(
            outline,
            source,
            intersections,
            overlaps,
            cuts.indexes(),
            splits,
            tolerance,
            room,
        )
    })
}

/// One for each cut. Beyond the most the call is refused, whatever the room.
fn room_for_cuts(intersections: &Intersections, overlaps: &Overlaps) -> usize {
    lent::cuts_needed(intersections, overlaps).min(MOST_CUTS)
}

/// A view as it lies in a list of candidates, where all run forward.
#[derive(Debug, Clone, Copy, PartialEq, Default)]
struct ForwardView(View);

impl Layout for ForwardView {
    const INDEXES: usize = 2;
    const NUMBERS: usize = 6;
    const EDITIONS: usize = 1;

    fn write(&self, to: &mut Flat) {
        to.indexes
            .extend([self.0.start_index, self.0.end_index_offset]);
        to.numbers.extend(self.0.numbers());
        to.editions.push(self.0.edition);
    }

    fn read(indexes: &[usize], numbers: &[f64], editions: &[u32]) -> Self {
        let [start, offset] = [indexes[0], indexes[1]];
        ForwardView(View::of_numbers(start, offset, numbers, editions[0]))
    }
}

impl Layout for Intersection {
    const INDEXES: usize = 2;
    const NUMBERS: usize = 2;
    const EDITIONS: usize = 0;

    fn write(&self, to: &mut Flat) {
        to.indexes.extend([self.start_index1, self.start_index2]);
        to.numbers.extend([self.point.x, self.point.y]);
    }

    fn read(indexes: &[usize], numbers: &[f64], _: &[u32]) -> Self {
        Intersection {
            start_index1: indexes[0],
            start_index2: indexes[1],
            point: Point::new(numbers[0], numbers[1]),
        }
    }
}

impl Layout for Overlap {
    const INDEXES: usize = 7;
    const NUMBERS: usize = 6;
    const EDITIONS: usize = 1;

    fn write(&self, to: &mut Flat) {
        to.indexes.extend([
            self.start_indexes.0,
            self.start_indexes.1,
            self.end_indexes.0,
            self.end_indexes.1,
            usize::from(self.opposing_directions),
            self.view_data.start_index,
            self.view_data.end_index_offset,
        ]);
        to.numbers.extend(self.view_data.numbers());
        to.editions.push(self.view_data.edition);
    }

    fn read(indexes: &[usize], numbers: &[f64], editions: &[u32]) -> Self {
        Overlap {
            start_indexes: (indexes[0], indexes[1]),
            end_indexes: (indexes[2], indexes[3]),
            opposing_directions: indexes[4] != 0,
            view_data: View::of_numbers(indexes[5], indexes[6], numbers, editions[0]),
        }
    }
}

impl Layout for Cut {
    const INDEXES: usize = 3;
    const NUMBERS: usize = 2;
    const EDITIONS: usize = 0;

    fn write(&self, to: &mut Flat) {
        to.indexes
            .extend([self.segment, usize::from(self.overlap_mark), self.arrival]);
        to.numbers.extend([self.point.x, self.point.y]);
    }

    fn read(indexes: &[usize], numbers: &[f64], _: &[u32]) -> Self {
        Cut {
            segment: indexes[0],
            overlap_mark: indexes[1] != 0,
            arrival: indexes[2],
            point: Point::new(numbers[0], numbers[1]),
        }
    }
}

impl Layout for CutSplit {
    const INDEXES: usize = 0;
    const NUMBERS: usize = 9;
    const EDITIONS: usize = 0;

    fn write(&self, to: &mut Flat) {
        let Split {
            updated_start,
            split_vertex,
        } = self.split;
        for vertex in [updated_start, split_vertex, self.split_vertex_of_segment] {
            to.numbers.extend([vertex.x, vertex.y, vertex.bulge]);
        }
    }

    fn read(_: &[usize], numbers: &[f64], _: &[u32]) -> Self {
        CutSplit {
            split: Split {
                updated_start: vertex_at(numbers, 0),
                split_vertex: vertex_at(numbers, 1),
            },
            split_vertex_of_segment: vertex_at(numbers, 2),
        }
    }
}

impl Layout for Probe {
    const INDEXES: usize = 0;
    const NUMBERS: usize = 6;
    const EDITIONS: usize = 0;

    fn write(&self, to: &mut Flat) {
        for vertex in [self.start, self.end] {
            to.numbers.extend([vertex.x, vertex.y, vertex.bulge]);
        }
    }

    fn read(_: &[usize], numbers: &[f64], _: &[u32]) -> Self {
        Probe {
            start: vertex_at(numbers, 0),
            end: vertex_at(numbers, 1),
        }
    }
}

fn vertex_at(numbers: &[f64], place: usize) -> Vertex {
    let at = 3 * place;
    Vertex::new(numbers[at], numbers[at + 1], numbers[at + 2])
}

#[cfg(test)]
mod tests {
    use super::*;
    use crate::ffi::standin::{told, Lent, Reply};
    use crate::ffi::CountAnswer;

    const T: Tolerance = Tolerance { x: 0.25, y: 0.125 };

    fn outline() -> Outline {
        Outline::straight(&[(0.0, 0.0), (1.0, 0.0), (1.0, 1.0)])
    }

    fn hit() -> Intersection {
        Intersection {
            start_index1: 1,
            start_index2: 2,
            point: Point::new(3.0, 4.0),
        }
    }

    fn lap() -> Overlap {
        Overlap {
            start_indexes: (1, 2),
            end_indexes: (3, 4),
            opposing_directions: true,
            view_data: View::of_numbers(5, 6, &[1.0, 2.0, 3.0, 4.0, 5.0, 6.0], 8),
        }
    }

    fn count(refusal: u32, count: usize) -> CountAnswer {
        CountAnswer { refusal, count }
    }

    #[test]
    fn every_kind_of_item_comes_back() {
        assert_eq!(List::from([hit(), hit()]).get(1), Some(hit()));
        assert_eq!(List::from([lap(), lap()]).get(1), Some(lap()));
        let cut = Cut {
            segment: 1,
            overlap_mark: true,
            arrival: 2,
            point: Point::new(3.0, 4.0),
        };
        assert_eq!(List::from([cut, cut]).get(1), Some(cut));
        let split = CutSplit {
            split: Split {
                updated_start: Vertex::new(1.0, 2.0, 3.0),
                split_vertex: Vertex::new(4.0, 5.0, 6.0),
            },
            split_vertex_of_segment: Vertex::new(7.0, 8.0, 9.0),
        };
        let splits = List::from([split, split]);
        assert_eq!(splits.get(1), Some(split));
        assert_eq!(
            splits.numbers()[..9],
            [1.0, 2.0, 3.0, 4.0, 5.0, 6.0, 7.0, 8.0, 9.0]
        );
    }

    #[test]
    fn the_midpoint_of_a_probe() {
        let probe = Probe {
            start: Vertex::new(1.0, 2.0, 0.0),
            end: Vertex::new(3.0, -4.0, 9.0),
        };
        assert_eq!(probe.chord_midpoint(), Point::new(2.0, -1.0));
    }

    #[test]
    fn cut_order_lends_the_lists_and_the_need() {
        let hits = Intersections::from([hit()]);
        let laps = Overlaps::from([lap()]);
        let reply = Reply::writing(
            count(0, 3),
            vec![vec![0, 1, 2, 1, 0, 0, 2, 0, 1]],
            vec![vec![1.0, 2.0, 3.0, 4.0, 5.0, 6.0]],
        );
        let (cuts, calls) = told([reply], || {
            cut_order(&outline(), Source::Pline2, &hits, &laps, T)
        });
        let cut = |segment, overlap_mark, arrival, x, y| Cut {
            segment,
            overlap_mark,
            arrival,
            point: Point::new(x, y),
        };
        let expected = Cuts::from([
            cut(0, true, 2, 1.0, 2.0),
            cut(1, false, 0, 3.0, 4.0),
            cut(2, false, 1, 5.0, 6.0),
        ]);
        assert_eq!(cuts, Ok(expected));

        let call = &calls[0];
        assert_eq!(call.entry, "cut_order");
        assert_eq!(call.lent("vc"), Lent::Count(3));
        assert_eq!(call.lent("source"), Lent::Code(2));
        assert_eq!(call.lent("hit_at"), Lent::Counts(vec![1, 2]));
        assert_eq!(call.lent("hit"), Lent::Numbers(vec![3.0, 4.0]));
        assert_eq!(call.lent("hits"), Lent::Count(1));
        assert_eq!(call.lent("lap_at"), Lent::Counts(vec![1, 2, 3, 4, 1, 5, 6]));
        let lap = vec![1.0, 2.0, 3.0, 4.0, 5.0, 6.0];
        assert_eq!(call.lent("lap"), Lent::Numbers(lap));
        assert_eq!(call.lent("laps"), Lent::Count(1));
        assert_eq!(call.lent("tolerance_x"), Lent::Number(0.25));
        assert_eq!(call.lent("tolerance_y"), Lent::Number(0.125));
        assert_eq!(call.lent("cut_at"), Lent::Room(3 * 3));
        assert_eq!(call.lent("cut"), Lent::Room(3 * 2));
    }

    #[test]
    fn candidates_along_lends_the_cuts_beside_what_candidates_lends() {
        let (hits, laps) = (Intersections::from([hit()]), Overlaps::new());
        let splits = Splits::from([CutSplit::default()]);
        let cuts = Cuts::from([Cut {
            segment: 1,
            overlap_mark: true,
            arrival: 0,
            point: Point::new(3.0, 4.0),
        }]);
        let replies = [0, 1].map(|_| Reply::of(count(0, 0)));
        let (found, calls) = told(replies, || {
            let of = Source::Pline1;
            [
                candidates(&outline(), of, &hits, &laps, &splits, T),
                candidates_along(&outline(), of, &hits, &laps, &cuts, &splits, T),
            ]
        });
        assert_eq!(found[0], found[1]);
        let (plain, along) = (&calls[0], &calls[1]);
        assert_eq!(along.entry, "candidates_along");
        assert_eq!(along.lent("cut_at"), Lent::Counts(vec![1, 1, 0]));
        for name in [
            "outline",
            "vc",
            "edition",
            "source",
            "hit_at",
            "hit",
            "hits",
            "lap_at",
            "lap",
            "laps",
            "splits",
            "tolerance_x",
            "tolerance_y",
            "cand_at",
            "cand",
            "probe",
            "cand_edition",
        ] {
            assert_eq!(plain.lent(name), along.lent(name), "{name}");
        }
    }

    #[test]
    fn candidates_keep_what_was_counted() {
        let hits = Intersections::from([hit(), hit()]);
        let splits = Splits::from([CutSplit::default(); 2]);
        let reply = Reply::writing(
            count(0, 1),
            vec![vec![7, 8]],
            vec![
                vec![1.0, 2.0, 3.0, 4.0, 5.0, 6.0],
                vec![9.0, 8.0, 7.0, 6.0, 5.0, 4.0],
            ],
        )
        .with_editions(&[u32::MAX]);
        let laps = Overlaps::new();
        let outline = outline().with_edition(u32::MAX);
        let (found, calls) = told([reply], || {
            candidates(&outline, Source::Pline1, &hits, &laps, &splits, T)
        });
        let found = found.unwrap();
        let expected = Candidate {
            view: View::of_numbers(7, 8, &[1.0, 2.0, 3.0, 4.0, 5.0, 6.0], u32::MAX),
            probe: Probe {
                start: Vertex::new(9.0, 8.0, 7.0),
                end: Vertex::new(6.0, 5.0, 4.0),
            },
        };
        assert_eq!((found.len(), found.get(0)), (1, Some(expected)));
        assert_eq!(found.get(1), None);
        assert!(found.iter().eq([expected]));
        assert_eq!(found.iter().collect::<Candidates>(), found);
        assert_eq!(found.editions(), [u32::MAX]);

        let call = &calls[0];
        assert_eq!(call.entry, "candidates");
        assert_eq!(call.lent("source"), Lent::Code(1));
        assert_eq!(call.lent("splits"), Lent::Numbers(vec![0.0; 18]));
        assert_eq!(call.lent("tolerance_x"), Lent::Number(0.25));
        assert_eq!(call.lent("tolerance_y"), Lent::Number(0.125));
        assert_eq!(call.lent("cand_at"), Lent::Room(2 * 2));
        assert_eq!(call.lent("cand"), Lent::Room(2 * 6));
        assert_eq!(call.lent("probe"), Lent::Room(2 * 6));
        assert_eq!(call.lent("edition"), Lent::Code(u32::MAX));
        assert_eq!(call.lent("cand_edition"), Lent::Room(2));
    }

    #[test]
    fn no_more_room_than_the_most() {
        let hits: Intersections = (0..5000).map(|_| hit()).collect();
        let (found, calls) = told([Reply::of(count(1, 0))], || {
            cut_order(&outline(), Source::Pline1, &hits, &Overlaps::new(), T)
        });
        assert_eq!(found, Err(Refusal::Length));
        assert_eq!(calls[0].lent("hits"), Lent::Count(5000));
        assert_eq!(calls[0].lent("cut_at"), Lent::Room(3 * 768));
    }
}
