//! Masks without arcs, in whole microdegrees: winding numbers and areas, exactly; and the slices of two
//! such masks in one call.

use crate::{ffi, lent};
use crate::{Intersections, Mode, Outline, Overlaps, Refusal, Slices, Tolerance};

/// The largest magnitude of a whole coordinate.
pub(crate) const MOST_WHOLE: i64 = 400_000_000;

/// Whether a coordinate is whole, and in range.
pub(crate) fn is_whole(number: f64) -> bool {
    // What is not finite, or beyond an i64, is out of range.
    number.abs() <= MOST_WHOLE as f64 && number as i64 as f64 == number
}

/// Whether each of these overlaps begins and ends at whole coordinates, and has no arc there.
pub(crate) fn are_straight_and_whole(overlaps: &Overlaps) -> bool {
    overlaps.iter().all(|overlap| {
        let (start, end) = (overlap.view_data.updated_start, overlap.view_data.end_point);
        [start.x, start.y, end.x, end.y].into_iter().all(is_whole)
            && start.bulge == 0.0
            && overlap.view_data.updated_end_bulge == 0.0
    })
}

/// The slices that `mode` keeps of two straight masks in whole microdegrees, in one call: what
/// [`candidates`](crate::candidates) of both outlines, inside answers and [`prune`](crate::prune) give
/// in turn. No host is asked: the parts of a straight segment keep their positions and have bulge +0,
/// and a candidate is inside where the exact winding number of the other outline is not 0 at the middle
/// of its two vertices. `opposing` says whether the two outlines run in opposing directions.
///
/// Every bulge is 0, and every coordinate of the outlines, of the intersections and of an overlap's
/// two ends is whole and of magnitude at most 400,000,000; else it refuses with [`Refusal::Range`].
/// [`Masks::slices`](crate::Masks::slices) looks first, and takes the other way where it has to.
///
/// Refusals: `Length`, `Outline`, `Tolerance`, `Number`, `Range`, `Index`, `Count`.
///
/// ```
/// use mask_tools::{straight_slices, Intersection, Intersections, Mode, Outline, Overlaps, Point};
/// use mask_tools::{Source, Tolerance};
///
/// # fn main() -> Result<(), mask_tools::Refusal> {
/// let a = Outline::straight(&[(0.0, 0.0), (4.0, 0.0), (4.0, 4.0), (0.0, 4.0)]);
/// let b = Outline::straight(&[(2.0, 2.0), (6.0, 2.0), (6.0, 6.0), (2.0, 6.0)]);
/// let crossing = |start_index1, start_index2, x, y| Intersection {
///     start_index1,
///     start_index2,
///     point: Point::new(x, y),
/// };
/// let crossings = Intersections::from([crossing(1, 0, 4.0, 2.0), crossing(2, 3, 2.0, 4.0)]);
/// let (laps, t) = (Overlaps::new(), Tolerance::new(1.0 / 1024.0));
/// let kept = straight_slices(Mode::Union, false, [&a, &b], &crossings, &laps, t)?;
/// let sources: Vec<Source> = kept.iter().map(|slice| slice.source).collect();
/// assert_eq!(sources, [Source::Pline1, Source::Pline2]);
/// # Ok(())
/// # }
/// ```
pub fn straight_slices(
    mode: Mode,
    opposing: bool,
    outlines: [&Outline; 2],
    intersections: &Intersections,
    overlaps: &Overlaps,
    tolerance: Tolerance,
) -> Result<Slices, Refusal> {
    let need = lent::straight_slices_needed(intersections, overlaps);
    Slices::written(need, |room| {
        lent::straight_slices(
            mode,
            opposing,
            outlines,
            intersections,
            overlaps,
            tolerance,
            room,
        )
    })
}

/// An outline without arcs in whole microdegrees: x and y of each vertex, of magnitude at most
/// 400,000,000. It has 2 to 1,024 vertices, and its last vertex goes on to its first.
///
/// ```
/// use mask_tools::WholeOutline;
///
/// # fn main() -> Result<(), mask_tools::Refusal> {
/// let square = WholeOutline::new(&[(0, 0), (4, 0), (4, 4), (0, 4)]);
/// assert_eq!(square.doubled_area()?, 32);
/// // The point (2, 2), in doubled coordinates.
/// assert_eq!(square.winding(4, 4)?, 1);
/// assert!(square.is_inside(4, 4)?);
/// // Run the other way, both answers are negated.
/// let back = WholeOutline::new(&[(0, 4), (4, 4), (4, 0), (0, 0)]);
/// assert_eq!(back.doubled_area()?, -32);
/// assert_eq!(back.winding(4, 4)?, -1);
/// # Ok(())
/// # }
/// ```
#[derive(Debug, Clone, PartialEq, Eq, Hash, Default)]
pub struct WholeOutline {
    /// x and y in turn.
    numbers: Vec<i64>,
}

impl WholeOutline {
    /// The outline of these vertices, x and y of each. What the library does not take, it refuses
    /// when it is asked.
    pub fn new(vertices: &[(i64, i64)]) -> WholeOutline {
        let numbers = vertices.iter().flat_map(|&(x, y)| [x, y]).collect();
        WholeOutline { numbers }
    }

    /// How many vertices it has.
    pub fn len(&self) -> usize {
        self.numbers.len() / 2
    }

    /// It has no vertex.
    pub fn is_empty(&self) -> bool {
        self.numbers.is_empty()
    }

    /// Its vertices, x and y of each.
    pub fn vertices(&self) -> impl Iterator<Item = (i64, i64)> + '_ {
        self.numbers.chunks_exact(2).map(|v| (v[0], v[1]))
    }

    /// The winding number round a point that comes in doubled coordinates, of magnitude at most
    /// 800,000,000: an edge counts 1 where it passes the point upwards and the point is strictly
    /// left of it, and -1 where it passes downwards and the point is strictly right of it. An edge
    /// from y1 to y2 passes y upwards where y1 <= y < y2.
    ///
    /// # Errors
    ///
    /// [`Refusal::Outline`] and [`Refusal::Range`].
    pub fn winding(&self, doubled_x: i64, doubled_y: i64) -> Result<i64, Refusal> {
        let answer = ffi::straight_winding(&self.numbers, self.len(), doubled_x, doubled_y);
        Refusal::check(answer.refusal, answer.winding)
    }

    /// Whether the winding number is any but 0.
    ///
    /// # Errors
    ///
    /// Those of [`winding`](WholeOutline::winding).
    pub fn is_inside(&self, doubled_x: i64, doubled_y: i64) -> Result<bool, Refusal> {
        Ok(self.winding(doubled_x, doubled_y)? != 0)
    }

    /// Twice the signed area, anticlockwise positive.
    ///
    /// # Errors
    ///
    /// [`Refusal::Outline`] and [`Refusal::Range`].
    pub fn doubled_area(&self) -> Result<i128, Refusal> {
        let answer = ffi::straight_area(&self.numbers, self.len());
        // At most 2^69, so it fits an i128 with its sign.
        let size = joined(answer.high, answer.low) as i128;
        let area = if answer.negative == 1 { -size } else { size };
        Refusal::check(answer.refusal, area)
    }
}

/// A number of its two words.
fn joined(high: u64, low: u64) -> u128 {
    u128::from(high) << 64 | u128::from(low)
}

/// What [`straight_report`] answers.
#[derive(Debug, Clone, Copy, PartialEq, Eq, Hash, Default)]
pub struct StraightReport {
    /// How many outlines.
    pub count: usize,
    /// How many of them have area zero.
    pub zero: usize,
    /// The total of their absolute doubled areas.
    pub doubled_total: u128,
}

/// The report on up to 4,096 outlines.
///
/// # Errors
///
/// [`Refusal::Outline`], [`Refusal::Range`] and [`Refusal::Loops`].
///
/// ```
/// use mask_tools::{straight_report, WholeOutline};
///
/// # fn main() -> Result<(), mask_tools::Refusal> {
/// let square = WholeOutline::new(&[(0, 0), (4, 0), (4, 4), (0, 4)]);
/// let back = WholeOutline::new(&[(0, 4), (4, 4), (4, 0), (0, 0)]);
/// let line = WholeOutline::new(&[(0, 0), (4, 0)]);
/// let report = straight_report(&[square, back, line])?;
/// assert_eq!((report.count, report.zero, report.doubled_total), (3, 1, 64));
/// # Ok(())
/// # }
/// ```
pub fn straight_report(outlines: &[WholeOutline]) -> Result<StraightReport, Refusal> {
    let points: Vec<i64> = outlines
        .iter()
        .flat_map(|o| o.numbers.iter().copied())
        .collect();
    let ends: Vec<usize> = outlines
        .iter()
        .scan(0, |end, o| {
            *end += o.len();
            Some(*end)
        })
        .collect();
    let answer = ffi::straight_report(&points, &ends, outlines.len());
    let report = StraightReport {
        count: answer.count,
        zero: answer.zero,
        doubled_total: joined(answer.high, answer.low),
    };
    Refusal::check(answer.refusal, report)
}

#[cfg(test)]
mod tests {
    use super::*;
    use crate::ffi::standin::{told, Lent, Reply};
    use crate::ffi::{AreaAnswer, PruneAnswer, ReportAnswer, WindingAnswer};
    use crate::{Intersection, Overlap, Starts};

    fn outline() -> WholeOutline {
        WholeOutline::new(&[(1, 2), (3, 4), (5, 6)])
    }

    #[test]
    fn an_outline_is_lent_as_numbers_in_turn() {
        let answer = WindingAnswer {
            refusal: 0,
            winding: -3,
        };
        let (given, calls) = told([Reply::of(answer)], || outline().winding(7, -8));
        assert_eq!(given, Ok(-3));
        assert_eq!(calls[0].entry, "straight_winding");
        assert_eq!(
            calls[0].lent("outline"),
            Lent::Wholes(vec![1, 2, 3, 4, 5, 6])
        );
        assert_eq!(calls[0].lent("vc"), Lent::Count(3));
        assert_eq!(calls[0].lent("x"), Lent::Whole(7));
        assert_eq!(calls[0].lent("y"), Lent::Whole(-8));
    }

    #[test]
    fn inside_is_any_but_zero() {
        for (winding, inside) in [(0, false), (1, true), (-1, true), (2, true)] {
            let answer = WindingAnswer {
                refusal: 0,
                winding,
            };
            let (given, _) = told([Reply::of(answer)], || outline().is_inside(0, 0));
            assert_eq!(given, Ok(inside));
        }
    }

    #[test]
    fn an_area_is_sign_and_two_words() {
        for (negative, high, low, area) in [
            (0, 0, 5, 5),
            (1, 0, 5, -5),
            (0, 2, 7, (2 << 64) + 7),
            (1, 17, u64::MAX, -(18 << 64) + 1),
        ] {
            let answer = AreaAnswer {
                refusal: 0,
                negative,
                high,
                low,
            };
            let (given, calls) = told([Reply::of(answer)], || outline().doubled_area());
            assert_eq!(given, Ok(area));
            assert_eq!(calls[0].entry, "straight_area");
        }
    }

    #[test]
    fn outlines_are_lent_one_after_the_other_with_their_ends() {
        let other = WholeOutline::new(&[(7, 8), (9, 10)]);
        let answer = ReportAnswer {
            refusal: 0,
            count: 2,
            zero: 1,
            high: 1,
            low: 3,
        };
        let (given, calls) = told([Reply::of(answer)], || {
            straight_report(&[outline(), other.clone()])
        });
        let report = StraightReport {
            count: 2,
            zero: 1,
            doubled_total: (1 << 64) + 3,
        };
        assert_eq!(given, Ok(report));
        let points = (1..=10).collect();
        assert_eq!(calls[0].lent("points"), Lent::Wholes(points));
        assert_eq!(calls[0].lent("ends"), Lent::Counts(vec![3, 5]));
        assert_eq!(calls[0].lent("loops"), Lent::Count(2));
    }

    #[test]
    fn masks_are_lent_with_the_need_of_all_their_cuts() {
        let edition = |edition| Outline::straight(&[(1.0, 2.0), (3.0, 4.0)]).with_edition(edition);
        let hits = Intersections::from([Intersection::default(); 3]);
        let mut lap = Overlap::default();
        lap.view_data.edition = 7;
        let laps = Overlaps::from([lap, lap]);
        let answer = PruneAnswer {
            refusal: 0,
            slices: 1,
            starts: Starts {
                pline2: 1,
                ..Starts::default()
            },
        };
        let reply = Reply::writing(answer, vec![vec![1, 1, 0, 2]], vec![vec![5.0]]);
        let (given, calls) = told([reply.with_editions(&[9])], || {
            let t = Tolerance { x: 0.5, y: 0.25 };
            straight_slices(
                Mode::Intersection,
                true,
                [&edition(4), &edition(5)],
                &hits,
                &laps,
                t,
            )
        });
        let given = given.unwrap();
        assert_eq!((given.len(), given.starts.pline2), (1, 1));
        let slice = given.iter().next().unwrap();
        assert_eq!(slice.view.end_index_offset, 2);
        assert_eq!((slice.view.edition, slice.view.updated_start.x), (9, 5.0));

        let call = &calls[0];
        assert_eq!(call.entry, "straight_slices");
        assert_eq!(
            (call.lent("mode"), call.lent("opposing")),
            (Lent::Code(1), Lent::Code(1))
        );
        assert_eq!(
            call.lent("outline1"),
            Lent::Numbers(vec![1.0, 2.0, 0.0, 3.0, 4.0, 0.0])
        );
        assert_eq!(
            (call.lent("edition1"), call.lent("edition2")),
            (Lent::Code(4), Lent::Code(5))
        );
        assert_eq!(
            (call.lent("hits"), call.lent("laps")),
            (Lent::Count(3), Lent::Count(2))
        );
        assert_eq!(call.lent("lap_edition"), Lent::Editions(vec![7, 7]));
        // 2 (3 + 2 * 2) + 2 * 2 slices
        assert_eq!(call.lent("slice_at"), Lent::Room(4 * 18));
        assert_eq!(call.lent("slice"), Lent::Room(6 * 18));
        assert_eq!(call.lent("slice_edition"), Lent::Room(18));
    }

    #[test]
    fn whole_coordinates() {
        for number in [0.0, -0.0, 1.0, -3.0, 4e8, -4e8] {
            assert!(is_whole(number));
        }
        for number in [0.5, -0.25, 4e8 + 1.0, 1e19, f64::INFINITY, f64::NAN] {
            assert!(!is_whole(number) && !is_whole(-number));
        }
    }

    #[test]
    fn a_refusal_is_an_error() {
        let answer = ReportAnswer {
            refusal: 19,
            ..ReportAnswer::default()
        };
        let (given, _) = told([Reply::of(answer)], || straight_report(&[]));
        assert_eq!(given, Err(Refusal::Loops));
    }

    #[test]
    fn vertices_there_and_back() {
        let o = outline();
        assert_eq!(o.vertices().collect::<Vec<_>>(), [(1, 2), (3, 4), (5, 6)]);
        assert_eq!((o.len(), o.is_empty()), (3, false));
        assert!(WholeOutline::default().is_empty());
    }
}
