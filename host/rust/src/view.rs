//! Views of an outline: their constructors, their vertices, and the verdict on them.

use crate::stitch::MOST_VERTICES;
use crate::{ffi, lent};
use crate::{Outline, Point, Refusal, Split, Tolerance, Vertex};
use std::iter::FusedIterator;

/// A part of an outline, or the whole of it, forward or inverted. It holds no outline: hand it
/// the one that it was made from. It has the edition of that outline, which tells whether the outline
/// is still the same.
#[derive(Debug, Clone, Copy, PartialEq, Default)]
pub struct View {
    /// The segment on which it starts.
    pub start_index: usize,
    /// How many segments further it ends; at most the outline's vertex count.
    pub end_index_offset: usize,
    /// Its first vertex.
    pub updated_start: Vertex,
    /// The bulge of its last segment.
    pub updated_end_bulge: f64,
    /// Its last point.
    pub end_point: Point,
    /// Whether it runs against the outline. The other fields are the same either way.
    pub inverted_direction: bool,
    /// The edition of the outline that it was cut from.
    pub edition: u32,
}

/// A walk along an outline, from a point on one segment to a point on another one: what
/// [`View::create`] is made of.
#[derive(Debug, Clone, Copy, PartialEq, Default)]
pub struct Walk {
    /// The segment on which the walk starts.
    pub start_index: usize,
    /// Its first vertex.
    pub updated_start: Vertex,
    /// Where it ends.
    pub end_intersect: Point,
    /// The segment on which it ends.
    pub intersect_index: usize,
    /// How many segments on that is: 1 to the vertex count.
    pub traverse_count: usize,
    /// The host's split of the segment `intersect_index` at `end_intersect`.
    pub split: Split,
}

/// The host's word on where a view's ends lie. It counts for an end that is near neither vertex
/// of its segment.
#[derive(Debug, Clone, Copy, PartialEq, Eq, Default)]
pub struct OnSegment {
    /// The view's start lies on its segment.
    pub start: bool,
    /// The view's end lies on its segment.
    pub end: bool,
}

/// Whether view data fits an outline, and if not, why. The questions are asked in this order.
#[derive(Debug, Clone, Copy, PartialEq)]
pub enum Verdict {
    /// The outline has fewer than 2 vertices.
    SourceHasNoSegments,
    /// The offset is above the outline's vertex count.
    OffsetOutOfRange {
        /// The view's offset.
        offset: usize,
        /// The outline's vertex count.
        source_length: usize,
    },
    /// The start lies off its segment.
    UpdatedStartNotOnSegment {
        /// The view's start.
        start_point: Point,
    },
    /// The end lies off its segment.
    EndPointNotOnSegment {
        /// The view's end.
        end_point: Point,
    },
    /// The end lies on the vertex with which its segment starts.
    EndPointOnFinalOffsetVertex {
        /// The view's end.
        end_point: Point,
        /// That vertex.
        final_offset_vertex: Vertex,
    },
    /// The view is on one segment, and its end bulge is not its start's bulge.
    UpdatedBulgeDoesNotMatch {
        /// The view's end bulge.
        updated_bulge: f64,
        /// The bulge of its start.
        expected: f64,
    },
    /// The view fits.
    IsValid,
}

impl View {
    /// The view of a walk from one segment to another, or all the way round to the same one.
    ///
    /// Refusals: `Outline`, `Tolerance`, `Number`, `Index`, `Count`.
    pub fn create(source: &Outline, walk: &Walk, tolerance: Tolerance) -> Result<View, Refusal> {
        let answer = ffi::create(
            source.numbers(),
            source.vertex_count(),
            walk.start_index,
            walk.end_intersect,
            walk.intersect_index,
            walk.updated_start,
            walk.traverse_count,
            tolerance.x,
            tolerance.y,
            walk.split,
        );
        Refusal::check(answer.refusal, of_edition(answer.view, source))
    }

    /// The view between two points of one segment. There is none where the two agree.
    ///
    /// Refusals: `Outline`, `Tolerance`, `Number`, `Index`.
    pub fn create_on_single_segment(
        source: &Outline,
        start_index: usize,
        updated_start: Vertex,
        end_intersect: Point,
        tolerance: Tolerance,
    ) -> Result<Option<View>, Refusal> {
        let answer = ffi::create_on_single_segment(
            source.numbers(),
            source.vertex_count(),
            start_index,
            updated_start,
            end_intersect,
            tolerance.x,
            tolerance.y,
        );
        let view = (answer.found != 0).then(|| of_edition(answer.view, source));
        Refusal::check(answer.refusal, view)
    }

    /// The view of a whole outline, taken as closed or as open.
    ///
    /// Refusals: `Outline`, `Number`.
    ///
    /// ```
    /// use mask_tools::{Outline, Vertex, View};
    ///
    /// # fn main() -> Result<(), mask_tools::Refusal> {
    /// let square = Outline::straight(&[(0.0, 0.0), (4.0, 0.0), (4.0, 4.0), (0.0, 4.0)]);
    /// let all = View::from_entire_pline(&square, true)?;
    /// assert_eq!(all.vertex_count(), 5);
    /// assert_eq!(all.get_vertex(&square, 4)?, Some(Vertex::new(0.0, 0.0, 0.0)));
    /// assert_eq!(all.get_vertex(&square, 5)?, None);
    /// # Ok(())
    /// # }
    /// ```
    pub fn from_entire_pline(source: &Outline, closed: bool) -> Result<View, Refusal> {
        let answer =
            ffi::from_entire_pline(source.numbers(), source.vertex_count(), u32::from(closed));
        Refusal::check(answer.refusal, of_edition(answer.view, source))
    }

    /// How many vertices it has: two more than its offset.
    pub const fn vertex_count(&self) -> usize {
        self.end_index_offset.saturating_add(2)
    }

    /// All its vertices, in order. They are worked out in one call, so the outline is looked at
    /// once; [`get_vertex`](View::get_vertex) looks at all of it for one vertex.
    ///
    /// Refusals: `Outline`, `Number`, `Index`, `Count`.
    ///
    /// ```
    /// use mask_tools::{Outline, View};
    ///
    /// # fn main() -> Result<(), mask_tools::Refusal> {
    /// let square = Outline::straight(&[(0.0, 0.0), (4.0, 0.0), (4.0, 4.0), (0.0, 4.0)]);
    /// let back = View {
    ///     inverted_direction: true,
    ///     ..View::from_entire_pline(&square, true)?
    /// };
    /// let places: Vec<(f64, f64)> = back.vertices(&square)?.map(|v| (v.x, v.y)).collect();
    /// assert_eq!(places, [(0.0, 0.0), (0.0, 4.0), (4.0, 4.0), (4.0, 0.0), (0.0, 0.0)]);
    /// # Ok(())
    /// # }
    /// ```
    pub fn vertices(&self, source: &Outline) -> Result<Vertices, Refusal> {
        // Beyond the most the call is refused, whatever the room.
        let most = self.vertex_count().min(MOST_VERTICES + 2);
        let mut numbers = vec![0.0; 3 * most];
        let count = lent::view_vertices(self, source, &mut numbers)?;
        Ok(Vertices {
            numbers,
            next: 0,
            end: count,
        })
    }

    /// Its vertex number `index`; none from [`vertex_count`](View::vertex_count) on.
    ///
    /// Refusals: `Outline`, `Number`, `Index`, `Count`.
    pub fn get_vertex(&self, source: &Outline, index: usize) -> Result<Option<Vertex>, Refusal> {
        let answer = ffi::view_vertex(
            source.numbers(),
            source.vertex_count(),
            (*self).into(),
            index,
        );
        Refusal::check(answer.refusal, (answer.found != 0).then_some(answer.vertex))
    }

    /// Whether it fits this outline, and if not, why.
    ///
    /// Refusals: `Outline` (too long only), `Number`, `Index`, `Edition`.
    pub fn validate_for_source(
        &self,
        source: &Outline,
        on_segment: OnSegment,
    ) -> Result<Verdict, Refusal> {
        let answer = ffi::validate_for_source(
            source.numbers(),
            source.vertex_count(),
            source.edition(),
            (*self).into(),
            self.edition,
            u32::from(on_segment.start),
            u32::from(on_segment.end),
        );
        Refusal::check(answer.refusal, answer)?;
        Ok(verdict_of(&answer))
    }

    /// Reopens it on an outline of another edition: the same verdict, without comparing editions.
    /// Where that is [`IsValid`](Verdict::IsValid) the view has the outline's edition from now on.
    /// Nothing else of it changes.
    ///
    /// The verdict looks at the two ends. Whether the view is still the piece that it was,
    /// [`unmoved`](View::unmoved) tells.
    ///
    /// Refusals: `Outline` (too long only), `Number`, `Index`.
    ///
    /// ```
    /// use mask_tools::{OnSegment, Outline, Refusal, Verdict, Vertex, View};
    ///
    /// # fn main() -> Result<(), mask_tools::Refusal> {
    /// let square = Outline::straight(&[(0.0, 0.0), (4.0, 0.0), (4.0, 4.0), (0.0, 4.0)]);
    /// let mut view = View::from_entire_pline(&square, true)?;
    /// let mut corners = square.vertices().to_vec();
    /// corners[2] = Vertex::new(9.0, 9.0, 0.0);
    /// let late = square.replaced_by(corners);
    ///
    /// let on = OnSegment { start: true, end: true };
    /// assert_eq!(view.validate_for_source(&late, on), Err(Refusal::Edition));
    /// assert_eq!(view.first_moved(&square, &late)?, Some(2));
    /// assert_eq!(view.reopen(&late, on)?, Verdict::IsValid);
    /// assert_eq!(view.edition, late.edition());
    /// # Ok(())
    /// # }
    /// ```
    pub fn reopen(&mut self, source: &Outline, on_segment: OnSegment) -> Result<Verdict, Refusal> {
        let answer = ffi::reopen(
            source.numbers(),
            source.vertex_count(),
            source.edition(),
            (*self).into(),
            self.edition,
            u32::from(on_segment.start),
            u32::from(on_segment.end),
        );
        Refusal::check(answer.refusal, answer)?;
        self.edition = answer.edition;
        Ok(verdict_of(&ffi::VerdictAnswer {
            refusal: answer.refusal,
            verdict: answer.verdict,
            offset: answer.offset,
            source_length: answer.source_length,
            point: answer.point,
            vertex: answer.vertex,
            updated_bulge: answer.updated_bulge,
            expected: answer.expected,
        }))
    }

    /// Whether it has the same vertices, bit for bit, on the old outline and on the new one. Editions
    /// are not looked at.
    ///
    /// Refusals: `Outline`, `Number`, `Index`, `Count`, of either outline.
    pub fn unmoved(&self, old: &Outline, new: &Outline) -> Result<bool, Refusal> {
        Ok(self.first_moved(old, new)?.is_none())
    }

    /// The lowest number of a vertex that is not the same on the old outline and on the new one; none
    /// where it is [`unmoved`](View::unmoved). Its first vertex and its last are its own, and the same
    /// on every outline.
    ///
    /// Refusals: as of [`unmoved`](View::unmoved).
    pub fn first_moved(&self, old: &Outline, new: &Outline) -> Result<Option<usize>, Refusal> {
        let answer = ffi::unmoved(
            old.numbers(),
            old.vertex_count(),
            new.numbers(),
            new.vertex_count(),
            (*self).into(),
        );
        Refusal::check(
            answer.refusal,
            (answer.unmoved == 0).then_some(answer.first),
        )
    }

    /// Its numbers as they lie in a list.
    pub(crate) fn numbers(&self) -> [f64; 6] {
        [
            self.updated_start.x,
            self.updated_start.y,
            self.updated_start.bulge,
            self.updated_end_bulge,
            self.end_point.x,
            self.end_point.y,
        ]
    }

    /// The view whose numbers lie in a list.
    pub(crate) fn of_numbers(
        start_index: usize,
        end_index_offset: usize,
        n: &[f64],
        edition: u32,
    ) -> View {
        View {
            start_index,
            end_index_offset,
            updated_start: Vertex::new(n[0], n[1], n[2]),
            updated_end_bulge: n[3],
            end_point: Point::new(n[4], n[5]),
            inverted_direction: false,
            edition,
        }
    }
}

/// The vertices of a view, one after the other: what [`View::vertices`] gives.
#[derive(Debug, Clone)]
pub struct Vertices {
    numbers: Vec<f64>,
    next: usize,
    end: usize,
}

impl Vertices {
    /// Those that are still to come.
    pub fn as_slice(&self) -> &[Vertex] {
        &ffi::vertices_of(&self.numbers)[self.next..self.end]
    }
}

impl Iterator for Vertices {
    type Item = Vertex;

    fn next(&mut self) -> Option<Vertex> {
        let vertex = *self.as_slice().first()?;
        self.next += 1;
        Some(vertex)
    }

    fn size_hint(&self) -> (usize, Option<usize>) {
        let left = self.end - self.next;
        (left, Some(left))
    }
}

impl DoubleEndedIterator for Vertices {
    fn next_back(&mut self) -> Option<Vertex> {
        let vertex = *self.as_slice().last()?;
        self.end -= 1;
        Some(vertex)
    }
}

impl ExactSizeIterator for Vertices {}

impl FusedIterator for Vertices {}

/// What an accepted answer says.
fn verdict_of(answer: &ffi::VerdictAnswer) -> Verdict {
    match answer.verdict {
        1 => Verdict::SourceHasNoSegments,
        2 => Verdict::OffsetOutOfRange {
            offset: answer.offset,
            source_length: answer.source_length,
        },
        3 => Verdict::UpdatedStartNotOnSegment {
            start_point: answer.point,
        },
        4 => Verdict::EndPointNotOnSegment {
            end_point: answer.point,
        },
        5 => Verdict::EndPointOnFinalOffsetVertex {
            end_point: answer.point,
            final_offset_vertex: answer.vertex,
        },
        6 => Verdict::UpdatedBulgeDoesNotMatch {
            updated_bulge: answer.updated_bulge,
            expected: answer.expected,
        },
        7 => Verdict::IsValid,
        other => panic!("the archive gave verdict {other}: it is not the one of this wrapper"),
    }
}

impl From<View> for ffi::View {
    fn from(view: View) -> Self {
        ffi::View {
            start_index: view.start_index,
            end_index_offset: view.end_index_offset,
            updated_start: view.updated_start,
            updated_end_bulge: view.updated_end_bulge,
            end_point: view.end_point,
            inverted_direction: u32::from(view.inverted_direction),
        }
    }
}

/// A view that was made of this outline.
pub(crate) fn of_edition(view: ffi::View, source: &Outline) -> View {
    View {
        start_index: view.start_index,
        end_index_offset: view.end_index_offset,
        updated_start: view.updated_start,
        updated_end_bulge: view.updated_end_bulge,
        end_point: view.end_point,
        inverted_direction: view.inverted_direction != 0,
        edition: source.edition(),
    }
}

#[cfg(test)]
mod tests {
    use super::*;
    use crate::ffi::standin::{told, Lent, Reply};
    use crate::ffi::{
        CountAnswer, ReopenAnswer, UnmovedAnswer, VerdictAnswer, VertexAnswer, ViewAnswer,
    };

    const T: Tolerance = Tolerance { x: 0.25, y: 0.125 };

    /// Of the edition that the view below has.
    fn outline() -> Outline {
        let outline: Outline = [Vertex::new(1.0, 2.0, 0.5), Vertex::new(3.0, 4.0, 0.0)].into();
        outline.with_edition(9)
    }

    fn view() -> View {
        View {
            start_index: 1,
            end_index_offset: 2,
            updated_start: Vertex::new(3.0, 4.0, 5.0),
            updated_end_bulge: 6.0,
            end_point: Point::new(7.0, 8.0),
            inverted_direction: true,
            edition: 9,
        }
    }

    #[test]
    fn a_view_crosses_the_boundary_and_comes_back() {
        let lent = ffi::View::from(view());
        assert_eq!(lent.inverted_direction, 1);
        assert_eq!(of_edition(lent, &outline()), view());
        let numbers = [3.0, 4.0, 5.0, 6.0, 7.0, 8.0];
        assert_eq!(view().numbers(), numbers);
        let forward = View {
            inverted_direction: false,
            ..view()
        };
        assert_eq!(View::of_numbers(1, 2, &numbers, 9), forward);
    }

    #[test]
    fn create_lends_the_walk() {
        let walk = Walk {
            start_index: 1,
            updated_start: Vertex::new(1.0, 2.0, 3.0),
            end_intersect: Point::new(4.0, 5.0),
            intersect_index: 6,
            traverse_count: 7,
            split: Split {
                updated_start: Vertex::new(8.0, 9.0, 10.0),
                split_vertex: Vertex::new(11.0, 12.0, 13.0),
            },
        };
        let answer = ViewAnswer {
            found: 1,
            view: view().into(),
            ..ViewAnswer::default()
        };
        let (found, calls) = told([Reply::of(answer)], || View::create(&outline(), &walk, T));
        assert_eq!(found, Ok(view()));
        let call = &calls[0];
        assert_eq!(call.entry, "create");
        let numbers = vec![1.0, 2.0, 0.5, 3.0, 4.0, 0.0];
        assert_eq!(call.lent("outline"), Lent::Numbers(numbers));
        assert_eq!(call.lent("vc"), Lent::Count(2));
        assert_eq!(call.lent("start_index"), Lent::Count(1));
        assert_eq!(call.lent("end_intersect"), Lent::Point(walk.end_intersect));
        assert_eq!(call.lent("intersect_index"), Lent::Count(6));
        assert_eq!(call.lent("updated_start"), Lent::Vertex(walk.updated_start));
        assert_eq!(call.lent("traverse_count"), Lent::Count(7));
        assert_eq!(call.lent("tolerance_x"), Lent::Number(0.25));
        assert_eq!(call.lent("tolerance_y"), Lent::Number(0.125));
        assert_eq!(call.lent("split"), Lent::Split(walk.split));
    }

    #[test]
    fn no_view_and_no_vertex_are_none() {
        let (found, _) = told([Reply::of(ViewAnswer::default())], || {
            View::create_on_single_segment(&outline(), 0, Vertex::default(), Point::default(), T)
        });
        assert_eq!(found, Ok(None));
        let (found, calls) = told([Reply::of(VertexAnswer::default())], || {
            view().get_vertex(&outline(), 9)
        });
        assert_eq!(found, Ok(None));
        assert_eq!(calls[0].lent("view"), Lent::View(view().into()));
        assert_eq!(calls[0].lent("index"), Lent::Count(9));
    }

    #[test]
    fn a_vertex_is_some() {
        let answer = VertexAnswer {
            found: 1,
            vertex: Vertex::new(1.0, 2.0, 3.0),
            ..VertexAnswer::default()
        };
        let (found, _) = told([Reply::of(answer)], || view().get_vertex(&outline(), 0));
        assert_eq!(found, Ok(Some(answer.vertex)));
    }

    #[test]
    fn all_vertices_come_of_one_call_and_from_both_ends() {
        let written = vec![
            1.0, 2.0, 3.0, 4.0, 5.0, 6.0, 7.0, 8.0, 9.0, 10.0, 11.0, 12.0,
        ];
        let answer = CountAnswer {
            refusal: 0,
            count: 4,
        };
        let (found, calls) = told([Reply::writing(answer, vec![], vec![written])], || {
            view().vertices(&outline())
        });
        let mut vertices = found.unwrap();
        assert_eq!(calls[0].entry, "view_vertices");
        assert_eq!(calls[0].lent("vc"), Lent::Count(2));
        assert_eq!(calls[0].lent("view"), Lent::View(view().into()));
        assert_eq!(calls[0].lent("vertices"), Lent::Room(3 * 4));
        assert_eq!(vertices.len(), 4);
        assert_eq!(vertices.next(), Some(Vertex::new(1.0, 2.0, 3.0)));
        assert_eq!(vertices.next_back(), Some(Vertex::new(10.0, 11.0, 12.0)));
        let left = [Vertex::new(4.0, 5.0, 6.0), Vertex::new(7.0, 8.0, 9.0)];
        assert_eq!(vertices.as_slice(), left);
        assert!(vertices.by_ref().eq(left));
        assert_eq!((vertices.next(), vertices.next_back()), (None, None));
        assert_eq!(vertices.len(), 0);
    }

    #[test]
    fn no_more_room_than_the_most_vertices() {
        let far = View {
            end_index_offset: usize::MAX,
            ..view()
        };
        let answer = CountAnswer {
            refusal: 7,
            count: 0,
        };
        let (found, calls) = told([Reply::of(answer)], || far.vertices(&outline()));
        assert_eq!(found.err(), Some(Refusal::Count));
        assert_eq!(calls[0].lent("vertices"), Lent::Room(3 * 1026));
    }

    #[test]
    fn closed_is_a_code() {
        for (closed, code) in [(true, 1), (false, 0)] {
            let (_, calls) = told([Reply::of(ViewAnswer::default())], || {
                View::from_entire_pline(&outline(), closed)
            });
            assert_eq!(calls[0].lent("closed"), Lent::Code(code));
        }
    }

    #[test]
    fn refusals_come_through() {
        for number in 1..=14 {
            let refusal = Refusal::from_number(number).unwrap();
            let refused = ViewAnswer {
                refusal: number,
                ..ViewAnswer::default()
            };
            let (found, _) = told([Reply::of(refused)], || {
                View::from_entire_pline(&outline(), true)
            });
            assert_eq!(found, Err(refusal));
            let refused = VerdictAnswer {
                refusal: number,
                ..VerdictAnswer::default()
            };
            let (found, _) = told([Reply::of(refused)], || {
                view().validate_for_source(&outline(), OnSegment::default())
            });
            assert_eq!(found, Err(refusal));
        }
    }

    /// An answer in which every field differs.
    fn verdict(number: u32) -> VerdictAnswer {
        VerdictAnswer {
            refusal: 0,
            verdict: number,
            offset: 1,
            source_length: 2,
            point: Point::new(3.0, 4.0),
            vertex: Vertex::new(5.0, 6.0, 7.0),
            updated_bulge: 8.0,
            expected: 9.0,
        }
    }

    #[test]
    fn a_verdict_carries_what_it_is_about() {
        let at = Point::new(3.0, 4.0);
        let expected = [
            Verdict::SourceHasNoSegments,
            Verdict::OffsetOutOfRange {
                offset: 1,
                source_length: 2,
            },
            Verdict::UpdatedStartNotOnSegment { start_point: at },
            Verdict::EndPointNotOnSegment { end_point: at },
            Verdict::EndPointOnFinalOffsetVertex {
                end_point: at,
                final_offset_vertex: Vertex::new(5.0, 6.0, 7.0),
            },
            Verdict::UpdatedBulgeDoesNotMatch {
                updated_bulge: 8.0,
                expected: 9.0,
            },
            Verdict::IsValid,
        ];
        for (number, expected) in (1..).zip(expected) {
            let on_segment = OnSegment {
                start: number % 2 == 0,
                end: number % 2 == 1,
            };
            let (found, calls) = told([Reply::of(verdict(number))], || {
                view().validate_for_source(&outline(), on_segment)
            });
            assert_eq!(found, Ok(expected));
            let code = |yes| Lent::Code(u32::from(yes));
            assert_eq!(calls[0].lent("start_on_segment"), code(on_segment.start));
            assert_eq!(calls[0].lent("end_on_segment"), code(on_segment.end));

            let reply = Reply::of(reopened(number, 70 + number));
            let mut again = view();
            let (found, calls) = told([reply], || again.reopen(&outline(), on_segment));
            assert_eq!(found, Ok(expected));
            let edition = 70 + number;
            assert_eq!(again, View { edition, ..view() });
            assert_eq!(calls[0].lent("start_on_segment"), code(on_segment.start));
            assert_eq!(calls[0].lent("end_on_segment"), code(on_segment.end));
        }
    }

    /// The same as of a view that is reopened.
    fn reopened(number: u32, edition: u32) -> ReopenAnswer {
        let told = verdict(number);
        ReopenAnswer {
            refusal: 0,
            verdict: told.verdict,
            offset: told.offset,
            source_length: told.source_length,
            point: told.point,
            vertex: told.vertex,
            updated_bulge: told.updated_bulge,
            expected: told.expected,
            edition,
        }
    }

    #[test]
    fn the_editions_of_the_outline_and_of_the_view_are_lent() {
        let on = OnSegment::default();
        for (edition, own) in [(0, 0), (0, u32::MAX), (u32::MAX, 0), (5, 6)] {
            let source = outline().with_edition(edition);
            let mut view = View {
                edition: own,
                ..view()
            };
            let replies = [Reply::of(verdict(7)), Reply::of(reopened(7, edition))];
            let (_, calls) = told(replies, || {
                let verdict = view.validate_for_source(&source, on);
                verdict.and_then(|_| view.reopen(&source, on))
            });
            for (call, entry) in calls.iter().zip(["validate_for_source", "reopen"]) {
                assert_eq!(call.entry, entry);
                assert_eq!(call.lent("vc"), Lent::Count(2));
                assert_eq!(call.lent("edition"), Lent::Code(edition));
                assert_eq!(call.lent("view_edition"), Lent::Code(own));
            }
            assert_eq!(view.edition, edition);
        }
    }

    #[test]
    fn a_view_that_is_refused_keeps_its_edition() {
        let refused = ReopenAnswer {
            refusal: 6,
            ..ReopenAnswer::default()
        };
        let mut again = view();
        let (found, _) = told([Reply::of(refused)], || {
            again.reopen(&outline(), OnSegment::default())
        });
        assert_eq!((found, again), (Err(Refusal::Index), view()));
    }

    #[test]
    fn views_have_the_edition_of_their_outline() {
        let answer = ViewAnswer {
            found: 1,
            view: view().into(),
            ..ViewAnswer::default()
        };
        for edition in [0, 1, u32::MAX] {
            let source = outline().with_edition(edition);
            let end = Point::default();
            let replies = [answer; 3].map(Reply::of);
            let (made, _) = told(replies, || {
                let walked = View::create(&source, &Walk::default(), T);
                let on_one = View::create_on_single_segment(&source, 0, Vertex::default(), end, T);
                let whole = View::from_entire_pline(&source, true);
                [walked, on_one.map(Option::unwrap), whole]
            });
            assert_eq!(made, [Ok(View { edition, ..view() }); 3]);
        }
    }

    #[test]
    fn unmoved_lends_both_outlines() {
        let moved = |refusal, unmoved, first| {
            Reply::of(UnmovedAnswer {
                refusal,
                unmoved,
                first,
            })
        };
        let new = Outline::straight(&[(0.0, 0.0), (1.0, 0.0), (1.0, 1.0)]);
        let replies = [
            moved(0, 1, 0),
            moved(0, 0, 2),
            moved(0, 0, 2),
            moved(7, 0, 0),
        ];
        let (found, calls) = told(replies, || {
            let old = outline();
            assert_eq!(view().first_moved(&old, &new), Ok(None));
            assert_eq!(view().first_moved(&old, &new), Ok(Some(2)));
            assert_eq!(view().unmoved(&old, &new), Ok(false));
            view().unmoved(&old, &new)
        });
        assert_eq!(found, Err(Refusal::Count));
        let call = &calls[0];
        assert_eq!(call.entry, "unmoved");
        assert_eq!(call.lent("vc1"), Lent::Count(2));
        assert_eq!(call.lent("vc2"), Lent::Count(3));
        let numbers = vec![1.0, 2.0, 0.5, 3.0, 4.0, 0.0];
        assert_eq!(call.lent("outline1"), Lent::Numbers(numbers));
        let numbers = vec![0.0, 0.0, 0.0, 1.0, 0.0, 0.0, 1.0, 1.0, 0.0];
        assert_eq!(call.lent("outline2"), Lent::Numbers(numbers));
        assert_eq!(call.lent("view"), Lent::View(view().into()));
    }

    #[test]
    #[should_panic(expected = "not the one of this wrapper")]
    fn an_unknown_verdict_is_another_archive() {
        verdict_of(&verdict(8));
    }

    #[test]
    fn the_vertex_count_does_not_overflow() {
        let far = View {
            end_index_offset: usize::MAX,
            ..view()
        };
        assert_eq!((view().vertex_count(), far.vertex_count()), (4, usize::MAX));
    }
}
