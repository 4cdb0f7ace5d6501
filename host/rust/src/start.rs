//! Views that start anywhere: between two points of an outline, and from a new start.

use crate::ffi;
use crate::view::of_edition;
use crate::{Host, Outline, Point, Refusal, Split, Tolerance, Vertex, View};

/// A point of an outline, and the segment that it is on.
///
/// An open outline has a segment at its last index too: it runs back to vertex 0.
#[derive(Debug, Clone, Copy, PartialEq, Default)]
pub struct Place {
    /// The segment.
    pub index: usize,
    /// The point.
    pub point: Point,
}

impl Place {
    /// The point on this segment.
    pub const fn new(index: usize, point: Point) -> Self {
        Place { index, point }
    }
}

/// Where the view between two points starts, and how far it goes: what a host has to split.
#[derive(Debug, Clone, Copy, PartialEq, Eq, Default)]
pub struct Span {
    /// The start stood on the end of its segment, and moved on to the next one.
    pub moved: bool,
    /// The segment of the start, after it moved.
    pub start_index: usize,
    /// How many segments further the end is: 0 to the vertex count.
    pub traverse_count: usize,
}

/// The span of two points of an outline.
///
/// Refusals: `Outline`, `Tolerance`, `Number`, `Index`, `Backward`.
pub fn slice_span(
    source: &Outline,
    closed: bool,
    start: Place,
    end: Place,
    tolerance: Tolerance,
) -> Result<Span, Refusal> {
    let answer = ffi::slice_span(
        source.numbers(),
        source.vertex_count(),
        u32::from(closed),
        start.index,
        start.point,
        end.index,
        end.point,
        tolerance.x,
        tolerance.y,
    );
    let span = Span {
        moved: answer.moved != 0,
        start_index: answer.start_index,
        traverse_count: answer.traverse_count,
    };
    Refusal::check(answer.refusal, span)
}

impl View {
    /// The view from one point of an outline to another. There is none where nothing lies between
    /// them: its start agrees with the end point, and the traverse count is 0, or it is 1 and the end
    /// point agrees with the first vertex of its segment.
    ///
    /// On a closed outline it runs forward, past vertex 0 too. On one segment it stays there where the
    /// start is nearer to the segment's first vertex than the end, and else goes all the way round. On
    /// an open outline the end's index is not below the start's.
    ///
    /// Refusals: `Outline`, `Tolerance`, `Number`, `Index`, `Backward`.
    ///
    /// ```
    /// use mask_tools::{Outline, Place, Point, StraightHost, Tolerance, View};
    ///
    /// # fn main() -> Result<(), mask_tools::Refusal> {
    /// let square = Outline::straight(&[(0.0, 0.0), (5.0, 0.0), (5.0, 5.0), (0.0, 5.0)]);
    /// let start = Place::new(0, Point::new(2.5, 0.0));
    /// let end = Place::new(2, Point::new(2.5, 5.0));
    /// let tolerance = Tolerance::new(1e-5);
    ///
    /// let right = View::from_slice_points(&square, true, start, end, tolerance, &mut StraightHost)?
    ///     .expect("the points do not agree");
    /// assert_eq!(right.vertex_count(), 4);
    /// let left = View::from_slice_points(&square, true, end, start, tolerance, &mut StraightHost)?
    ///     .expect("the points do not agree");
    /// assert_eq!(left.start_index, 2);
    /// # Ok(())
    /// # }
    /// ```
    pub fn from_slice_points<H: Host + ?Sized>(
        source: &Outline,
        closed: bool,
        start: Place,
        end: Place,
        tolerance: Tolerance,
        host: &mut H,
    ) -> Result<Option<View>, Refusal> {
        let span = slice_span(source, closed, start, end, tolerance)?;
        let [start_split, end_split] = splits(source, &span, start, end, host)?;
        let answer = ffi::from_slice_points(
            source.numbers(),
            source.vertex_count(),
            u32::from(closed),
            start.index,
            start.point,
            end.index,
            end.point,
            tolerance.x,
            tolerance.y,
            start_split,
            end_split,
        );
        found(&answer, source)
    }

    /// The view that starts an outline at a point of it. A closed outline is followed once round, back
    /// to the point. An open one is followed to its last vertex, and there is no view where the point
    /// is that vertex.
    ///
    /// Refusals: `Outline`, `Tolerance`, `Number`, `Index`.
    ///
    /// ```
    /// use mask_tools::{Outline, Place, Point, StraightHost, Tolerance, View};
    ///
    /// # fn main() -> Result<(), mask_tools::Refusal> {
    /// let square = Outline::straight(&[(0.0, 0.0), (4.0, 0.0), (4.0, 4.0), (0.0, 4.0)]);
    /// let corner = Place::new(1, Point::new(4.0, 0.0));
    /// let tolerance = Tolerance::new(1e-5);
    /// let round = View::from_new_start(&square, true, corner, tolerance, &mut StraightHost)?
    ///     .expect("a closed outline always has one");
    /// assert_eq!((round.start_index, round.vertex_count()), (1, 5));
    /// # Ok(())
    /// # }
    /// ```
    pub fn from_new_start<H: Host + ?Sized>(
        source: &Outline,
        closed: bool,
        start: Place,
        tolerance: Tolerance,
        host: &mut H,
    ) -> Result<Option<View>, Refusal> {
        let end = if closed { start } else { last_place(source) };
        // An open outline's end is at the last index, so a start past it is refused as an index.
        let span = slice_span(source, closed, start, end, tolerance)?;
        let [start_split, end_split] = if closed {
            [split_start(source, &span, start, host)?, Split::default()]
        } else {
            splits(source, &span, start, end, host)?
        };
        let answer = ffi::from_new_start(
            source.numbers(),
            source.vertex_count(),
            u32::from(closed),
            start.index,
            start.point,
            tolerance.x,
            tolerance.y,
            start_split,
            end_split,
        );
        found(&answer, source)
    }
}

/// An outline's last vertex, on the last segment.
fn last_place(source: &Outline) -> Place {
    let last = source.vertices().last().copied().unwrap_or_default();
    Place::new(source.vertex_count().saturating_sub(1), last.pos())
}

fn found(answer: &ffi::ViewAnswer, source: &Outline) -> Result<Option<View>, Refusal> {
    let view = (answer.found != 0).then(|| of_edition(answer.view, source));
    Refusal::check(answer.refusal, view)
}

/// The host's split of the span's first segment at the start point.
fn split_start<H: Host + ?Sized>(
    source: &Outline,
    span: &Span,
    start: Place,
    host: &mut H,
) -> Result<Split, Refusal> {
    let (from, to) = source.segment(span.start_index).ok_or(Refusal::Index)?;
    Ok(host.split(from, to, start.point))
}

/// The host's splits at both points. A start that moved is not split, and its split is not used.
fn splits<H: Host + ?Sized>(
    source: &Outline,
    span: &Span,
    start: Place,
    end: Place,
    host: &mut H,
) -> Result<[Split; 2], Refusal> {
    let start_split = match span.moved {
        true => Split::default(),
        false => split_start(source, span, start, host)?,
    };
    let index = match span.traverse_count {
        0 => span.start_index,
        _ => end.index,
    };
    let (first, to) = source.segment(index).ok_or(Refusal::Index)?;
    let on_one_segment = span.traverse_count == 0 && !span.moved;
    let from: Vertex = if on_one_segment {
        start_split.split_vertex
    } else {
        first
    };
    Ok([start_split, host.split(from, to, end.point)])
}

#[cfg(test)]
mod tests {
    use super::*;
    use crate::ffi::standin::{told, Call, Lent, Reply};
    use crate::ffi::{SpanAnswer, ViewAnswer};
    use crate::{Probe, Source};

    const T: Tolerance = Tolerance { x: 0.25, y: 0.125 };

    /// A host that writes down what it is asked to split, and marks each answer with its number.
    #[derive(Default)]
    struct Asked(Vec<(Vertex, Vertex, Point)>);

    impl Host for Asked {
        fn split(&mut self, from: Vertex, to: Vertex, at: Point) -> Split {
            self.0.push((from, to, at));
            answer(self.0.len() as f64)
        }

        fn inside(&mut self, _: Source, _: &Outline, _: Probe) -> bool {
            unreachable!("no probe is tested here")
        }

        fn area(&mut self, _: &[Vertex]) -> f64 {
            unreachable!("no area is measured here")
        }
    }

    /// What `Asked` says when it is asked for the time of this number.
    fn answer(number: f64) -> Split {
        Split {
            updated_start: Vertex::new(number, 10.0, 0.5),
            split_vertex: Vertex::new(number, 20.0, 0.25),
        }
    }

    fn triangle() -> Outline {
        Outline::straight(&[(0.0, 0.0), (4.0, 0.0), (0.0, 3.0)])
    }

    fn place(index: usize, x: f64) -> Place {
        Place::new(index, Point::new(x, 7.0))
    }

    fn span(moved: u32, start_index: usize, traverse_count: usize) -> Reply {
        Reply::of(SpanAnswer {
            refusal: 0,
            moved,
            start_index,
            traverse_count,
        })
    }

    /// A slice from segment 0 to segment 2 of an open triangle, with this span: what was asked, the
    /// calls made.
    fn slice(span: Reply) -> (Asked, Vec<Call>) {
        let mut host = Asked::default();
        let (start, end) = (place(0, 1.0), place(2, 2.0));
        let (found, calls) = told([span, Reply::of(ViewAnswer::default())], || {
            View::from_slice_points(&triangle(), false, start, end, T, &mut host)
        });
        assert_eq!(found, Ok(None));
        (host, calls)
    }

    #[test]
    fn a_span_is_asked_with_both_places() {
        let (found, calls) = told([span(1, 2, 3)], || {
            slice_span(&triangle(), true, place(1, 5.0), place(2, 6.0), T)
        });
        let expected = Span {
            moved: true,
            start_index: 2,
            traverse_count: 3,
        };
        assert_eq!(found, Ok(expected));
        let call = &calls[0];
        assert_eq!(call.entry, "slice_span");
        assert_eq!(call.lent("vc"), Lent::Count(3));
        assert_eq!(call.lent("closed"), Lent::Code(1));
        assert_eq!(call.lent("start_index"), Lent::Count(1));
        assert_eq!(call.lent("start_point"), Lent::Point(Point::new(5.0, 7.0)));
        assert_eq!(call.lent("end_index"), Lent::Count(2));
        assert_eq!(call.lent("end_point"), Lent::Point(Point::new(6.0, 7.0)));
        assert_eq!(call.lent("tolerance_x"), Lent::Number(0.25));
        assert_eq!(call.lent("tolerance_y"), Lent::Number(0.125));
    }

    #[test]
    fn a_walk_splits_both_segments() {
        let (host, calls) = slice(span(0, 0, 2));
        let outline = triangle();
        let v = outline.vertices();
        let expected = [
            (v[0], v[1], place(0, 1.0).point),
            (v[2], v[0], place(2, 2.0).point),
        ];
        assert_eq!(host.0, expected);
        let call = &calls[1];
        assert_eq!(call.entry, "from_slice_points");
        assert_eq!(call.lent("closed"), Lent::Code(0));
        assert_eq!(call.lent("start_index"), Lent::Count(0));
        assert_eq!(call.lent("end_index"), Lent::Count(2));
        assert_eq!(call.lent("start_split"), Lent::Split(answer(1.0)));
        assert_eq!(call.lent("end_split"), Lent::Split(answer(2.0)));
    }

    #[test]
    fn on_one_segment_the_end_splits_what_the_start_left() {
        let (host, calls) = slice(span(0, 2, 0));
        let outline = triangle();
        let v = outline.vertices();
        let expected = [
            (v[2], v[0], place(0, 1.0).point),
            (answer(1.0).split_vertex, v[0], place(2, 2.0).point),
        ];
        assert_eq!(host.0, expected);
        assert_eq!(calls[1].lent("end_split"), Lent::Split(answer(2.0)));
    }

    #[test]
    fn a_start_that_moved_is_not_split() {
        let outline = triangle();
        let v = outline.vertices();
        for (traverse_count, first) in [(0, v[1]), (1, v[2])] {
            let (host, calls) = slice(span(1, 1, traverse_count));
            let to = if traverse_count == 0 { v[2] } else { v[0] };
            assert_eq!(host.0, [(first, to, place(2, 2.0).point)]);
            assert_eq!(calls[1].lent("start_split"), Lent::Split(Split::default()));
            assert_eq!(calls[1].lent("end_split"), Lent::Split(answer(1.0)));
        }
    }

    #[test]
    fn a_closed_outline_is_split_once_for_a_new_start() {
        let mut host = Asked::default();
        let made = ViewAnswer {
            found: 1,
            ..ViewAnswer::default()
        };
        let start = place(1, 3.0);
        let (found, calls) = told([span(1, 2, 2), Reply::of(made)], || {
            View::from_new_start(&triangle(), true, start, T, &mut host)
        });
        assert_eq!(found, Ok(Some(View::default())));
        let outline = triangle();
        let v = outline.vertices();
        assert_eq!(host.0, [(v[2], v[0], start.point)]);
        assert_eq!(calls[0].lent("end_index"), Lent::Count(1));
        assert_eq!(calls[0].lent("end_point"), Lent::Point(start.point));
        assert_eq!(calls[1].entry, "from_new_start");
        assert_eq!(calls[1].lent("start_split"), Lent::Split(answer(1.0)));
        assert_eq!(calls[1].lent("end_split"), Lent::Split(Split::default()));
    }

    #[test]
    fn an_open_outline_is_followed_to_its_last_vertex() {
        let mut host = Asked::default();
        let (found, calls) = told([span(0, 0, 2), Reply::of(ViewAnswer::default())], || {
            View::from_new_start(&triangle(), false, place(0, 1.0), T, &mut host)
        });
        assert_eq!(found, Ok(None));
        assert_eq!(calls[0].lent("end_index"), Lent::Count(2));
        assert_eq!(
            calls[0].lent("end_point"),
            Lent::Point(Point::new(0.0, 3.0))
        );
        assert_eq!(host.0.len(), 2);
        assert_eq!(calls[1].lent("end_split"), Lent::Split(answer(2.0)));
    }

    #[test]
    fn refusals_come_through_and_the_host_is_not_asked() {
        for number in 1..=16 {
            let refusal = Refusal::from_number(number).unwrap();
            let refused = SpanAnswer {
                refusal: number,
                ..SpanAnswer::default()
            };
            let mut host = Asked::default();
            let (found, calls) = told([Reply::of(refused)], || {
                let (start, end) = (place(0, 1.0), place(2, 2.0));
                View::from_slice_points(&triangle(), false, start, end, T, &mut host)
            });
            assert_eq!((found, calls.len()), (Err(refusal), 1));
            assert!(host.0.is_empty());
        }
        let refused = ViewAnswer {
            refusal: 5,
            ..ViewAnswer::default()
        };
        let (found, _) = told([span(0, 0, 2), Reply::of(refused)], || {
            View::from_new_start(&triangle(), false, place(0, 1.0), T, &mut Asked::default())
        });
        assert_eq!(found, Err(Refusal::Number));
    }
}
