//! What the host answers, and a ready host for straight outlines.

use crate::{CutSplit, Cuts, Outline, Point, Probe, Refusal, Source, Split, Splits, Vertex};

/// What needs roots or angles is the host's: it splits segments, says what lies inside, and
/// measures areas.
///
/// The numbers that it answers must be finite and of magnitude at most 2^30 (areas: finite), else
/// the call that takes them is refused with [`Refusal::Number`].
pub trait Host {
    /// Splits the segment from `from`, with its bulge, to `to` at the point `at`, which lies on it
    /// within the tolerance. In cavalier_contours this is `seg_split_at_point`.
    fn split(&mut self, from: Vertex, to: Vertex, at: Point) -> Split;

    /// Whether the middle of `probe` lies inside `outline`, which is outline `source` of the two. In
    /// cavalier_contours: whether its winding number about `seg_midpoint` is not 0.
    fn inside(&mut self, source: Source, outline: &Outline, probe: Probe) -> bool;

    /// The signed area of a closed loop: positive where it runs anticlockwise.
    fn area(&mut self, vertices: &[Vertex]) -> f64;

    /// Whether the two outlines run in opposing directions. It goes by the signs of their areas
    /// where the host knows nothing quicker.
    fn opposing_directions(&mut self, pline1: &Outline, pline2: &Outline) -> bool {
        let clockwise1 = self.area(pline1.vertices()) < 0.0;
        let clockwise2 = self.area(pline2.vertices()) < 0.0;
        clockwise1 != clockwise2
    }
}

/// Asks the host for its split at each cut of an outline.
///
/// The running vertex is the segment's start at the segment's first cut. After a cut it is that
/// cut's split vertex. At a segment's last cut the whole segment is split too; where that is also
/// its first cut, the two splits are one, and the host is asked once.
///
/// It refuses with [`Refusal::Index`] where a cut is on a segment that the outline has not.
pub fn split_cuts<H: Host + ?Sized>(
    outline: &Outline,
    cuts: &Cuts,
    host: &mut H,
) -> Result<Splits, Refusal> {
    let segment_of = |number: usize| cuts.get(number).map(|cut| cut.segment);
    let mut splits = Splits::new();
    let mut running = Vertex::default();
    for (number, cut) in cuts.iter().enumerate() {
        let (start, end) = outline.segment(cut.segment).ok_or(Refusal::Index)?;
        let is_first = number == 0 || segment_of(number - 1) != Some(cut.segment);
        let is_last = segment_of(number + 1) != Some(cut.segment);

        let from = if is_first { start } else { running };
        let split = host.split(from, end, cut.point);
        running = split.split_vertex;
        let split_vertex_of_segment = match (is_last, is_first) {
            (false, _) => Vertex::default(),
            (true, true) => split.split_vertex,
            (true, false) => host.split(start, end, cut.point).split_vertex,
        };
        splits.push(CutSplit {
            split,
            split_vertex_of_segment,
        });
    }
    Ok(splits)
}

/// A host for straight outlines. It takes every segment as straight, so ask
/// [`Outline::is_straight`] first where arcs may come in.
///
/// ```
/// use mask_tools::{Host, Outline, Probe, Source, StraightHost, Vertex};
///
/// let square = Outline::straight(&[(0.0, 0.0), (4.0, 0.0), (4.0, 4.0), (0.0, 4.0)]);
/// let across = Probe {
///     start: Vertex::new(-2.0, 1.0, 0.0),
///     end: Vertex::new(6.0, 1.0, 0.0),
/// };
/// assert!(StraightHost.inside(Source::Pline1, &square, across));
/// assert_eq!(StraightHost.area(square.vertices()), 16.0);
/// ```
#[derive(Debug, Clone, Copy, PartialEq, Eq, Default)]
pub struct StraightHost;

impl Host for StraightHost {
    fn split(&mut self, from: Vertex, _to: Vertex, at: Point) -> Split {
        Split {
            updated_start: from,
            split_vertex: Vertex::new(at.x, at.y, 0.0),
        }
    }

    fn inside(&mut self, _source: Source, outline: &Outline, probe: Probe) -> bool {
        winding_number(outline.vertices(), probe.chord_midpoint()) != 0
    }

    fn area(&mut self, vertices: &[Vertex]) -> f64 {
        let doubled: f64 = segments(vertices)
            .map(|(v1, v2)| v1.x * v2.y - v1.y * v2.x)
            .sum();
        doubled / 2.0
    }
}

/// How often the straight outline runs round the point, anticlockwise positive.
fn winding_number(vertices: &[Vertex], point: Point) -> i32 {
    segments(vertices)
        .map(|(v1, v2)| {
            if v1.y <= point.y && point.y < v2.y && is_left(v1, v2, point) {
                1
            } else if v2.y <= point.y && point.y < v1.y && !is_left(v1, v2, point) {
                -1
            } else {
                0
            }
        })
        .sum()
}

/// Whether the point lies left of the line from `v1` to `v2`.
fn is_left(v1: Vertex, v2: Vertex, point: Point) -> bool {
    (v2.x - v1.x) * (point.y - v1.y) - (v2.y - v1.y) * (point.x - v1.x) > 0.0
}

/// The segments of a closed loop.
fn segments(vertices: &[Vertex]) -> impl Iterator<Item = (Vertex, Vertex)> + '_ {
    let ends = vertices.iter().skip(1).chain(vertices.first());
    vertices.iter().copied().zip(ends.copied())
}

#[cfg(test)]
mod tests {
    use super::*;
    use crate::Cut;

    /// A host that writes down what it is asked to split, and marks each answer with its number.
    #[derive(Default)]
    struct Asked(Vec<(Vertex, Vertex, Point)>);

    impl Host for Asked {
        fn split(&mut self, from: Vertex, to: Vertex, at: Point) -> Split {
            self.0.push((from, to, at));
            answer(self.0.len() as f64)
        }

        fn inside(&mut self, _: Source, _: &Outline, _: Probe) -> bool {
            unreachable!("no probe is tested here")
        }

        fn area(&mut self, vertices: &[Vertex]) -> f64 {
            vertices[0].x
        }
    }

    /// What `Asked` says when it is asked for the time of this number.
    fn answer(number: f64) -> Split {
        Split {
            updated_start: Vertex::new(number, 10.0, 0.5),
            split_vertex: Vertex::new(number, 20.0, 0.25),
        }
    }

    fn cut(segment: usize, x: f64) -> Cut {
        Cut {
            segment,
            point: Point::new(x, 7.0),
            ..Cut::default()
        }
    }

    fn triangle() -> Outline {
        Outline::straight(&[(0.0, 0.0), (4.0, 0.0), (0.0, 3.0)])
    }

    #[test]
    fn the_running_vertex_is_the_split_vertex_of_the_cut_before() {
        let cuts = Cuts::from([cut(0, 1.0), cut(2, 2.0), cut(2, 3.0), cut(2, 4.0)]);
        let (outline, mut host) = (triangle(), Asked::default());
        let splits = split_cuts(&outline, &cuts, &mut host).unwrap();
        let v = outline.vertices();
        let expected = [
            (v[0], v[1], cuts.get(0).unwrap().point),
            (v[2], v[0], cuts.get(1).unwrap().point),
            (answer(2.0).split_vertex, v[0], cuts.get(2).unwrap().point),
            (answer(3.0).split_vertex, v[0], cuts.get(3).unwrap().point),
            (v[2], v[0], cuts.get(3).unwrap().point),
        ];
        assert_eq!(host.0, expected);

        let split = |number, of_segment| CutSplit {
            split: answer(number),
            split_vertex_of_segment: of_segment,
        };
        let expected = Splits::from([
            split(1.0, answer(1.0).split_vertex),
            split(2.0, Vertex::default()),
            split(3.0, Vertex::default()),
            split(4.0, answer(5.0).split_vertex),
        ]);
        assert_eq!(splits, expected);
    }

    #[test]
    fn no_cuts_no_splits() {
        let mut host = Asked::default();
        let splits = split_cuts(&triangle(), &Cuts::new(), &mut host);
        assert_eq!(splits, Ok(Splits::new()));
        assert!(host.0.is_empty());
    }

    #[test]
    fn a_cut_of_another_outline_is_refused() {
        for segment in [3, usize::MAX] {
            let cuts = Cuts::from([cut(0, 1.0), cut(segment, 1.0)]);
            let splits = split_cuts(&triangle(), &cuts, &mut Asked::default());
            assert_eq!(splits, Err(Refusal::Index));
        }
    }

    #[test]
    fn directions_go_by_the_signs_of_the_areas() {
        let of_area = |area| Outline::straight(&[(area, 0.0)]);
        let opposing = |a, b| Asked::default().opposing_directions(&of_area(a), &of_area(b));
        assert!(opposing(-1.0, 1.0) && opposing(2.0, -3.0) && opposing(0.0, -3.0));
        assert!(!opposing(1.0, 2.0) && !opposing(-1.0, -2.0) && !opposing(0.0, 1.0));
    }

    #[test]
    fn a_straight_split_is_the_point() {
        let (from, to) = (Vertex::new(1.0, 2.0, 0.0), Vertex::new(5.0, 2.0, 0.0));
        let split = StraightHost.split(from, to, Point::new(3.0, 2.0));
        assert_eq!(split.updated_start, from);
        assert_eq!(split.split_vertex, Vertex::new(3.0, 2.0, 0.0));
    }

    fn is_inside(outline: &Outline, x: f64, y: f64) -> bool {
        let at = Vertex::new(x, y, 0.0);
        StraightHost.inside(Source::Pline2, outline, Probe { start: at, end: at })
    }

    #[test]
    fn inside_a_straight_outline() {
        let t = triangle();
        let back: Outline = t.vertices().iter().rev().copied().collect();
        for outline in [t, back] {
            assert!(is_inside(&outline, 1.0, 1.0));
            assert!(!is_inside(&outline, 3.0, 1.0));
            assert!(!is_inside(&outline, -1.0, 1.0));
            assert!(!is_inside(&outline, 1.0, -1.0));
        }
        assert!(!is_inside(&Outline::default(), 0.0, 0.0));
    }

    #[test]
    fn the_area_of_a_straight_loop() {
        assert_eq!(StraightHost.area(triangle().vertices()), 6.0);
        let back: Vec<Vertex> = triangle().vertices().iter().rev().copied().collect();
        assert_eq!(StraightHost.area(&back), -6.0);
        assert_eq!(StraightHost.area(&[]), 0.0);
    }
}
