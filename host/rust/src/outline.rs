//! Points, vertices and outlines.

use crate::ffi;
use crate::straight::is_whole;
use crate::{Point, Vertex};

impl Point {
    /// The point at this position.
    pub const fn new(x: f64, y: f64) -> Self {
        Point { x, y }
    }
}

impl Vertex {
    /// The vertex at this position with this bulge.
    pub const fn new(x: f64, y: f64, bulge: f64) -> Self {
        Vertex { x, y, bulge }
    }

    /// Where it lies.
    pub const fn pos(self) -> Point {
        Point::new(self.x, self.y)
    }
}

/// Which of the two outlines.
#[derive(Debug, Clone, Copy, PartialEq, Eq, Hash)]
pub enum Source {
    /// The first one.
    Pline1,
    /// The second one.
    Pline2,
}

impl Source {
    /// The other outline.
    pub const fn other(self) -> Source {
        match self {
            Source::Pline1 => Source::Pline2,
            Source::Pline2 => Source::Pline1,
        }
    }

    pub(crate) const fn code(self) -> u32 {
        match self {
            Source::Pline1 => 1,
            Source::Pline2 => 2,
        }
    }
}

/// How near two points lie that count as one: closer than this on each axis.
///
/// Both numbers are above 0 and at most 1; else the library refuses with
/// [`Tolerance`](crate::Refusal).
///
/// ```
/// use mask_tools::Tolerance;
///
/// // Encoders that are finer in elevation.
/// let finer = Tolerance { x: 1.0 / 1024.0, y: 1.0 / 4096.0 };
/// assert_ne!(finer, Tolerance::new(1.0 / 1024.0));
/// assert_eq!(Tolerance::new(0.5), Tolerance { x: 0.5, y: 0.5 });
/// ```
#[derive(Debug, Clone, Copy, PartialEq)]
pub struct Tolerance {
    /// Of x: azimuth, or what the host takes for it.
    pub x: f64,
    /// Of y: elevation, or what the host takes for it.
    pub y: f64,
}

impl Tolerance {
    /// The same tolerance on both axes.
    pub const fn new(tolerance: f64) -> Self {
        Tolerance {
            x: tolerance,
            y: tolerance,
        }
    }
}

/// An outline: the vertices of a mask, in order, and its edition. The last vertex is followed by the
/// first.
///
/// The library takes outlines of 2 to 1,024 vertices, with numbers of magnitude at most 2^30.
///
/// The edition tells an outline from what it was before. What is cut from an outline keeps its edition,
/// and is not joined to parts of another one: [`Refusal::Edition`](crate::Refusal). So a changed
/// outline must have another edition, and [`replaced_by`](Outline::replaced_by) gives it the next. An
/// outline that is new has edition 0 until [`with_edition`](Outline::with_edition) gives it another.
///
/// ```
/// use mask_tools::{Outline, Vertex};
///
/// let square = Outline::straight(&[(0.0, 0.0), (4.0, 0.0), (4.0, 4.0), (0.0, 4.0)]);
/// assert_eq!(square.vertex_count(), 4);
/// assert_eq!(square.vertices()[2], Vertex::new(4.0, 4.0, 0.0));
///
/// // A circle: two arcs of bulge 1, each half of it.
/// let circle: Outline = [Vertex::new(0.0, 0.0, 1.0), Vertex::new(2.0, 0.0, 1.0)].into();
/// assert!(!circle.is_straight());
///
/// // A late packet: the first corner has moved.
/// let mut corners = square.vertices().to_vec();
/// corners[0] = Vertex::new(1.0, 1.0, 0.0);
/// let late = square.replaced_by(corners);
/// assert_eq!((square.edition(), late.edition()), (0, 1));
/// ```
#[derive(Debug, Clone, PartialEq, Default)]
pub struct Outline {
    vertices: Vec<Vertex>,
    edition: u32,
}

impl Outline {
    /// The outline of these vertices, of edition 0.
    pub const fn new(vertices: Vec<Vertex>) -> Self {
        Outline {
            vertices,
            edition: 0,
        }
    }

    /// The same outline as this edition.
    pub fn with_edition(self, edition: u32) -> Self {
        Outline { edition, ..self }
    }

    /// What this outline is changed to: other vertices, and the next edition. After the last edition,
    /// 2^32 - 1, comes 0.
    pub fn replaced_by(&self, vertices: Vec<Vertex>) -> Outline {
        Outline {
            vertices,
            edition: self.edition.wrapping_add(1),
        }
    }

    /// Its edition.
    pub const fn edition(&self) -> u32 {
        self.edition
    }

    /// The outline of straight segments between these positions.
    pub fn straight(positions: &[(f64, f64)]) -> Self {
        positions
            .iter()
            .map(|&(x, y)| Vertex::new(x, y, 0.0))
            .collect()
    }

    /// Its vertices.
    pub fn vertices(&self) -> &[Vertex] {
        &self.vertices
    }

    /// How many vertices it has. It has as many segments.
    pub fn vertex_count(&self) -> usize {
        self.vertices.len()
    }

    /// Whether every bulge is 0.
    pub fn is_straight(&self) -> bool {
        self.vertices.iter().all(|vertex| vertex.bulge == 0.0)
    }

    /// Whether every bulge is 0, and every coordinate is whole and of magnitude at most 400,000,000.
    ///
    /// ```
    /// use mask_tools::Outline;
    ///
    /// assert!(Outline::straight(&[(0.0, 0.0), (-4e8, 3.0)]).is_straight_and_whole());
    /// assert!(!Outline::straight(&[(0.0, 0.0), (0.5, 3.0)]).is_straight_and_whole());
    /// ```
    pub fn is_straight_and_whole(&self) -> bool {
        let is_whole = |vertex: &Vertex| is_whole(vertex.x) && is_whole(vertex.y);
        self.is_straight() && self.vertices.iter().all(is_whole)
    }

    /// The two vertices of the segment that starts at `index`; none where there is no such vertex.
    pub fn segment(&self, index: usize) -> Option<(Vertex, Vertex)> {
        let start = *self.vertices.get(index)?;
        let end = *self.vertices.get(index + 1).unwrap_or(&self.vertices[0]);
        Some((start, end))
    }

    pub(crate) fn numbers(&self) -> &[f64] {
        ffi::numbers_of(&self.vertices)
    }
}

impl From<Vec<Vertex>> for Outline {
    fn from(vertices: Vec<Vertex>) -> Self {
        Outline::new(vertices)
    }
}

impl<const N: usize> From<[Vertex; N]> for Outline {
    fn from(vertices: [Vertex; N]) -> Self {
        Outline::new(vertices.to_vec())
    }
}

impl FromIterator<Vertex> for Outline {
    fn from_iter<I: IntoIterator<Item = Vertex>>(vertices: I) -> Self {
        Outline::new(vertices.into_iter().collect())
    }
}

#[cfg(test)]
mod tests {
    use super::*;

    fn triangle() -> Outline {
        [
            Vertex::new(0.0, 0.0, 0.25),
            Vertex::new(4.0, 0.0, 0.5),
            Vertex::new(0.0, 3.0, 0.75),
        ]
        .into()
    }

    #[test]
    fn an_outline_lies_flat() {
        let flat = [0.0, 0.0, 0.25, 4.0, 0.0, 0.5, 0.0, 3.0, 0.75];
        assert_eq!(triangle().numbers(), flat);
        assert!(Outline::default().numbers().is_empty());
    }

    #[test]
    fn the_last_segment_ends_at_the_first_vertex() {
        let t = triangle();
        let v = t.vertices();
        assert_eq!(t.segment(1), Some((v[1], v[2])));
        assert_eq!(t.segment(2), Some((v[2], v[0])));
        assert_eq!(t.segment(3), None);
        assert_eq!(t.segment(usize::MAX), None);
        assert_eq!(Outline::default().segment(0), None);
    }

    #[test]
    fn a_changed_outline_has_another_edition() {
        let other = vec![Vertex::default()];
        for (before, after) in [(0, 1), (7, 8), (u32::MAX, 0)] {
            let outline = triangle().with_edition(before);
            assert_eq!((outline.edition(), outline.vertex_count()), (before, 3));
            assert_ne!(outline, triangle().with_edition(after));
            let changed = outline.replaced_by(other.clone());
            assert_eq!((changed.edition(), changed.vertices()), (after, &other[..]));
        }
        assert_eq!(triangle().edition(), 0);
    }

    #[test]
    fn sources_and_their_codes() {
        assert_eq!(Source::Pline1.other(), Source::Pline2);
        assert_eq!(Source::Pline2.other(), Source::Pline1);
        assert_eq!((Source::Pline1.code(), Source::Pline2.code()), (1, 2));
    }
}
