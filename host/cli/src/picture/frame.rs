//! From degrees to the picture: one scale on both axes, so that arcs stay arcs.

use crate::geometry::{extremes, Arc};
use crate::picture::svg::px;
use mask_tools::{Point, Vertex};

/// The largest size of a number that is drawn.
const LARGEST: f64 = 1_073_741_824.0;

/// The smallest box round what was added to it.
#[derive(Debug, Clone, Copy, PartialEq)]
pub struct Bounds {
    least: Point,
    most: Point,
}

impl Default for Bounds {
    fn default() -> Self {
        Bounds {
            least: Point::new(f64::INFINITY, f64::INFINITY),
            most: Point::new(f64::NEG_INFINITY, f64::NEG_INFINITY),
        }
    }
}

impl Bounds {
    /// Adds the segments between these vertices, and back to the first where they are closed.
    pub fn add(&mut self, vertices: &[Vertex], closed: bool) {
        for (from, to) in segments(vertices, closed) {
            for point in extremes(from, to) {
                self.add_point(point);
            }
        }
    }

    fn add_point(&mut self, point: Point) {
        self.least = Point::new(self.least.x.min(point.x), self.least.y.min(point.y));
        self.most = Point::new(self.most.x.max(point.x), self.most.y.max(point.y));
    }

    /// Its width and height; 1 where there is none.
    fn size(&self) -> (f64, f64) {
        let (width, height) = (self.most.x - self.least.x, self.most.y - self.least.y);
        if width.max(height) > 0.0 && width.is_finite() {
            (width, height)
        } else {
            (1.0, 1.0)
        }
    }
}

/// Whether a vertex can be drawn.
pub fn drawable(vertex: &Vertex) -> bool {
    [vertex.x, vertex.y, vertex.bulge]
        .iter()
        .all(|n| n.abs() <= LARGEST)
}

/// The segments between vertices, in order.
pub fn segments(vertices: &[Vertex], closed: bool) -> impl Iterator<Item = (Vertex, Point)> + '_ {
    let ends = vertices
        .iter()
        .skip(1)
        .chain(vertices.first().filter(|_| closed));
    vertices
        .iter()
        .zip(ends)
        .map(|(from, to)| (*from, to.pos()))
}

/// Where in the picture a point lies.
#[derive(Debug, Clone, Copy, PartialEq)]
pub struct Frame {
    /// Left, top, width and height of the place that is drawn on.
    pub place: [f64; 4],
    /// How many lengths of the picture a degree has.
    pub scale: f64,
    middle: Point,
}

impl Frame {
    /// A frame that shows all of the bounds in this place, with a margin.
    pub fn new(bounds: &Bounds, place: [f64; 4], margin: f64) -> Frame {
        let [_, _, width, height] = place;
        let (wide, high) = bounds.size();
        let scale = ((width - 2.0 * margin) / wide.max(1e-300))
            .min((height - 2.0 * margin) / high.max(1e-300));
        let middle = Point::new(
            (bounds.least.x + bounds.most.x) / 2.0,
            (bounds.least.y + bounds.most.y) / 2.0,
        );
        let middle = if middle.x.is_finite() && middle.y.is_finite() {
            middle
        } else {
            Point::new(0.0, 0.0)
        };
        Frame {
            place,
            scale,
            middle,
        }
    }

    /// Where a point lies.
    pub fn at(&self, point: Point) -> (f64, f64) {
        let [left, top, width, height] = self.place;
        let x = left + width / 2.0 + (point.x - self.middle.x) * self.scale;
        let y = top + height / 2.0 - (point.y - self.middle.y) * self.scale;
        (x, y)
    }

    /// The least and the most that the place shows on each axis.
    pub fn shown(&self) -> [(f64, f64); 2] {
        let [_, _, width, height] = self.place;
        let around = |middle: f64, size: f64| {
            (
                middle - size / 2.0 / self.scale,
                middle + size / 2.0 / self.scale,
            )
        };
        [around(self.middle.x, width), around(self.middle.y, height)]
    }

    /// The path along these vertices.
    pub fn path(&self, vertices: &[Vertex], closed: bool) -> String {
        let mut d = match vertices.first() {
            Some(first) => format!("M{}", self.pair(first.pos())),
            None => return String::new(),
        };
        for (from, to) in segments(vertices, closed) {
            d.push_str(&self.step(from, to));
        }
        if closed {
            d.push('Z');
        }
        d
    }

    fn pair(&self, point: Point) -> String {
        let (x, y) = self.at(point);
        format!("{} {}", px(x), px(y))
    }

    /// One segment of a path. The picture's y runs down, so an arc that runs anticlockwise has sweep flag 0.
    fn step(&self, from: Vertex, to: Point) -> String {
        let end = self.pair(to);
        match Arc::of(from, to).filter(|arc| arc.radius * self.scale < 1e6) {
            None => format!("L{end}"),
            Some(arc) => {
                let radius = px(arc.radius * self.scale);
                let large = u8::from(from.bulge.abs() > 1.0);
                let sweep = u8::from(from.bulge < 0.0);
                format!("A{radius} {radius} 0 {large} {sweep} {end}")
            }
        }
    }
}

/// Whole steps of 1, 2 or 5 between two numbers: about so many of them.
pub fn ticks((least, most): (f64, f64), about: f64) -> Vec<f64> {
    let rough = (most - least) / about;
    if !(rough > 0.0 && rough.is_finite()) {
        return Vec::new();
    }
    let power = 10f64.powf(rough.log10().floor());
    let step = [1.0, 2.0, 5.0, 10.0]
        .iter()
        .map(|k| k * power)
        .find(|s| *s >= rough)
        .unwrap_or(10.0 * power);
    let first = (least / step).ceil();
    (0..100)
        .map(|k| (first + f64::from(k)) * step)
        .take_while(|t| *t <= most)
        .collect()
}

#[cfg(test)]
mod tests {
    use super::*;

    const PLACE: [f64; 4] = [0.0, 0.0, 120.0, 120.0];

    fn square() -> Vec<Vertex> {
        [(0.0, 0.0), (4.0, 0.0), (4.0, 4.0), (0.0, 4.0)]
            .iter()
            .map(|&(x, y)| Vertex::new(x, y, 0.0))
            .collect()
    }

    #[test]
    fn a_square_fills_its_frame() {
        let mut bounds = Bounds::default();
        bounds.add(&square(), true);
        let frame = Frame::new(&bounds, PLACE, 10.0);
        assert_eq!(frame.scale, 25.0);
        assert_eq!(frame.at(Point::new(0.0, 0.0)), (10.0, 110.0));
        assert_eq!(
            frame.path(&square(), true),
            "M10 110L110 110L110 10L10 10L10 110Z"
        );
    }

    #[test]
    fn arcs_stay_arcs() {
        let half = [Vertex::new(8.0, 0.0, 1.0), Vertex::new(0.0, 0.0, 0.0)];
        let mut bounds = Bounds::default();
        bounds.add(&half, true);
        let frame = Frame::new(&bounds, PLACE, 20.0);
        assert_eq!(frame.scale, 10.0);
        assert_eq!(frame.path(&half, true), "M100 80A40 40 0 0 0 20 80L100 80Z");
        let back = [Vertex::new(0.0, 0.0, -2.0), Vertex::new(8.0, 0.0, 0.0)];
        assert!(frame.path(&back, false).contains(" 0 1 1 "));
    }

    #[test]
    fn nothing_and_a_point_have_a_frame_too() {
        let frame = Frame::new(&Bounds::default(), PLACE, 10.0);
        assert_eq!(frame.at(Point::new(0.0, 0.0)), (60.0, 60.0));
        let mut bounds = Bounds::default();
        bounds.add(&[Vertex::new(3.0, 3.0, 0.0)], true);
        assert!(Frame::new(&bounds, PLACE, 10.0).scale.is_finite());
    }

    #[test]
    fn ticks_are_round() {
        assert_eq!(ticks((-0.5, 4.5), 5.0), [0.0, 1.0, 2.0, 3.0, 4.0]);
        assert!(ticks((0.0, 0.0), 5.0).is_empty());
        assert!(ticks((f64::NAN, 1.0), 5.0).is_empty());
    }
}
