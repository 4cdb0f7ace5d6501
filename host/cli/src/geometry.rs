//! Segments between vertices: straight, or an arc by its bulge. This is the host's side: it needs roots and angles, and
//! nothing of it is proved. It draws, and says whether a point lies on a segment.

use mask_tools::{Point, Vertex};

/// How near a point lies that is on a segment: docs/RULES.md, "The verdict on a view".
const ON_SEGMENT: f64 = 1e-3;

/// An arc's bulge from which on it is drawn as an arc.
const FLAT: f64 = 1e-9;

/// The circle of an arc.
#[derive(Debug, Clone, Copy, PartialEq)]
pub struct Arc {
    /// Its middle.
    pub center: Point,
    /// Its radius.
    pub radius: f64,
    /// The angle at which it starts.
    pub start: f64,
    /// The angle that it runs through, anticlockwise positive.
    pub sweep: f64,
}

impl Arc {
    /// The arc from a vertex to a point; none where the segment is straight or has no length.
    pub fn of(from: Vertex, to: Point) -> Option<Arc> {
        let (dx, dy) = (to.x - from.x, to.y - from.y);
        let chord = dx.hypot(dy);
        let bulge = from.bulge;
        if bulge.abs() < FLAT || chord == 0.0 || !chord.is_finite() || !bulge.is_finite() {
            return None;
        }
        let away = (1.0 - bulge) * (1.0 + bulge) / (4.0 * bulge);
        let center = Point::new(from.x + dx / 2.0 - dy * away, from.y + dy / 2.0 + dx * away);
        Some(Arc {
            center,
            radius: chord * (1.0 + bulge * bulge) / (4.0 * bulge.abs()),
            start: (from.y - center.y).atan2(from.x - center.x),
            sweep: 4.0 * bulge.atan(),
        })
    }

    /// The point after a part of the arc, from 0 to 1.
    pub fn at(&self, part: f64) -> Point {
        let angle = self.start + part * self.sweep;
        Point::new(
            self.center.x + self.radius * angle.cos(),
            self.center.y + self.radius * angle.sin(),
        )
    }

    /// Whether the arc runs through this angle.
    pub fn covers(&self, angle: f64) -> bool {
        let turn = std::f64::consts::TAU;
        let gone = if self.sweep > 0.0 {
            angle - self.start
        } else {
            self.start - angle
        };
        gone.rem_euclid(turn) <= self.sweep.abs()
    }
}

/// The point after a part of a segment, from 0 to 1.
pub fn along(from: Vertex, to: Point, part: f64) -> Point {
    match Arc::of(from, to) {
        Some(arc) => arc.at(part),
        None => Point::new(
            from.x + part * (to.x - from.x),
            from.y + part * (to.y - from.y),
        ),
    }
}

/// Points that enclose a segment: its ends, and where its arc comes furthest on an axis.
pub fn extremes(from: Vertex, to: Point) -> Vec<Point> {
    let mut points = vec![from.pos(), to];
    if let Some(arc) = Arc::of(from, to) {
        let quarters = (0..4).map(|k| f64::from(k) * std::f64::consts::FRAC_PI_2);
        let covered = quarters.filter(|angle| arc.covers(*angle));
        points.extend(covered.map(|angle| {
            Point::new(
                arc.center.x + arc.radius * angle.cos(),
                arc.center.y + arc.radius * angle.sin(),
            )
        }));
    }
    points
}

/// How long a segment is.
pub fn length(from: Vertex, to: Point) -> f64 {
    match Arc::of(from, to) {
        Some(arc) => arc.radius * arc.sweep.abs(),
        None => (to.x - from.x).hypot(to.y - from.y),
    }
}

/// Whether a point lies on a segment: the host's answer for the verdict on a view.
pub fn on_segment(from: Vertex, to: Point, point: Point) -> bool {
    let nearest = nearest(from, to, point);
    (nearest.x - point.x).abs() < ON_SEGMENT && (nearest.y - point.y).abs() < ON_SEGMENT
}

/// The point of a segment that is nearest to a point.
fn nearest(from: Vertex, to: Point, point: Point) -> Point {
    let arc = match Arc::of(from, to) {
        Some(arc) => arc,
        None => return nearest_on_line(from.pos(), to, point),
    };
    let (dx, dy) = (point.x - arc.center.x, point.y - arc.center.y);
    let away = dx.hypot(dy);
    if away > 0.0 && arc.covers(dy.atan2(dx)) {
        let scale = arc.radius / away;
        return Point::new(arc.center.x + scale * dx, arc.center.y + scale * dy);
    }
    let distance = |end: Point| (end.x - point.x).hypot(end.y - point.y);
    if distance(from.pos()) < distance(to) {
        from.pos()
    } else {
        to
    }
}

fn nearest_on_line(from: Point, to: Point, point: Point) -> Point {
    let (dx, dy) = (to.x - from.x, to.y - from.y);
    let square = dx * dx + dy * dy;
    let part = if square > 0.0 {
        ((point.x - from.x) * dx + (point.y - from.y) * dy) / square
    } else {
        0.0
    };
    let part = part.clamp(0.0, 1.0);
    Point::new(from.x + part * dx, from.y + part * dy)
}

#[cfg(test)]
mod tests {
    use super::*;

    /// The upper half of the circle round (4, 0) of radius 4, from (8, 0) to (0, 0).
    fn half() -> (Vertex, Point) {
        (Vertex::new(8.0, 0.0, 1.0), Point::new(0.0, 0.0))
    }

    fn close(a: Point, x: f64, y: f64) -> bool {
        (a.x - x).abs() < 1e-9 && (a.y - y).abs() < 1e-9
    }

    #[test]
    fn a_half_circle() {
        let (from, to) = half();
        let arc = Arc::of(from, to).unwrap();
        assert!(close(arc.center, 4.0, 0.0) && (arc.radius - 4.0).abs() < 1e-9);
        assert!(
            close(arc.at(0.0), 8.0, 0.0)
                && close(arc.at(0.5), 4.0, 4.0)
                && close(arc.at(1.0), 0.0, 0.0)
        );
        assert!((length(from, to) - 4.0 * std::f64::consts::PI).abs() < 1e-9);
        let back = Arc::of(Vertex::new(0.0, 0.0, -1.0), Point::new(8.0, 0.0)).unwrap();
        assert!(close(back.at(0.5), 4.0, 4.0));
    }

    #[test]
    fn a_large_arc_and_a_small_one() {
        let small = Arc::of(
            Vertex::new(1.0, 0.0, (std::f64::consts::PI / 8.0).tan()),
            Point::new(0.0, 1.0),
        )
        .unwrap();
        assert!(close(small.center, 0.0, 0.0) && (small.radius - 1.0).abs() < 1e-9);
        let large = Arc::of(
            Vertex::new(0.0, 1.0, (3.0 * std::f64::consts::PI / 8.0).tan()),
            Point::new(1.0, 0.0),
        )
        .unwrap();
        assert!(
            close(large.center, 0.0, 0.0)
                && (large.sweep - 1.5 * std::f64::consts::PI).abs() < 1e-9
        );
    }

    #[test]
    fn what_encloses_an_arc() {
        let (from, to) = half();
        let highest = extremes(from, to)
            .iter()
            .fold(f64::MIN, |most, p| most.max(p.y));
        let lowest = extremes(from, to)
            .iter()
            .fold(f64::MAX, |least, p| least.min(p.y));
        assert!((highest - 4.0).abs() < 1e-9 && lowest.abs() < 1e-9);
    }

    #[test]
    fn points_on_segments() {
        let (from, to) = half();
        assert!(on_segment(from, to, Point::new(4.0, 4.0005)));
        assert!(!on_segment(from, to, Point::new(4.0, 4.002)));
        assert!(!on_segment(from, to, Point::new(4.0, 0.0)));
        assert!(!on_segment(from, to, Point::new(4.0, -4.0)));
        let line = (Vertex::new(0.0, 0.0, 0.0), Point::new(4.0, 0.0));
        assert!(on_segment(line.0, line.1, Point::new(2.0, 0.0009)));
        assert!(!on_segment(line.0, line.1, Point::new(4.01, 0.0)));
        let point = Vertex::new(1.0, 1.0, 0.0);
        assert!(on_segment(point, point.pos(), Point::new(1.0, 1.0)));
    }
}
