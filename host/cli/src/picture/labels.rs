//! Where labels stand: near what they name, off each other, and off lines as far as that goes.

/// How wide a letter is, of a font's height.
const LETTER: f64 = 0.68;

/// Boxes that are taken, and points that are better left free.
pub struct Labels {
    within: [f64; 4],
    taken: Vec<[f64; 4]>,
    lines: Vec<(f64, f64)>,
}

impl Labels {
    /// No labels yet, in a place: left, top, right, bottom.
    pub fn new(within: [f64; 4]) -> Labels {
        Labels {
            within,
            taken: Vec::new(),
            lines: Vec::new(),
        }
    }

    /// Takes a box: left, top, right, bottom.
    pub fn take(&mut self, place: [f64; 4]) {
        self.taken.push(place);
    }

    /// A point of a line, over which a label is better not put.
    pub fn avoid(&mut self, point: (f64, f64)) {
        self.lines.push(point);
    }

    /// A place for a text near a point: where its middle lies. `towards` is the direction that is tried first.
    pub fn place(
        &mut self,
        text: &str,
        size: f64,
        near: (f64, f64),
        towards: (f64, f64),
    ) -> (f64, f64) {
        let (width, height) = (LETTER * size * text.chars().count() as f64, size);
        let first = towards.1.atan2(towards.0);
        let mut best = (f64::INFINITY, near);
        for distance in [9.0, 14.0, 20.0, 28.0] {
            for turn in 0..16 {
                let middle = around(near, first, turn, distance, (width, height));
                let cost = self.cost(boxed(middle, width, height))
                    + 0.05 * distance
                    + 0.02 * f64::from(turn);
                if cost < best.0 {
                    best = (cost, middle);
                }
            }
        }
        self.take(boxed(best.1, width, height));
        best.1
    }

    /// How bad a place is: other labels weigh most, then the edge of the picture, then lines.
    fn cost(&self, place: [f64; 4]) -> f64 {
        let labels = self
            .taken
            .iter()
            .filter(|other| overlap(place, **other))
            .count();
        let lines = self
            .lines
            .iter()
            .filter(|point| inside(place, **point))
            .count();
        let outside = if encloses(self.within, place) {
            0.0
        } else {
            50.0
        };
        100.0 * labels as f64 + lines as f64 + outside
    }
}

/// The middle of a text's box that lies in a direction of a point. The directions fan out to both sides of the first.
fn around(
    near: (f64, f64),
    first: f64,
    turn: u32,
    distance: f64,
    (width, height): (f64, f64),
) -> (f64, f64) {
    let side = if turn % 2 == 0 { 1.0 } else { -1.0 };
    let angle = first + side * f64::from((turn + 1) / 2) * std::f64::consts::TAU / 16.0;
    let (dx, dy) = (angle.cos(), angle.sin());
    (
        near.0 + dx * (distance + width / 2.0),
        near.1 + dy * (distance + height / 2.0),
    )
}

fn boxed((x, y): (f64, f64), width: f64, height: f64) -> [f64; 4] {
    [
        x - width / 2.0,
        y - height / 2.0,
        x + width / 2.0,
        y + height / 2.0,
    ]
}

fn overlap(a: [f64; 4], b: [f64; 4]) -> bool {
    a[0] < b[2] && b[0] < a[2] && a[1] < b[3] && b[1] < a[3]
}

fn encloses(a: [f64; 4], b: [f64; 4]) -> bool {
    a[0] <= b[0] && a[1] <= b[1] && b[2] <= a[2] && b[3] <= a[3]
}

fn inside(a: [f64; 4], (x, y): (f64, f64)) -> bool {
    a[0] <= x && x <= a[2] && a[1] <= y && y <= a[3]
}

#[cfg(test)]
mod tests {
    use super::*;

    const ALL: [f64; 4] = [-1e9, -1e9, 1e9, 1e9];

    #[test]
    fn labels_stay_off_each_other() {
        let mut labels = Labels::new(ALL);
        let places: Vec<(f64, f64)> = (0..12)
            .map(|_| labels.place("12", 11.0, (0.0, 0.0), (1.0, 0.0)))
            .collect();
        for (k, a) in places.iter().enumerate() {
            for b in &places[..k] {
                assert!(
                    !overlap(boxed(*a, 13.0, 11.0), boxed(*b, 13.0, 11.0)),
                    "{a:?} {b:?}"
                );
            }
        }
        assert!(places[0].0 > 0.0 && places[0].1.abs() < 1e-9);
    }

    #[test]
    fn lines_are_avoided() {
        let mut labels = Labels::new(ALL);
        (0..40).for_each(|k| labels.avoid((f64::from(k), 0.0)));
        let (_, y) = labels.place("1", 11.0, (0.0, 0.0), (1.0, 0.0));
        assert!(y.abs() > 5.0);
    }

    #[test]
    fn labels_stay_in_their_place() {
        let mut labels = Labels::new([-100.0, -100.0, 5.0, 100.0]);
        let (x, _) = labels.place("slice 4", 11.0, (0.0, 0.0), (1.0, 0.0));
        assert!(x < 0.0);
    }
}
