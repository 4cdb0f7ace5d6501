//! Outlines for the tests, where straight ones cross, and drawn numbers.

use mask_tools::{
    Combined, Host, Intersection, Intersections, Masks, Mode, Named, Outline, Overlaps, Point,
    Probe, Settings, Source, StraightHost, Tolerance, Vertex,
};

/// The tolerance of document 01's sheet.
pub const T: Tolerance = Tolerance::new(1.0 / 1024.0);

/// A tolerance for drawn masks: they come nearer to each other than `T` by chance.
pub const FINE: Tolerance = Tolerance::new(1e-9);

/// A record with one setting, as it may come from a file: any numbers are some setting.
pub fn record(tolerance: Tolerance, area_limit: f64) -> Settings {
    let mut bytes = [0; Settings::BYTES];
    bytes[0] = 1;
    let numbers = [tolerance.x, tolerance.y, area_limit];
    for (place, number) in bytes[8..].chunks_exact_mut(8).zip(numbers) {
        place.copy_from_slice(&number.to_le_bytes());
    }
    Settings::from_bytes(&bytes)
}

/// Its setting, with a record that lives as long as the tests.
pub fn named(tolerance: Tolerance, area_limit: f64) -> Named<'static> {
    Box::leak(Box::new(record(tolerance, area_limit))).named(1)
}

thread_local! {
    static PLAIN: Named<'static> = named(T, 0.0);
    static FINELY: Named<'static> = named(FINE, 0.0);
}

/// A setting that has the tolerance `T` and keeps all loops.
pub fn plain() -> Named<'static> {
    PLAIN.with(|setting| *setting)
}

/// The same with `FINE`.
pub fn finely() -> Named<'static> {
    FINELY.with(|setting| *setting)
}

/// Square A of document 01's sheet.
pub fn a() -> Outline {
    Outline::straight(&[(0.0, 0.0), (4.0, 0.0), (4.0, 4.0), (0.0, 4.0)])
}

/// Square B of document 01's sheet.
pub fn b() -> Outline {
    Outline::straight(&[(2.0, 2.0), (6.0, 2.0), (6.0, 6.0), (2.0, 6.0)])
}

pub fn hit(start_index1: usize, start_index2: usize, x: f64, y: f64) -> Intersection {
    Intersection {
        start_index1,
        start_index2,
        point: Point::new(x, y),
    }
}

/// Where A and B cross.
pub fn hits() -> Intersections {
    Intersections::from([hit(1, 0, 4.0, 2.0), hit(2, 3, 2.0, 4.0)])
}

/// Two masks without overlaps, by the plain setting.
pub fn masks<'a>(
    pline1: &'a Outline,
    pline2: &'a Outline,
    intersections: &'a Intersections,
    overlaps: &'a Overlaps,
) -> Masks<'a> {
    Masks {
        pline1,
        pline2,
        intersections,
        overlaps,
        setting: plain(),
    }
}

/// Two straight outlines, combined where their segments cross.
pub fn combine(pline1: &Outline, pline2: &Outline, mode: Mode) -> Combined {
    let (crossings, no_overlaps) = (crossings(pline1, pline2), Overlaps::new());
    let masks = Masks {
        setting: finely(),
        ..masks(pline1, pline2, &crossings, &no_overlaps)
    };
    masks
        .combine(mode, &mut StraightHost)
        .expect("nothing of this is refused")
}

/// The points where straight segments cross, none of them at an end.
pub fn crossings(pline1: &Outline, pline2: &Outline) -> Intersections {
    let mut found = Intersections::new();
    for i in 0..pline1.vertex_count() {
        for j in 0..pline2.vertex_count() {
            let (v1, v2) = pline1.segment(i).unwrap();
            let (u1, u2) = pline2.segment(j).unwrap();
            found.extend(crossing(v1, v2, u1, u2).map(|p| hit(i, j, p.x, p.y)));
        }
    }
    found
}

fn crossing(v1: Vertex, v2: Vertex, u1: Vertex, u2: Vertex) -> Option<Point> {
    let (vx, vy) = (v2.x - v1.x, v2.y - v1.y);
    let (ux, uy) = (u2.x - u1.x, u2.y - u1.y);
    let cross = vx * uy - vy * ux;
    let along_v = ((u1.x - v1.x) * uy - (u1.y - v1.y) * ux) / cross;
    let along_u = ((u1.x - v1.x) * vy - (u1.y - v1.y) * vx) / cross;
    let within = |s: f64| 0.0 < s && s < 1.0;
    (within(along_v) && within(along_u))
        .then(|| Point::new(v1.x + along_v * vx, v1.y + along_v * vy))
}

/// The outline run through the other way. For straight ones.
pub fn reversed(outline: &Outline) -> Outline {
    outline.vertices().iter().rev().copied().collect()
}

pub fn area(vertices: &[Vertex]) -> f64 {
    StraightHost.area(vertices)
}

/// The sum of the signed areas of the loops, in magnitude: holes count off.
pub fn total_area(combined: &Combined) -> f64 {
    combined.loops().map(area).sum::<f64>().abs()
}

/// Whether the point lies inside an odd number of the loops.
pub fn covered<'a>(loops: impl IntoIterator<Item = &'a [Vertex]>, x: f64, y: f64) -> bool {
    let at = Vertex::new(x, y, 0.0);
    let probe = Probe { start: at, end: at };
    let holds = |lp: &[Vertex]| StraightHost.inside(Source::Pline1, &lp.to_vec().into(), probe);
    loops.into_iter().filter(|lp| holds(lp)).count() % 2 == 1
}

pub fn positions(vertices: &[Vertex]) -> Vec<(f64, f64)> {
    vertices.iter().map(|v| (v.x, v.y)).collect()
}

/// The loops, each begun at its least position, so that only the shape counts.
pub fn loops_from_least(combined: &Combined) -> Vec<Vec<(f64, f64)>> {
    let mut loops: Vec<_> = combined.loops().map(from_least).collect();
    loops.sort_by(|a, b| a.partial_cmp(b).unwrap());
    loops
}

fn from_least(vertices: &[Vertex]) -> Vec<(f64, f64)> {
    let mut at = positions(vertices);
    let least = (0..at.len())
        .min_by(|&i, &j| at[i].partial_cmp(&at[j]).unwrap())
        .unwrap_or(0);
    at.rotate_left(least);
    at
}

/// Numbers from a fixed seed: splitmix64.
pub struct Draw(pub u64);

impl Draw {
    pub fn word(&mut self) -> u64 {
        self.0 = self.0.wrapping_add(0x9e37_79b9_7f4a_7c15);
        let z = (self.0 ^ self.0 >> 30).wrapping_mul(0xbf58_476d_1ce4_e5b9);
        let z = (z ^ z >> 27).wrapping_mul(0x94d0_49bb_1331_11eb);
        z ^ z >> 31
    }

    /// From `low` to below `high`.
    pub fn between(&mut self, low: f64, high: f64) -> f64 {
        low + (high - low) * (self.word() >> 11) as f64 / (1u64 << 53) as f64
    }

    pub fn below(&mut self, count: usize) -> usize {
        (self.word() % count as u64) as usize
    }
}
