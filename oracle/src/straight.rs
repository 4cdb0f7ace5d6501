//! Masks in whole microdegrees (request K8): the winding number and the area of the original beside
//! the archive's, and exact sums of 128 bits as judge between them.

use crate::random::Random;
use crate::stages;
use cavalier_contours::core::math::Vector2;
use cavalier_contours::polyline::PlineSource;

#[repr(C)]
struct WindingAnswer {
    refusal: u32,
    winding: i64,
}

#[repr(C)]
struct AreaAnswer {
    refusal: u32,
    negative: u32,
    high: u64,
    low: u64,
}

unsafe extern "C" {
    fn mask_straight_winding(
        outline: *const i64,
        outline_len: usize,
        vc: usize,
        x: i64,
        y: i64,
    ) -> WindingAnswer;

    fn mask_straight_area(outline: *const i64, outline_len: usize, vc: usize) -> AreaAnswer;
}

const MOST: i64 = 400_000_000;

pub type Corner = (i64, i64);

fn flat(o: &[Corner]) -> Vec<i64> {
    o.iter().flat_map(|&(x, y)| [x, y]).collect()
}

/// The archive's winding number round a point in doubled coordinates.
pub fn ours(o: &[Corner], (x, y): Corner) -> i64 {
    let o = flat(o);
    // SAFETY: pointer and length are those of one list, which is only read.
    let a = unsafe { mask_straight_winding(o.as_ptr(), o.len(), o.len() / 2, x, y) };
    assert_eq!(a.refusal, 0);
    a.winding
}

fn our_area(o: &[Corner]) -> i128 {
    let o = flat(o);
    // SAFETY: pointer and length are those of one list, which is only read.
    let a = unsafe { mask_straight_area(o.as_ptr(), o.len(), o.len() / 2) };
    assert_eq!(a.refusal, 0);
    let size = (a.high as i128) << 64 | a.low as i128;
    if a.negative == 1 { -size } else { size }
}

/// The original's, of the same outline as f64, round the point itself.
fn theirs(o: &[Corner], (x, y): Corner) -> i64 {
    let point = Vector2::new(x as f64 / 2.0, y as f64 / 2.0);
    stages::outline(&numbers(o)).winding_number(point) as i64
}

fn numbers(o: &[Corner]) -> Vec<f64> {
    o.iter()
        .flat_map(|&(x, y)| [x as f64, y as f64, 0.0])
        .collect()
}

fn edges(o: &[Corner]) -> impl Iterator<Item = (Corner, Corner)> + '_ {
    (0..o.len()).map(|i| (o[i], o[(i + 1) % o.len()]))
}

/// Above 0 where the point is strictly left of the edge, 0 on its line. All doubled.
fn side((a, b): (Corner, Corner), (x, y): Corner) -> i128 {
    let (ax, ay, bx, by) = (2 * a.0, 2 * a.1, 2 * b.0, 2 * b.1);
    (bx - ax) as i128 * (y - ay) as i128 - (x - ax) as i128 * (by - ay) as i128
}

/// The point lies on an edge, its ends included.
pub fn on_edge(o: &[Corner], p: Corner) -> bool {
    let within = |a: i64, b: i64, z: i64| 2 * a.min(b) <= z && z <= 2 * a.max(b);
    edges(o).any(|e| side(e, p) == 0 && within(e.0.0, e.1.0, p.0) && within(e.0.1, e.1.1, p.1))
}

/// The winding number as request K8 says it, in sums of 128 bits.
pub fn exact(o: &[Corner], p: Corner) -> i64 {
    let turn = |(a, b): (Corner, Corner)| {
        let (y, y1, y2) = (p.1, 2 * a.1, 2 * b.1);
        let side = side((a, b), p);
        i64::from(y1 <= y && y < y2 && side > 0) - i64::from(y2 <= y && y < y1 && side < 0)
    };
    edges(o).map(turn).sum()
}

/// The original, in f64, sees the point on another side of an edge than it is.
pub fn is_rounded(o: &[Corner], p: Corner) -> bool {
    let (x, y) = (p.0 as f64 / 2.0, p.1 as f64 / 2.0);
    let rounded = |(a, b): (Corner, Corner)| {
        let (ax, ay, bx, by) = (a.0 as f64, a.1 as f64, b.0 as f64, b.1 as f64);
        (bx - ax) * (y - ay) - (by - ay) * (x - ax)
    };
    let sign = |e| match side(e, p) {
        0 => 0.0,
        side => side.signum() as f64,
    };
    let f64_sign = |z: f64| if z == 0.0 { 0.0 } else { z.signum() };
    edges(o).any(|e| f64_sign(rounded(e)) != sign(e))
}

fn text(o: &[Corner]) -> String {
    let corners: Vec<String> = o.iter().map(|(x, y)| format!("({x},{y})")).collect();
    corners.join(" ")
}

fn half(z: i64) -> String {
    let sign = if z < 0 { "-" } else { "" };
    let rest = if z % 2 == 0 { "" } else { ".5" };
    format!("{sign}{}{rest}", z.abs() / 2)
}

fn both(o: &[Corner], p: Corner) {
    let back: Vec<Corner> = o.iter().rev().copied().collect();
    println!(
        "  {} at ({},{}): original {}, archive {}; reversed: original {}, archive {}",
        text(o),
        half(p.0),
        half(p.1),
        theirs(o, p),
        ours(o, p),
        theirs(&back, p),
        ours(&back, p)
    );
}

/// The differences, each at its smallest input, and how often they are met.
pub fn show() {
    println!("points on an edge, in whole coordinates:");
    both(&[(0, 0), (0, 1)], (0, 1));
    let square = [(0, 0), (2, 0), (2, 2), (0, 2)];
    for p in [
        (0, 2),
        (4, 2),
        (2, 0),
        (2, 4),
        (0, 0),
        (4, 0),
        (4, 4),
        (0, 4),
    ] {
        both(&square, p);
    }
    println!("points beside an edge, where the original's products are rounded:");
    if let Some((o, p)) = rounded() {
        both(&o, p);
    }
    println!("areas, doubled, where the original's sums are rounded:");
    rounded_area();
    counts();
    println!();
}

/// The first triangle (0,0) (n,n+1) (0,n+1) whose slanted edge and the point (n-1,n) beside it the
/// original does not tell apart.
fn rounded() -> Option<(Vec<Corner>, Corner)> {
    (1..MOST).find_map(|n| {
        let o = vec![(0, 0), (n, n + 1), (0, n + 1)];
        let p = (2 * (n - 1), 2 * n);
        let products = (n as f64 * n as f64) == ((n - 1) as f64 * (n + 1) as f64);
        (products && theirs(&o, p) != ours(&o, p)).then_some((o, p))
    })
}

fn rounded_area() {
    let found = (1..MOST).find_map(|n| {
        let o = vec![(0, 0), (n, n + 1), (n - 1, n)];
        let exact = our_area(&o);
        let original = 2.0 * stages::outline(&numbers(&o)).area();
        (original != exact as f64).then_some((o, original, exact))
    });
    if let Some((o, original, exact)) = found {
        println!("  {}: original {original}, archive {exact}", text(&o));
    }
}

/// Drawn outlines and points: on edges, beside them, anywhere.
fn counts() {
    let mut rng = Random::new(8);
    let mut all = [[0u64; 2]; 2];
    let mut differ = [[0u64; 2]; 2];
    for case in 0..400_000 {
        let large = case % 2;
        let reach = if large == 1 {
            MOST
        } else {
            [2, 5, 1000][case / 2 % 3]
        };
        let draw = |rng: &mut Random| rng.below(2 * reach as usize + 1) as i64 - reach;
        let o: Vec<Corner> = (0..2 + rng.below(9))
            .map(|_| (draw(&mut rng), draw(&mut rng)))
            .collect();
        let (a, b) = edges(&o).nth(rng.below(o.len())).expect("an edge");
        let beside = |rng: &mut Random| rng.below(3) as i64 - 1;
        let p = match rng.below(4) {
            0 => (2 * a.0, 2 * a.1),
            1 => (a.0 + b.0, a.1 + b.1),
            2 => (a.0 + b.0 + beside(&mut rng), a.1 + b.1 + beside(&mut rng)),
            _ => (2 * draw(&mut rng), 2 * draw(&mut rng)),
        };
        let p = (
            p.0.clamp(-2 * MOST, 2 * MOST),
            p.1.clamp(-2 * MOST, 2 * MOST),
        );
        let on = usize::from(on_edge(&o, p));
        all[large][on] += 1;
        differ[large][on] += u64::from(theirs(&o, p) != ours(&o, p));
    }
    println!("drawn points, by the reach of the coordinates:");
    for (large, name) in ["up to 1,000", "up to 400,000,000"].iter().enumerate() {
        for (on, place) in ["beside every edge", "on an edge"].iter().enumerate() {
            println!(
                "  {name}, {place}: {}, {} differ",
                all[large][on], differ[large][on]
            );
        }
    }
}
