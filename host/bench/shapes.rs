//! The inputs: pairs of outlines that cross as often as asked, and lists of slices at the extremes.

use super::ours::Slices;
use std::f64::consts::TAU;

pub type Outlines = [Vec<f64>; 2];

fn add(outline: &mut Vec<f64>, x: f64, y: f64, bulge: f64) {
    outline.extend([x, y, bulge]);
}

fn ring(corners: usize, turn: f64, bulge: f64, radius: impl Fn(usize) -> f64) -> Vec<f64> {
    let mut outline = Vec::new();
    for i in 0..corners {
        let angle = TAU * (i as f64 + turn) / corners as f64;
        let radius = radius(i);
        add(
            &mut outline,
            radius * angle.cos(),
            radius * angle.sin(),
            bulge,
        );
    }
    outline
}

/// A star over a polygon near to a circle, which each of its edges crosses once: about one cut on
/// every segment of both.
pub fn star(crossings: usize) -> Outlines {
    star_with(crossings, 0.0)
}

/// The same with arcs for edges.
pub fn round_star(crossings: usize) -> Outlines {
    star_with(crossings, 0.05)
}

fn star_with(crossings: usize, bulge: f64) -> Outlines {
    let spike = |i: usize| if i % 2 == 0 { 150.0 } else { 50.0 };
    [
        ring(crossings, 0.0, bulge, spike),
        ring(crossings, 0.3, bulge, |_| 100.0),
    ]
}

fn band(width: f64) -> Vec<f64> {
    let corners = [[-1.0, -1.0], [width, -1.0], [width, 0.0], [-1.0, 0.0]];
    corners.iter().flat_map(|c| [c[0], c[1], 0.0]).collect()
}

/// A comb with pointed teeth over a band, which each tooth crosses four times: of the band's segments
/// two have all its cuts.
pub fn comb(crossings: usize) -> Outlines {
    let teeth = crossings / 4;
    let right = 4.0 * teeth as f64;
    let mut comb = Vec::new();
    for i in 0..teeth {
        add(&mut comb, 4.0 * i as f64, 1.0, 0.0);
        add(&mut comb, 4.0 * i as f64 + 2.0, -2.0, 0.0);
    }
    add(&mut comb, right, 1.0, 0.0);
    add(&mut comb, right, 5.0, 0.0);
    add(&mut comb, 0.0, 5.0, 0.0);
    [comb, band(right + 1.0)]
}

/// A comb of which each second tooth ends flat on the band's edge: for each six cuts four crossings
/// and one overlap.
pub fn flat_comb(cuts: usize) -> Outlines {
    let pairs = cuts / 6;
    let right = 4.0 * pairs as f64;
    let mut comb = Vec::new();
    for i in 0..pairs {
        let left = 4.0 * i as f64;
        let corners = [[0.0, 1.0], [1.0, -2.0], [2.0, 1.0], [2.5, 0.0], [3.5, 0.0]];
        for [x, y] in corners {
            add(&mut comb, left + x, y, 0.0);
        }
    }
    add(&mut comb, right, 1.0, 0.0);
    add(&mut comb, right, 5.0, 0.0);
    add(&mut comb, 0.0, 5.0, 0.0);
    [comb, band(right + 1.0)]
}

/// The comb from the other side: the band is outline 1.
pub fn other_comb(crossings: usize) -> Outlines {
    let [comb, band] = comb(crossings);
    [band, comb]
}

/// The comb turned by a quarter: the band's two vertical sides have all its cuts.
pub fn upright_comb(crossings: usize) -> Outlines {
    let turned = |v: &[f64]| [-v[1], v[0], v[2]];
    comb(crossings).map(|outline| outline.chunks_exact(3).flat_map(turned).collect())
}

/// A comb whose teeth end inside of a high band: one line of the band has all its cuts.
pub fn one_line_comb(crossings: usize) -> Outlines {
    let [comb, mut band] = comb(2 * crossings);
    for corner in [0, 1] {
        band[3 * corner + 1] = -5.0;
    }
    [comb, band]
}

/// Two rings of equal radii, of which each edge crosses two of the other.
pub fn two_rings(crossings: usize) -> Outlines {
    [0.0, 0.3].map(|turn| ring(crossings / 2, turn, 0.0, |_| 100.0))
}

/// Outlines in whole microdegrees, whose crossings are whole too.
fn whole(outlines: Outlines) -> Outlines {
    outlines.map(|numbers| numbers.iter().map(|n| n * 65_536.0).collect())
}

/// A square wave over a line of short segments, which each of its upright sides crosses once: one cut
/// on a segment.
pub fn wave(crossings: usize) -> Outlines {
    let (mut wave, mut line) = (Vec::new(), Vec::new());
    let last = crossings / 2 - 1;
    for i in 0..=last {
        let left = 2.0 * i as f64;
        let bottom = |at: usize| if i == at { -3.0 } else { -1.0 };
        add(&mut wave, left, bottom(0), 0.0);
        add(&mut wave, left, 1.0, 0.0);
        add(&mut wave, left + 1.0, 1.0, 0.0);
        add(&mut wave, left + 1.0, bottom(last), 0.0);
    }
    for i in 0..=crossings {
        add(&mut line, i as f64 - 0.5, 0.0, 0.0);
    }
    add(&mut line, crossings as f64 - 0.5, 4.0, 0.0);
    add(&mut line, -0.5, 4.0, 0.0);
    whole([wave, line])
}

/// A band whose length is a power of two, as is the comb's over it: then a part of it is not rounded.
fn whole_band(right: f64) -> Vec<f64> {
    let (left, right) = (-0.5 * right, 1.5 * right);
    let corners = [[left, -1.0], [right, -1.0], [right, 0.0], [left, 0.0]];
    corners.iter().flat_map(|c| [c[0], c[1], 0.0]).collect()
}

/// The comb with teeth whose sides go down as far as they go across.
pub fn whole_comb(crossings: usize) -> Outlines {
    let teeth = crossings / 4;
    let right = 8.0 * teeth as f64;
    let mut comb = Vec::new();
    for i in 0..teeth {
        add(&mut comb, 8.0 * i as f64, 1.0, 0.0);
        add(&mut comb, 8.0 * i as f64 + 4.0, -3.0, 0.0);
    }
    add(&mut comb, right, 1.0, 0.0);
    add(&mut comb, right, 5.0, 0.0);
    add(&mut comb, 0.0, 5.0, 0.0);
    whole([comb, whole_band(right)])
}

/// The same, of which each second tooth ends flat on the band's edge.
pub fn whole_flat_comb(cuts: usize) -> Outlines {
    let pairs = cuts / 6;
    let right = 16.0 * pairs as f64;
    let mut comb = Vec::new();
    for i in 0..pairs {
        let left = 16.0 * i as f64;
        let corners = [[0.0, 1.0], [4.0, -3.0], [8.0, 1.0], [9.0, 0.0], [15.0, 0.0]];
        for [x, y] in corners {
            add(&mut comb, left + x, y, 0.0);
        }
    }
    add(&mut comb, right, 1.0, 0.0);
    add(&mut comb, right, 5.0, 0.0);
    add(&mut comb, 0.0, 5.0, 0.0);
    whole([comb, whole_band(right)])
}

/// Outlines for slices that no pipeline made. Their vertices are far from the slices' ends.
pub fn plain() -> Outlines {
    [0.2, 0.7].map(|turn| ring(8, turn, 0.0, |_| 1e6))
}

/// The slice from one point to another, over two vertices of its outline.
fn push_slice(slices: &mut Slices, outline: usize, from: [f64; 2], to: [f64; 2]) {
    let start = slices.count() % 4;
    let numbers = [from[0], from[1], 0.0, 0.0, to[0], to[1]];
    slices.push(outline, false, start, 2, numbers);
}

fn on_circle(i: usize, count: usize) -> [f64; 2] {
    let angle = TAU * i as f64 / count as f64;
    [100.0 * angle.cos(), 100.0 * angle.sin()]
}

/// One chain of all slices, each followed by the next.
pub fn one_chain(count: usize) -> Slices {
    let mut slices = Slices::default();
    for i in 0..count {
        push_slice(
            &mut slices,
            0,
            on_circle(i, count),
            on_circle((i + 1) % count, count),
        );
    }
    slices.starts = [count; 3];
    slices
}

/// Each slice ends where it starts: as many chains as slices.
pub fn chains_of_one(count: usize) -> Slices {
    let mut slices = Slices::default();
    for i in 0..count {
        push_slice(&mut slices, 0, on_circle(i, count), on_circle(i, count));
    }
    slices.starts = [count; 3];
    slices
}

/// All slices start and end at one point, half of them of either outline.
pub fn one_point(count: usize) -> Slices {
    let mut slices = Slices::default();
    for i in 0..count {
        push_slice(
            &mut slices,
            usize::from(i >= count / 2),
            [1.0, 1.0],
            [1.0, 1.0],
        );
    }
    slices.starts = [count / 2, count, count];
    slices
}

/// A chain through points, in the order of a list of numbers: slice number `order[i]` leads from point i to the next.
fn chain_by(order: &[usize], point: impl Fn(usize) -> [f64; 2]) -> Slices {
    let count = order.len();
    let mut place = vec![0; count];
    for (i, number) in order.iter().enumerate() {
        place[*number] = i;
    }
    let mut slices = Slices::default();
    for i in place {
        push_slice(&mut slices, 0, point(i), point((i + 1) % count));
    }
    slices.starts = [count; 3];
    slices
}

/// A list shuffled, in each run the same way.
pub fn shuffle<T>(list: &mut [T]) {
    let mut seed = 0x9e37_79b9_7f4a_7c15_u64;
    for i in (1..list.len()).rev() {
        seed = seed
            .wrapping_mul(6364136223846793005)
            .wrapping_add(1442695040888963407);
        list.swap(i, (seed >> 33) as usize % (i + 1));
    }
}

/// One chain of all slices, listed in a shuffled order.
pub fn shuffled(count: usize) -> Slices {
    let mut order: Vec<usize> = (0..count).collect();
    shuffle(&mut order);
    chain_by(&order, |i| on_circle(i, count))
}

/// One chain that goes from one vertical side to the other and back.
pub fn two_sides(count: usize) -> Slices {
    let order: Vec<usize> = (0..count).collect();
    chain_by(&order, |i| [100.0 * (i % 2) as f64, i as f64 / 8.0])
}

/// One chain along a line, and back to its start.
pub fn one_line(count: usize) -> Slices {
    let order: Vec<usize> = (0..count).collect();
    chain_by(&order, |i| [i as f64 / 8.0, 1.0])
}

/// Two rings of equal radii, one of each outline: two starts at each point.
pub fn equal_rings(count: usize) -> Slices {
    let mut slices = Slices::default();
    let half = count / 2;
    for i in 0..count {
        let [from, to] = [i % half, (i + 1) % half].map(|k| on_circle(k, half));
        push_slice(&mut slices, usize::from(i >= half), from, to);
    }
    slices.starts = [half, count, count];
    slices
}

/// All slices begin at one point, and end around it.
pub fn one_start(count: usize) -> Slices {
    let mut slices = Slices::default();
    for i in 0..count {
        push_slice(&mut slices, 0, [1.0, 1.0], on_circle(i, count));
    }
    slices.starts = [count; 3];
    slices
}

/// Slices begin at two points by turns, and all end three tolerances beside them, where no slice starts.
pub fn beside_two_starts(count: usize) -> Slices {
    let mut slices = Slices::default();
    for i in 0..count {
        let from = [[1.0, 1.0], [1.00003, 1.0]][i % 2];
        push_slice(&mut slices, 0, from, [1.00006, 1.0]);
    }
    slices.starts = [count; 3];
    slices
}

/// Slices begin by turns at eight points of a circle that is smaller than the tolerance, and all end three tolerances beside its middle, where no slice starts.
pub fn beside_small_circle(count: usize) -> Slices {
    let mut slices = Slices::default();
    for i in 0..count {
        let [x, y] = on_circle(i % 8, 8).map(|n| 1.0 + 4e-8 * n);
        push_slice(&mut slices, 0, [x, y], [1.00003, 1.0]);
    }
    slices.starts = [count; 3];
    slices
}

/// All slices begin at one point, and end four tolerances beside it, where no slice starts.
pub fn beside_one_start(count: usize) -> Slices {
    let mut slices = Slices::default();
    for _ in 0..count {
        push_slice(&mut slices, 0, [1.0, 1.0], [1.00004, 1.0]);
    }
    slices.starts = [count; 3];
    slices
}
