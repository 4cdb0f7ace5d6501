//! Masks in whole microdegrees: the archive beside sums in i128, which hold every number that is
//! accepted.

use crate::shapes::Draw;
use mask_tools::{straight_report, Refusal, WholeOutline};

const MOST: i64 = 400_000_000;

/// The winding number, said as the request says it.
fn winding(o: &[(i64, i64)], x: i64, y: i64) -> i64 {
    edges(o)
        .map(|((x1, y1), (x2, y2))| {
            let (x1, y1, x2, y2) = (2 * x1, 2 * y1, 2 * x2, 2 * y2);
            let side =
                i128::from(x2 - x1) * i128::from(y - y1) - i128::from(x - x1) * i128::from(y2 - y1);
            if y1 <= y && y < y2 && side > 0 {
                1
            } else if y2 <= y && y < y1 && side < 0 {
                -1
            } else {
                0
            }
        })
        .sum()
}

fn area(o: &[(i64, i64)]) -> i128 {
    edges(o)
        .map(|((x1, y1), (x2, y2))| {
            i128::from(x1) * i128::from(y2) - i128::from(x2) * i128::from(y1)
        })
        .sum()
}

type Edge = ((i64, i64), (i64, i64));

fn edges(o: &[(i64, i64)]) -> impl Iterator<Item = Edge> + '_ {
    (0..o.len()).map(|i| (o[i], o[(i + 1) % o.len()]))
}

fn drawn(draw: &mut Draw, reach: i64) -> Vec<(i64, i64)> {
    let mut one = || draw.below(2 * reach as usize + 1) as i64 - reach;
    let count = 2 + one().unsigned_abs() as usize % 11;
    (0..count).map(|_| (one(), one())).collect()
}

#[test]
fn drawn_outlines_as_the_sums_in_i128() {
    let mut draw = Draw(8);
    for case in 0..20_000 {
        let reach = [2, 5, 1000, MOST][case % 4];
        let o = drawn(&mut draw, reach);
        let outline = WholeOutline::new(&o);
        assert_eq!(outline.doubled_area(), Ok(area(&o)), "{o:?}");
        for &(x, y) in o.iter().take(3) {
            for (x, y) in [(2 * x, 2 * y), (x, y), (x + 1, y - 1)] {
                assert_eq!(
                    outline.winding(x, y),
                    Ok(winding(&o, x, y)),
                    "{o:?} {x} {y}"
                );
            }
        }
    }
}

#[test]
fn the_largest_area_takes_two_words() {
    let square = [(-MOST, -MOST), (MOST, -MOST), (MOST, MOST), (-MOST, MOST)];
    let round = square.repeat(256);
    let most = 327_680_000_000_000_000_000;
    assert_eq!(WholeOutline::new(&round).doubled_area(), Ok(most));
    let back: Vec<_> = round.iter().rev().copied().collect();
    assert_eq!(WholeOutline::new(&back).doubled_area(), Ok(-most));
    let both = [WholeOutline::new(&round), WholeOutline::new(&back)];
    let many: Vec<_> = both.iter().cycle().take(4096).cloned().collect();
    let report = straight_report(&many).unwrap();
    assert_eq!((report.count, report.zero), (4096, 0));
    assert_eq!(report.doubled_total, 4096 * most as u128);
}

#[test]
fn refusals_in_their_order() {
    let square = WholeOutline::new(&[(0, 0), (4, 0), (4, 4), (0, 4)]);
    let far = WholeOutline::new(&[(0, 0), (MOST + 1, 0), (4, 4)]);
    let short = WholeOutline::new(&[(MOST + 1, 0)]);
    assert_eq!(short.doubled_area(), Err(Refusal::Outline));
    assert_eq!(far.doubled_area(), Err(Refusal::Range));
    assert_eq!(far.winding(0, 0), Err(Refusal::Range));
    assert_eq!(square.winding(2 * MOST, -2 * MOST), Ok(0));
    assert_eq!(square.winding(2 * MOST + 1, 0), Err(Refusal::Range));
    assert_eq!(square.winding(0, i64::MIN), Err(Refusal::Range));
    let mut many = vec![square; 4097];
    assert_eq!(straight_report(&many), Err(Refusal::Loops));
    many[7] = far;
    assert_eq!(straight_report(&many), Err(Refusal::Range));
    many[4096] = short;
    assert_eq!(straight_report(&many), Err(Refusal::Outline));
    assert_eq!(straight_report(&[]).unwrap().count, 0);
}
