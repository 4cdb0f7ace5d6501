//! The original on scaled axes. It has one tolerance. Where the ratio of two tolerances is a power of
//! two, the axis with the lower one is multiplied by that ratio: then both tolerances are the higher
//! one, and the original can be asked. A power of two changes no bit of a number but its exponent, so
//! differences, sides of a box and comparisons are scaled and not rounded otherwise.
//!
//! Two things are not the same after it. A bulge no longer stands for the same arc; but these stages
//! only hand bulges on. And squared distances are not scaled as a whole; so cuts of one segment may
//! come in another order, and two points of one segment too.

use crate::call::{Axes, Call, Entry, Outcome, Param};
use crate::theirs;

/// The largest ratio that is tried: no square of a scaled number is too large.
const LARGEST: f64 = 1e100;

/// Which axis is scaled, 0 for x and 1 for y, and by what.
#[derive(Clone, Copy)]
struct Scale {
    axis: usize,
    by: f64,
}

fn scale_of(t: Axes) -> Option<Scale> {
    let (axis, by) = if t.x > t.y {
        (1, t.x / t.y)
    } else {
        (0, t.y / t.x)
    };
    let lower = t.x.min(t.y);
    let is_power_of_two = by.to_bits() & ((1 << 52) - 1) == 0;
    let exact = lower * by == t.x.max(t.y);
    (by > 1.0 && by <= LARGEST && is_power_of_two && exact).then_some(Scale { axis, by })
}

/// The places of x in an item of a list of this name; y is the next place.
fn places(name: &str) -> (usize, &'static [usize]) {
    match name {
        "outline" | "outline1" | "outline2" | "room" => (3, &[0]),
        "hit" | "cut" => (2, &[0]),
        "lap" | "slice" | "cand" => (6, &[0, 4]),
        "probe" => (6, &[0, 3]),
        "splits" => (9, &[0, 3, 6]),
        _ => (1, &[]),
    }
}

fn scale_list(words: &mut [u64], name: &str, scale: Scale) {
    let (width, places) = places(name);
    for item in words.chunks_exact_mut(width) {
        for place in places {
            let word = &mut item[place + scale.axis];
            *word = (f64::from_bits(*word) * scale.by).to_bits();
        }
    }
}

/// The call with one axis scaled, and one tolerance.
fn scaled(call: &Call, t: Axes, scale: Scale) -> Call {
    let ending = [".x", ".y"][scale.axis];
    let mut call = call.clone();
    for (param, (name, _)) in call.inputs.iter_mut().zip(call.entry.shape()) {
        match param {
            Param::List(words) => scale_list(words, name, scale),
            Param::Word(word) if name.starts_with("tolerance") => {
                *word = t.x.max(t.y).to_bits();
            }
            Param::Word(word) if name.ends_with(ending) => {
                *word = (f64::from_bits(*word) * scale.by).to_bits();
            }
            Param::Word(_) => {}
        }
    }
    call
}

/// The original's outcome of an accepted call, by scaling; none where the ratio does not allow it.
pub fn answer(call: &Call) -> Option<Outcome> {
    let t = call.tolerances()?;
    let scale = scale_of(t)?;
    let mut outcome = theirs::answer(&scaled(call, t, scale));
    let back = Scale {
        by: 1.0 / scale.by,
        ..scale
    };
    if matches!(
        call.entry,
        Entry::Create | Entry::CreateOnSingleSegment | Entry::FromSlicePoints | Entry::FromNewStart
    ) {
        // The start's position stands at 4 and 5, the end's at 8 and 9.
        for place in [4, 8] {
            let word = &mut outcome.answer[place + scale.axis];
            *word = (f64::from_bits(*word) * back.by).to_bits();
        }
    }
    let rooms = call.entry.room().iter();
    for ((list, at_entry), (name, _)) in outcome.lent.iter_mut().zip(&call.lent).zip(rooms) {
        // Beyond the need stands what stood there, which was not scaled.
        let beyond = list.iter().rev().zip(at_entry.iter().rev());
        let unchanged = beyond.take_while(|(now, then)| now == then).count();
        let written = list.len() - unchanged;
        let (width, _) = places(name);
        let whole = written.div_ceil(width) * width;
        let items = whole.min(list.len());
        scale_list(&mut list[..items], name, back);
    }
    Some(outcome)
}

/// Whether two outcomes of the cut order differ only in the order of cuts on a segment.
pub fn same_but_for_order(a: &Outcome, b: &Outcome) -> bool {
    let sorted = |o: &Outcome| {
        let items = o.lent[0].chunks_exact(3).zip(o.lent[1].chunks_exact(2));
        let mut items: Vec<_> = items.take(o.answer[1] as usize).collect();
        items.sort_unstable();
        items
            .iter()
            .map(|(at, p)| (at.to_vec(), p.to_vec()))
            .collect::<Vec<_>>()
    };
    a.answer == b.answer && sorted(a) == sorted(b)
}
