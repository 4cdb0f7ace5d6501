//! The axes family: the entries that take tolerances, with two that mostly differ. Points lie exactly
//! at the tolerance of each axis, one step inside and one outside, as in the hostile family.

use crate::call::{Call, ENTRIES, Entry};
use crate::hostile;
use crate::random::Random;
use crate::tally::{Family, Tally};

const FAMILY: Family = Family::Axes;

/// The entries that take tolerances.
fn entries() -> impl Iterator<Item = Entry> {
    ENTRIES
        .into_iter()
        .filter(|entry| entry.tolerance_at().is_some())
}

/// An accepted call of each.
fn calls(rng: &mut Random) -> Vec<Call> {
    let call = |entry| {
        let t = hostile::axes(rng);
        hostile::call_with(rng, entry, t)
    };
    entries().map(call).collect()
}

pub fn scenario(tally: &mut Tally, rng: &mut Random) {
    for call in calls(rng) {
        tally.compare(FAMILY, &call);
    }
}

/// The same, and the archive is not asked: the judges beside each other.
pub fn judges(tally: &mut Tally, rng: &mut Random) {
    for call in calls(rng) {
        tally.compare_judges(FAMILY, &call);
    }
}
