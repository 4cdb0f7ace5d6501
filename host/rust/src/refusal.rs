//! Why the library refuses a call.

use std::error::Error;
use std::fmt;

/// Why a call is refused. The library gives the first that applies, in the order of
/// `include/mask.h` (of 1 to 9 that is the lowest number), and has then written nothing.
///
/// ```
/// use mask_tools::Refusal;
///
/// assert_eq!(Refusal::Outline.number(), 2);
/// assert_eq!(Refusal::from_number(2), Some(Refusal::Outline));
/// assert_eq!(
///     Refusal::Outline.to_string(),
///     "refusal 2: an outline is too short or too long"
/// );
/// ```
#[derive(Debug, Clone, Copy, PartialEq, Eq, Hash)]
#[non_exhaustive]
pub enum Refusal {
    /// 1: a list's length disagrees with its count, or a count is above its most; of a record: it
    /// has more than 28 slices.
    Length,
    /// 2: an outline has fewer than 2 or more than 1,024 vertices; in a record more than 64.
    Outline,
    /// 3: a mode, selector, source or yes/no code is unknown. The types of this crate leave no
    /// way to write such a code. It can come from bytes, of a record or of a store, and from the
    /// answers of [`lent::prune`](crate::lent::prune), which are numbers.
    Code,
    /// 4: a tolerance, of x or of y, is not finite, not above 0 or above 1; or an area limit is not
    /// finite or below 0; or two tolerances differ, and a record of version 1 is to be written.
    Tolerance,
    /// 5: a number is not finite or beyond 2^30 in magnitude; of areas: not finite.
    Number,
    /// 6: a segment or start index is not below its outline's vertex count.
    Index,
    /// 7: an offset is above the vertex count; or a traverse count is 0 or above it.
    Count,
    /// 8: the starts of the classes of slices are not in order, or lie past the slices.
    Starts,
    /// 9: lent room is smaller than the need. Only the calls of [`lent`](crate::lent) can give it.
    Room,
    /// 11: a record of a stitch has fewer than 5 bytes, or does not begin with its mark, `PBR`.
    Mark,
    /// 12: a version of the record of a stitch is unknown.
    Version,
    /// 13: a record of a stitch is shorter than its head, longer than the most, or of another length
    /// than its counts say.
    Size,
    /// 14: a view, or a slice, is of another edition than the outline: the outline was changed after
    /// it was cut.
    Edition,
    /// 15: on an open outline the start index is above the end index.
    Backward,
    /// 16: no setting was entered under the edition.
    UnknownSetting,
    /// 17: the record has its 16 settings.
    SettingsFull,
    /// 18: a coordinate of a straight mask is out of range or not whole, or a bulge is not 0.
    /// [`Masks::combine`](crate::Masks::combine) gives such masks to the calls for masks with arcs.
    Range,
    /// 19: a report has more than 4,096 outlines.
    Loops,
    /// 20: a party has as many live slices as places in the store.
    Full,
    /// 21: no live slice of the party has the handle.
    Handle,
    /// 22: a party of a store is neither 0 nor 1. The types of this crate leave no way to name
    /// another.
    Party,
    /// A number that this wrapper does not know: the archive is a later one, or, with 10, an
    /// earlier one. 10 is not used any more.
    Other(u32),
}

impl Refusal {
    /// The refusal of this number; none for 0, which stands for "accepted".
    pub fn from_number(number: u32) -> Option<Refusal> {
        Some(match number {
            0 => return None,
            1 => Refusal::Length,
            2 => Refusal::Outline,
            3 => Refusal::Code,
            4 => Refusal::Tolerance,
            5 => Refusal::Number,
            6 => Refusal::Index,
            7 => Refusal::Count,
            8 => Refusal::Starts,
            9 => Refusal::Room,
            11 => Refusal::Mark,
            12 => Refusal::Version,
            13 => Refusal::Size,
            14 => Refusal::Edition,
            15 => Refusal::Backward,
            16 => Refusal::UnknownSetting,
            17 => Refusal::SettingsFull,
            18 => Refusal::Range,
            19 => Refusal::Loops,
            20 => Refusal::Full,
            21 => Refusal::Handle,
            22 => Refusal::Party,
            other => Refusal::Other(other),
        })
    }

    /// Its number.
    pub fn number(self) -> u32 {
        self.number_and_reason().0
    }

    fn number_and_reason(self) -> (u32, &'static str) {
        match self {
            Refusal::Length => (
                1,
                "a list's length disagrees with its count, or a count is above its most",
            ),
            Refusal::Outline => (2, "an outline is too short or too long"),
            Refusal::Code => (3, "a mode, selector, source or yes/no code is unknown"),
            Refusal::Tolerance => (
                4,
                "a tolerance or an area limit is not finite or is out of range",
            ),
            Refusal::Number => (5, "a number is not finite or is too large"),
            Refusal::Index => (6, "an index is not below its outline's vertex count"),
            Refusal::Count => (7, "an offset or a traverse count is out of range"),
            Refusal::Starts => (
                8,
                "the starts of the classes are not in order, or lie past the slices",
            ),
            Refusal::Room => (9, "lent room is smaller than the need"),
            Refusal::Mark => (11, "a record does not begin with its mark, PBR"),
            Refusal::Version => (12, "a version of the record is unknown"),
            Refusal::Size => (13, "a record's length is not as its counts say"),
            Refusal::Edition => (14, "a slice is of another edition than its outline"),
            Refusal::Backward => (15, "an open outline's start index is above its end index"),
            Refusal::UnknownSetting => (16, "no setting was entered under the edition"),
            Refusal::SettingsFull => (17, "the record has its 16 settings"),
            Refusal::Range => (
                18,
                "a coordinate is out of range or not whole, or a straight mask has a bulge",
            ),
            Refusal::Loops => (19, "too many outlines in a report"),
            Refusal::Full => (20, "the party's part of the store is full"),
            Refusal::Handle => (21, "no live slice of the party has the handle"),
            Refusal::Party => (22, "a party of the store is unknown"),
            Refusal::Other(number) => (number, "a reason that this wrapper does not know"),
        }
    }

    /// Passes an answer on where its call was accepted.
    pub(crate) fn check<T>(number: u32, answer: T) -> Result<T, Refusal> {
        match Refusal::from_number(number) {
            None => Ok(answer),
            Some(refusal) => Err(refusal),
        }
    }
}

impl fmt::Display for Refusal {
    fn fmt(&self, f: &mut fmt::Formatter<'_>) -> fmt::Result {
        let (number, reason) = self.number_and_reason();
        write!(f, "refusal {number}: {reason}")
    }
}

impl Error for Refusal {}

#[cfg(test)]
mod tests {
    use super::*;

    #[test]
    fn numbers_there_and_back() {
        assert_eq!(Refusal::from_number(0), None);
        for number in 1..=40 {
            let refusal = Refusal::from_number(number).unwrap();
            assert_eq!(refusal.number(), number);
            let known = number <= 9 || (11..=22).contains(&number);
            assert_eq!(matches!(refusal, Refusal::Other(_)), !known);
        }
    }

    #[test]
    fn every_refusal_has_a_sentence_of_its_own() {
        let mut sentences: Vec<String> = (1..=22)
            .map(|number| Refusal::from_number(number).unwrap().to_string())
            .collect();
        assert_eq!(
            sentences[8],
            "refusal 9: lent room is smaller than the need"
        );
        assert_eq!(
            sentences[9],
            "refusal 10: a reason that this wrapper does not know"
        );
        sentences.sort();
        sentences.dedup();
        assert_eq!(sentences.len(), 22);
    }

    #[test]
    fn a_refusal_is_an_error() {
        let error: Box<dyn Error> = Box::new(Refusal::Starts);
        assert!(error.to_string().starts_with("refusal 8: "));
    }

    #[test]
    fn check_passes_an_accepted_answer_on() {
        assert_eq!(Refusal::check(0, 'a'), Ok('a'));
        assert_eq!(Refusal::check(6, 'a'), Err(Refusal::Index));
        assert_eq!(Refusal::check(77, 'a'), Err(Refusal::Other(77)));
    }
}
