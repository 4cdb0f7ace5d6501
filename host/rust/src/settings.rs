//! Settings by edition: one record of up to 16, which is extended and never overwritten.

use crate::{ffi, Refusal, Tolerance};

/// A setting: both tolerances, each above 0 and at most 1, and an area limit, from 0 to any finite
/// number.
#[derive(Debug, Clone, Copy, PartialEq)]
pub struct Setting {
    /// How near two points lie that count as one, on each axis.
    pub tolerance: Tolerance,
    /// Loops whose area is less than this, in magnitude, are dropped. 0 keeps all.
    pub area_limit: f64,
}

/// A setting that a stitch or an area pass names: an edition of a record.
#[derive(Debug, Clone, Copy, PartialEq)]
pub struct Named<'a> {
    /// The record.
    pub settings: &'a Settings,
    /// The edition. The call that names it asks whether it is known.
    pub edition: usize,
}

impl Named<'_> {
    /// The setting: [`Settings::ask`].
    pub fn ask(self) -> Result<Setting, Refusal> {
        self.settings.ask(self.edition)
    }
}

/// The most settings of a record.
const MOST: usize = 16;

/// The numbers of a record, three to a setting.
const NUMBERS: usize = 3 * MOST;

/// A record of up to 16 settings. Entering gives an edition, which counts from 1; asking for an
/// edition gives exactly what was entered under it. No call takes a setting away or changes it.
///
/// ```
/// use mask_tools::{area_pass, Refusal, Setting, Settings, Tolerance};
///
/// # fn main() -> Result<(), Refusal> {
/// let mut settings = Settings::new();
/// let fine = Setting {
///     tolerance: Tolerance { x: 1.0 / 1024.0, y: 1.0 / 2048.0 },
///     area_limit: 0.5,
/// };
/// assert_eq!(settings.enter(fine)?, 1);
/// assert_eq!(settings.ask(1)?, fine);
/// assert_eq!(settings.ask(2), Err(Refusal::UnknownSetting));
///
/// // A stitch and an area pass name the edition that they use.
/// assert_eq!(area_pass(&[2.0, 0.25, -0.5], settings.named(1))?, [0, 2]);
///
/// // A host keeps the record in its own files. Every 392 bytes are some record.
/// let kept = settings.to_bytes();
/// assert_eq!(Settings::from_bytes(&kept).ask(1)?, fine);
/// # Ok(())
/// # }
/// ```
#[derive(Debug, Clone, PartialEq)]
pub struct Settings {
    entered: [usize; 1],
    numbers: [f64; NUMBERS],
}

impl Settings {
    /// The length of a kept record in bytes.
    pub const BYTES: usize = 8 * (1 + NUMBERS);

    /// The empty record.
    pub fn new() -> Settings {
        Settings {
            entered: [0],
            numbers: [0.0; NUMBERS],
        }
    }

    /// Enters a setting after those that are there, and gives its edition.
    ///
    /// # Errors
    ///
    /// [`Refusal::SettingsFull`] for a seventeenth, then [`Refusal::Tolerance`] where a number is
    /// out of range. A refused entry changes nothing.
    pub fn enter(&mut self, setting: Setting) -> Result<usize, Refusal> {
        let answer = ffi::settings_enter(
            &mut self.entered,
            &mut self.numbers,
            setting.tolerance.x,
            setting.tolerance.y,
            setting.area_limit,
        );
        Refusal::check(answer.refusal, answer.edition)
    }

    /// The setting of an edition, exactly as it was entered.
    ///
    /// # Errors
    ///
    /// [`Refusal::UnknownSetting`] where none was entered under it.
    pub fn ask(&self, edition: usize) -> Result<Setting, Refusal> {
        let answer = ffi::settings_ask(&self.entered, &self.numbers, edition);
        let setting = Setting {
            tolerance: Tolerance {
                x: answer.tolerance_x,
                y: answer.tolerance_y,
            },
            area_limit: answer.area_limit,
        };
        Refusal::check(answer.refusal, setting)
    }

    /// An edition, to be named by a call. Whether it is known the call says.
    pub fn named(&self, edition: usize) -> Named<'_> {
        Named {
            settings: self,
            edition,
        }
    }

    /// The two lists that a call is lent.
    pub(crate) fn lists(&self) -> (&[usize], &[f64]) {
        (&self.entered, &self.numbers)
    }

    /// How many settings there are: the last edition.
    pub fn len(&self) -> usize {
        self.entered[0].min(MOST)
    }

    /// There is no setting.
    pub fn is_empty(&self) -> bool {
        self.len() == 0
    }

    /// The record as bytes, to be kept: the count and then the 48 numbers, 8 bytes each, little
    /// endian.
    pub fn to_bytes(&self) -> [u8; Settings::BYTES] {
        let mut bytes = [0; Settings::BYTES];
        let count = self.entered[0] as u64;
        let words = std::iter::once(count).chain(self.numbers.iter().map(|n| n.to_bits()));
        for (place, word) in bytes.chunks_exact_mut(8).zip(words) {
            place.copy_from_slice(&word.to_le_bytes());
        }
        bytes
    }

    /// The record that was kept as these bytes. Every content is some record.
    pub fn from_bytes(bytes: &[u8; Settings::BYTES]) -> Settings {
        let mut settings = Settings::new();
        let mut words = bytes.chunks_exact(8).map(|word| {
            let mut eight = [0; 8];
            eight.copy_from_slice(word);
            u64::from_le_bytes(eight)
        });
        let count = words.next().unwrap_or(0);
        settings.entered = [usize::try_from(count).unwrap_or(usize::MAX)];
        for (number, word) in settings.numbers.iter_mut().zip(words) {
            *number = f64::from_bits(word);
        }
        settings
    }
}

impl Default for Settings {
    fn default() -> Settings {
        Settings::new()
    }
}

#[cfg(test)]
mod tests {
    use super::*;
    use crate::ffi::standin::{told, Lent, Reply};
    use crate::ffi::{EditionAnswer, SettingAnswer};

    const FINE: Setting = Setting {
        tolerance: Tolerance { x: 0.25, y: 0.125 },
        area_limit: 3.0,
    };

    #[test]
    fn a_record_is_lent_as_one_number_and_48() {
        let answer = EditionAnswer {
            refusal: 0,
            edition: 1,
        };
        let writes = Reply::writing(answer, vec![vec![1]], vec![vec![0.25, 0.125, 3.0]]);
        let mut settings = Settings::new();
        let (given, calls) = told([writes], || settings.enter(FINE));
        assert_eq!(given, Ok(1));
        assert_eq!(calls[0].entry, "settings_enter");
        assert_eq!(calls[0].lent("entered"), Lent::Room(1));
        assert_eq!(calls[0].lent("settings"), Lent::Room(48));
        assert_eq!(calls[0].lent("tolerance_x"), Lent::Number(0.25));
        assert_eq!(calls[0].lent("tolerance_y"), Lent::Number(0.125));
        assert_eq!(calls[0].lent("area_limit"), Lent::Number(3.0));
        assert_eq!((settings.len(), settings.is_empty()), (1, false));
        assert_eq!(settings.numbers[..4], [0.25, 0.125, 3.0, 0.0]);
    }

    #[test]
    fn an_edition_is_asked_of_the_same_lists() {
        let mut settings = Settings::new();
        settings.entered = [2];
        settings.numbers[5] = 7.0;
        let answer = SettingAnswer {
            refusal: 0,
            tolerance_x: 0.25,
            tolerance_y: 0.125,
            area_limit: 3.0,
        };
        let (given, calls) = told([Reply::of(answer)], || settings.ask(2));
        assert_eq!(given, Ok(FINE));
        assert_eq!(calls[0].entry, "settings_ask");
        assert_eq!(calls[0].lent("entered"), Lent::Counts(vec![2]));
        assert_eq!(
            calls[0].lent("settings"),
            Lent::Numbers(settings.numbers.to_vec())
        );
        assert_eq!(calls[0].lent("edition"), Lent::Count(2));
    }

    #[test]
    fn refusals_are_errors() {
        for (refusal, error) in [
            (17, Refusal::SettingsFull),
            (4, Refusal::Tolerance),
            (1, Refusal::Length),
        ] {
            let answer = EditionAnswer {
                refusal,
                edition: 0,
            };
            let (given, _) = told([Reply::of(answer)], || Settings::new().enter(FINE));
            assert_eq!(given, Err(error));
        }
        let answer = SettingAnswer {
            refusal: 16,
            ..SettingAnswer::default()
        };
        let (given, _) = told([Reply::of(answer)], || Settings::new().ask(1));
        assert_eq!(given, Err(Refusal::UnknownSetting));
    }

    #[test]
    fn a_count_above_16_reads_as_16() {
        let mut settings = Settings::default();
        assert!(settings.is_empty());
        for (entered, len) in [(15, 15), (16, 16), (17, 16), (usize::MAX, 16)] {
            settings.entered = [entered];
            assert_eq!(settings.len(), len);
        }
    }

    #[test]
    fn bytes_there_and_back() {
        let mut settings = Settings::new();
        settings.entered = [0x0102_0304];
        for (place, number) in settings.numbers.iter_mut().enumerate() {
            *number = -1.0 / (place as f64);
        }
        let bytes = settings.to_bytes();
        assert_eq!(bytes.len(), 392);
        assert_eq!(bytes[..8], [4, 3, 2, 1, 0, 0, 0, 0]);
        assert_eq!(bytes[8..16], f64::NEG_INFINITY.to_le_bytes());
        assert_eq!(bytes[16..24], (-1.0f64).to_le_bytes());
        let back = Settings::from_bytes(&bytes);
        assert_eq!(back.entered, settings.entered);
        assert_eq!(back.to_bytes(), bytes);
    }
}
