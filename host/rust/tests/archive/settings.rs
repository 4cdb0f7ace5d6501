//! The record of settings: the archive beside a plain list that only grows.

use crate::shapes::Draw;
use crate::shapes::{a, b};
use mask_tools::{area_pass, stitch, Refusal, Selector, Setting, Settings, Slices, Tolerance};

fn setting(i: usize) -> Setting {
    Setting {
        tolerance: Tolerance {
            x: 1.0 / (i + 1) as f64,
            y: 1.0 / (2 * i + 3) as f64,
        },
        area_limit: i as f64 / 4.0,
    }
}

#[test]
fn sixteen_and_no_more() {
    let mut settings = Settings::new();
    for i in 0..16 {
        assert_eq!(settings.len(), i);
        assert_eq!(settings.ask(i + 1), Err(Refusal::UnknownSetting));
        assert_eq!(settings.enter(setting(i)), Ok(i + 1));
    }
    let kept = settings.to_bytes();
    assert_eq!(settings.enter(setting(16)), Err(Refusal::SettingsFull));
    let bad = Setting {
        tolerance: Tolerance::new(f64::NAN),
        ..setting(0)
    };
    assert_eq!(settings.enter(bad), Err(Refusal::SettingsFull));
    assert_eq!(settings.to_bytes(), kept);
    for i in 0..16 {
        assert_eq!(settings.ask(i + 1), Ok(setting(i)));
    }
    for edition in [0, 17, usize::MAX] {
        assert_eq!(settings.ask(edition), Err(Refusal::UnknownSetting));
    }
}

#[test]
fn what_is_out_of_range_changes_nothing() {
    let bad = |x, y, limit| {
        let mut settings = Settings::new();
        let answer = settings.enter(Setting {
            tolerance: Tolerance { x, y },
            area_limit: limit,
        });
        assert_eq!(settings.is_empty(), answer.is_err());
        answer
    };
    assert_eq!(bad(1.0, f64::MIN_POSITIVE, f64::MAX), Ok(1));
    for t in [0.0, -0.5, 1.0 + f64::EPSILON, f64::INFINITY, f64::NAN] {
        assert_eq!(bad(t, 0.5, 0.0), Err(Refusal::Tolerance));
        assert_eq!(bad(0.5, t, 0.0), Err(Refusal::Tolerance));
    }
    for limit in [-1.0, f64::INFINITY, f64::NAN] {
        assert_eq!(bad(0.5, 0.5, limit), Err(Refusal::Tolerance));
    }
}

#[test]
fn drawn_histories_as_a_plain_list() {
    let mut draw = Draw(16);
    for _ in 0..2_000 {
        let (mut settings, mut plain) = (Settings::new(), Vec::new());
        for _ in 0..draw.below(60) {
            let s = setting(draw.below(1000));
            match draw.below(4) {
                0 => {
                    let refused = Setting {
                        area_limit: -1.0,
                        ..s
                    };
                    let full = plain.len() == 16;
                    let number = if full { 17 } else { 4 };
                    assert_eq!(
                        settings.enter(refused).map_err(Refusal::number),
                        Err(number)
                    );
                }
                1 if plain.len() < 16 => {
                    plain.push(s);
                    assert_eq!(settings.enter(s), Ok(plain.len()));
                }
                1 => assert_eq!(settings.enter(s), Err(Refusal::SettingsFull)),
                2 => settings = Settings::from_bytes(&settings.to_bytes()),
                _ => {
                    let edition = draw.below(19);
                    let told = settings.ask(edition).ok();
                    let place = edition.checked_sub(1);
                    assert_eq!(told, place.and_then(|place| plain.get(place)).copied());
                }
            }
            assert_eq!(settings.len(), plain.len());
        }
    }
}

/// Calls that name an edition answer as they did when the record was entered, and a kept record
/// serves as the one that was kept.
#[test]
fn a_call_names_an_edition() {
    let mut settings = Settings::new();
    let areas = [0.0f64, 0.25, -0.5, 2.0];
    for i in 0..16 {
        let edition = settings.enter(setting(i)).unwrap();
        for named in 1..=edition {
            let limit = (named - 1) as f64 / 4.0;
            let kept: Vec<usize> = (0..4).filter(|k| areas[*k].abs() >= limit).collect();
            assert_eq!(area_pass(&areas, settings.named(named)), Ok(kept));
            let none = Slices::default();
            let found = stitch(&a(), &b(), &none, Selector::OrAnd, settings.named(named));
            assert!(found.is_ok());
        }
        let next = settings.named(edition + 1);
        assert_eq!(area_pass(&areas, next), Err(Refusal::UnknownSetting));
        settings = Settings::from_bytes(&settings.to_bytes());
        assert_eq!(settings.named(edition).ask(), Ok(setting(i)));
    }
}
