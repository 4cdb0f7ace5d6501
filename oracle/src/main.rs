//! Answers every ported stage with the archive and with the original, and compares bit for bit.

use oracle::call::Outcome;
use oracle::random::Random;
use oracle::record::{Origin, Record};
use oracle::tally::{Tally, quiet_caught_panics};
use oracle::{
    at_once, axes, damaged, findings, hostile, late, limits, ours, print, realistic, refusal, second,
    starts, theirs,
};
use std::process::ExitCode;

const USAGE: &str = "usage:
  compare N SEED                    N generated scenarios, each of many entry calls
  compare --record FILE COUNT SEED  writes about COUNT of the compared calls to FILE (RECORD.md)
  compare --record-later FILE COUNT SEED
                                    the same, and the base's calls stay those that FILE has
  compare --scenario NUMBER SEED    one scenario alone
  compare --axes N SEED             N calls of each entry that takes tolerances, with two that differ
  compare --judges N SEED           the same, only the judges beside each other
  compare --starts N SEED           N outlines of few vertices, with all pairs of their points
  compare --late N SEED             N pairs of outlines, one of them changed after it was cut
  compare --straight N SEED         N pairs of straight masks in whole microdegrees, by the one call
  compare --paste 'WORDS'           one call, as a difference prints it, answered both ways
  compare --findings                the known differences, each at its smallest input";

fn main() -> ExitCode {
    quiet_caught_panics();
    let arguments: Vec<String> = std::env::args().skip(1).collect();
    let arguments: Vec<&str> = arguments.iter().map(String::as_str).collect();
    let done = match arguments[..] {
        ["--record", file, count, seed] => record(file, count, seed, None),
        ["--record-later", file, count, seed] => match std::fs::read(file) {
            Ok(bytes) => record(file, count, seed, Some(&bytes)),
            Err(fault) => {
                eprintln!("compare: {file}: {fault}");
                Some(ExitCode::from(2))
            }
        },
        ["--scenario", number, seed] => one_scenario(number, seed),
        ["--axes", count, seed] => alone(count, seed, AXES, axes::scenario),
        ["--judges", count, seed] => alone(count, seed, AXES, axes::judges),
        ["--starts", count, seed] => alone(count, seed, STARTS, starts::scenario),
        ["--late", count, seed] => alone(count, seed, LATE, late::scenario),
        ["--straight", count, seed] => alone(count, seed, STRAIGHT, at_once::scenario),
        ["--paste", words] => paste(words),
        ["--findings"] => {
            findings::show();
            Some(ExitCode::SUCCESS)
        }
        [count, seed] => compare(count, seed),
        _ => None,
    };
    done.unwrap_or_else(|| {
        eprintln!("{USAGE}");
        ExitCode::from(2)
    })
}

fn scenario_numbers(seed: u64, number: u64) -> Random {
    Random::new(seed.wrapping_mul(0x0100_0000_01b3).wrapping_add(number))
}

/// One scenario. Its family follows from its number, its content from seed and number.
fn scenario(tally: &mut Tally, seed: u64, number: u64) {
    tally.scenario = number;
    let mut rng = scenario_numbers(seed, number);
    // What came after the base is drawn apart, so that the base's calls in a record stay as they are.
    let mut later = rng.apart();
    match number % 10 {
        0..=4 => {
            realistic::scenario(tally, &mut rng);
            at_once::scenario(tally, &mut later.apart());
            late::scenario(tally, &mut later);
        }
        5..=8 => {
            hostile::scenario(tally, &mut rng);
            hostile::later_scenario(tally, &mut later);
            axes::scenario(tally, &mut later);
        }
        _ => {
            damaged::scenario(tally, &mut rng);
            damaged::later_scenario(tally, &mut later);
        }
    }
    if number % 500 == 0 {
        limits::scenario(tally, &mut rng);
    }
    if number % 100 == 50 {
        starts::scenario(tally, &mut later);
    }
}

fn compare(count: &str, seed: &str) -> Option<ExitCode> {
    let count: u64 = count.parse().ok()?;
    let seed: u64 = seed.parse().ok()?;
    let mut tally = Tally::default();
    for number in 0..count {
        scenario(&mut tally, seed, number);
    }
    println!("{count} scenarios, seed {seed}\n");
    Some(report(&tally))
}

const AXES: &str = "calls of each entry that takes tolerances";
const STARTS: &str = "outlines with all pairs of their points";
const LATE: &str = "pairs of outlines, one of them changed after it was cut";
const STRAIGHT: &str = "pairs of straight masks in whole microdegrees";

/// One family alone.
fn alone(
    count: &str,
    seed: &str,
    what: &str,
    make: fn(&mut Tally, &mut Random),
) -> Option<ExitCode> {
    let count: u64 = count.parse().ok()?;
    let seed: u64 = seed.parse().ok()?;
    let mut tally = Tally::default();
    for number in 0..count {
        tally.scenario = number;
        make(&mut tally, &mut scenario_numbers(seed, number).apart());
    }
    println!("{count} {what}, seed {seed}\n");
    Some(report(&tally))
}

fn one_scenario(number: &str, seed: &str) -> Option<ExitCode> {
    let mut tally = Tally::default();
    scenario(&mut tally, seed.parse().ok()?, number.parse().ok()?);
    Some(report(&tally))
}

fn report(tally: &Tally) -> ExitCode {
    let unexplained = tally.report();
    println!(
        "\ncompare: {} cases, {unexplained} unexplained differences",
        tally.total()
    );
    ExitCode::from(u8::from(unexplained > 0))
}

/// Where there is a record already, its calls of the base stay.
fn record(file: &str, count: &str, seed: &str, before: Option<&[u8]>) -> Option<ExitCode> {
    let count: usize = count.parse().ok()?;
    let seed: u64 = seed.parse().ok()?;
    let mut tally = Tally::default();
    tally.record = Some(Record::new(count, seed));
    let full = |tally: &Tally| tally.record.as_ref().is_some_and(Record::full);
    for number in (1..100_000).filter(|number| number % 500 != 0) {
        scenario(&mut tally, seed, number);
        if full(&tally) {
            break;
        }
    }
    let mut record = tally.record.take()?;
    for call in starts::corners() {
        let (expected, origin) = match refusal::expected(&call) {
            0 => (theirs::answer(&call), Origin::Original),
            number => (Outcome::refused(&call, number), Origin::Table),
        };
        record.add(&call, &expected, origin);
    }
    if before.is_some_and(|bytes| record.keep_base(bytes).is_none()) {
        eprintln!("compare: {file}: not a record");
        return Some(ExitCode::from(2));
    }
    let bytes = record.bytes();
    if let Err(fault) = std::fs::write(file, &bytes) {
        eprintln!("compare: {file}: {fault}");
        return Some(ExitCode::from(2));
    }
    println!(
        "compare: {} cases written, {} bytes",
        record.count(),
        bytes.len()
    );
    Some(ExitCode::SUCCESS)
}

fn paste(words: &str) -> Option<ExitCode> {
    let call = match print::parse(words) {
        Ok(call) => call,
        Err(fault) => {
            eprintln!("compare: {fault}");
            return Some(ExitCode::from(2));
        }
    };
    println!("{}", print::call(&call));
    let ours = match ours::answer(&call) {
        Ok(ours) => ours,
        Err(fault) => {
            println!("{fault}");
            return Some(ExitCode::from(1));
        }
    };
    let expected = match refusal::expected(&call) {
        0 if !call.has_one_tolerance() => second::answer(&call),
        0 => theirs::answer(&call),
        number => Outcome::refused(&call, number),
    };
    if ours == expected {
        println!("  answer of both  {:x?}", ours.answer);
        return Some(ExitCode::SUCCESS);
    }
    print!("{}", print::difference(&call, &expected, &ours));
    Some(ExitCode::from(1))
}
