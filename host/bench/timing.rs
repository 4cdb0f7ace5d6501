//! Times side by side. The sides take turns, batch after batch, so that other load on the machine
//! meets all of them. What counts are the ratios of batches that ran next to each other.

use std::time::{Duration, Instant};

/// How long a batch of calls is to take.
const BATCH: Duration = Duration::from_micros(150);
/// How long all batches of one case may take, about.
const CASE: Duration = Duration::from_millis(140);
/// The same where only our own side is timed, at two sizes.
const GROWTH: Duration = Duration::from_millis(50);
const LEAST_ROUNDS: usize = 15;

/// Nanoseconds of a call, by side and round.
pub struct Times(Vec<Vec<f64>>);

pub fn middle(values: impl Iterator<Item = f64>) -> f64 {
    let mut values: Vec<f64> = values.collect();
    values.sort_by(f64::total_cmp);
    values[values.len() / 2]
}

impl Times {
    pub fn sides(&self) -> usize {
        self.0.len()
    }

    pub fn middle(&self, side: usize) -> f64 {
        middle(self.0[side].iter().copied())
    }

    pub fn ratio(&self, side: usize, to: usize) -> f64 {
        let pairs = self.0[side].iter().zip(&self.0[to]);
        middle(pairs.map(|(a, b)| a / b))
    }
}

/// Nanoseconds of a call, taken over so many.
pub fn batch(side: &mut dyn FnMut(), calls: usize) -> f64 {
    let start = Instant::now();
    for _ in 0..calls {
        side();
    }
    start.elapsed().as_nanos() as f64 / calls as f64
}

/// How many calls make a batch. The calls made to find out also warm the caches.
fn calls_in_a_batch(side: &mut dyn FnMut()) -> usize {
    let mut calls = 1;
    loop {
        let each = batch(side, calls).max(1.0);
        let wanted = (BATCH.as_nanos() as f64 / each).ceil() as usize;
        if wanted <= 2 * calls {
            return wanted.max(1);
        }
        calls = (2 * calls).min(wanted);
    }
}

pub fn measure(sides: &mut [&mut dyn FnMut()]) -> Times {
    measure_for(CASE, sides)
}

pub fn measure_growth(sides: &mut [&mut dyn FnMut()]) -> Times {
    measure_for(GROWTH, sides)
}

fn measure_for(case: Duration, sides: &mut [&mut dyn FnMut()]) -> Times {
    let calls: Vec<usize> = sides.iter_mut().map(|s| calls_in_a_batch(*s)).collect();
    let mut times = vec![Vec::new(); sides.len()];
    let start = Instant::now();
    for round in 0.. {
        if round >= LEAST_ROUNDS && start.elapsed() > case {
            break;
        }
        for turn in 0..sides.len() {
            let side = (round + turn) % sides.len();
            let time = batch(sides[side], calls[side]);
            times[side].push(time);
        }
    }
    Times(times)
}
