//! Rates that can be compared: the engines take turns within one run.

use std::time::Instant;

pub const ROUNDS: usize = 7;

/// Times `work`, which does `count` operations. Gives operations per second.
pub fn rate(count: usize, work: impl FnOnce()) -> f64 {
    let start = Instant::now();
    work();
    count as f64 / start.elapsed().as_secs_f64()
}

/// The median rate of each engine. They take turns, and another one goes first in each round, so
/// that a change of clock speed hits all.
pub fn medians(engines: &[&dyn Fn() -> f64]) -> Vec<f64> {
    let mut rates = vec![Vec::new(); engines.len()];
    for round in 0..ROUNDS {
        for turn in 0..engines.len() {
            let which = (round + turn) % engines.len();
            rates[which].push(engines[which]());
        }
    }
    rates.into_iter().map(median).collect()
}

/// The one in the middle, or the mean of two.
pub fn median(mut numbers: Vec<f64>) -> f64 {
    numbers.sort_by(f64::total_cmp);
    let count = numbers.len();
    (numbers[(count - 1) / 2] + numbers[count / 2]) / 2.0
}
