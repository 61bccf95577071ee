//! Measuring two functions by turns.

use std::hint::black_box;
use std::time::{Duration, Instant};

/// How often each function gets its turn; odd, so that there is a middle one.
pub const ROUNDS: usize = 61;
/// How long one turn is: all turns of one function take about 0.3 seconds.
const TURN: Duration = Duration::from_millis(5);

/// What two functions took by turns.
pub struct Times {
    /// The median time of a call to each, in nanoseconds.
    pub one: f64,
    pub other: f64,
    /// The median of the rounds' ratios, one to other. The two turns of a round are next to
    /// each other, so that a machine which gets slower in between counts for both.
    pub ratio: f64,
}

pub fn nanoseconds_per_call<A, B>(one: impl Fn() -> A, other: impl Fn() -> B) -> Times {
    let (one_calls, other_calls) = (calls_in_a_turn(&one), calls_in_a_turn(&other));
    let rounds: Vec<(f64, f64)> = (0..ROUNDS)
        .map(|_| {
            let one_time = time(&one, one_calls) / f64::from(one_calls);
            let other_time = time(&other, other_calls) / f64::from(other_calls);
            (one_time, other_time)
        })
        .collect();
    Times {
        one: median(rounds.iter().map(|round| round.0)),
        other: median(rounds.iter().map(|round| round.1)),
        ratio: median(rounds.iter().map(|round| round.0 / round.1)),
    }
}

/// Finds by doubling how many calls fill a turn; this warms the caches up as well.
fn calls_in_a_turn<A>(function: &impl Fn() -> A) -> u32 {
    let turn = TURN.as_nanos() as f64;
    let mut calls = 1;
    loop {
        let taken = time(function, calls);
        if taken * 2.0 >= turn {
            return (f64::from(calls) * turn / taken).ceil() as u32;
        }
        calls *= 2;
    }
}

/// Nanoseconds that so many calls take.
fn time<A>(function: &impl Fn() -> A, calls: u32) -> f64 {
    let start = Instant::now();
    for _ in 0..calls {
        black_box(function());
    }
    start.elapsed().as_nanos() as f64
}

fn median(numbers: impl Iterator<Item = f64>) -> f64 {
    let mut numbers: Vec<f64> = numbers.collect();
    numbers.sort_by(f64::total_cmp);
    numbers[numbers.len() / 2]
}
