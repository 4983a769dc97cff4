//! Times of calls made by turns in one run: only their ratios say something.

use std::time::{Duration, Instant};

/// The medians of the times of both, called by turns.
pub fn medians(rounds: usize, mut first: impl FnMut(), mut second: impl FnMut()) -> [Duration; 2] {
    let mut times = [Vec::new(), Vec::new()];
    for _ in 0..rounds {
        times[0].push(time(&mut first));
        times[1].push(time(&mut second));
    }
    times.map(median)
}

/// The ratio of these medians.
pub fn ratio(rounds: usize, first: impl FnMut(), second: impl FnMut()) -> f64 {
    let [first, second] = medians(rounds, first, second);
    first.as_secs_f64() / second.as_secs_f64()
}

/// The quickest of some calls: the one that the machine disturbed least.
pub fn quickest(rounds: usize, mut call: impl FnMut()) -> Duration {
    (0..rounds).map(|_| time(&mut call)).min().expect("at least one round")
}

/// The quickest of both, called by turns.
pub fn quickests(
    rounds: usize,
    mut first: impl FnMut(),
    mut second: impl FnMut(),
) -> [Duration; 2] {
    (0..rounds)
        .map(|_| [time(&mut first), time(&mut second)])
        .reduce(|[a, b], [c, d]| [a.min(c), b.min(d)])
        .expect("at least one round")
}

pub fn time(call: &mut impl FnMut()) -> Duration {
    let start = Instant::now();
    call();
    start.elapsed()
}

fn median(mut times: Vec<Duration>) -> Duration {
    times.sort();
    times[times.len() / 2]
}
