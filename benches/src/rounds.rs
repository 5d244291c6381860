//! Rounds of measures, and their medians.

use model::random::Random;
use std::time::{Duration, Instant};

/// How many keys are looked for before the same come again: too many for the
/// machine to learn their ways by heart.
pub const LOOKED_FOR: usize = 1 << 14;

/// How many keys are looked for once before the rounds, to see that the calls do
/// what they are measured for.
pub const TESTED: usize = 200;

/// How long the calls timed together take, about: long beside the clock's own
/// time, short beside the machine's disturbances.
const TOGETHER_NS: f64 = 20_000.0;

/// A median, and an interval that holds the true median 95 times in 100 if the
/// rounds do not depend on each other.
#[derive(Clone, Copy)]
pub struct Median {
    pub value: f64,
    pub low: f64,
    pub high: f64,
}

impl Median {
    /// Whether the interval is at most half as wide as the value.
    pub fn is_known(self) -> bool {
        self.high - self.low <= self.value / 2.0
    }
}

/// A call of the library beside that of the map, in nanoseconds a call.
pub struct Beside {
    pub call: Median,
    /// The call less check.
    pub above: Median,
    /// The call without its check, many in a row.
    pub alone: Median,
    /// The map's call, many in a row.
    pub map: Median,
    /// Check and the map's call, less check.
    pub behind: Median,
}

/// The median of the values.
pub fn median(mut values: Vec<f64>) -> Median {
    values.sort_unstable_by(f64::total_cmp);
    let (middle, last) = (values.len() / 2, values.len() - 1);
    let aside = (values.len() as f64).sqrt().ceil() as usize;
    Median {
        value: values[middle],
        low: values[middle.saturating_sub(aside)],
        high: values[(middle + aside).min(last)],
    }
}

/// How many calls are timed together, if one takes so long.
pub fn together(once: f64) -> usize {
    (TOGETHER_NS / once).ceil() as usize
}

/// Nanoseconds of one of so many calls. Each call is given its number, counted
/// from `first`.
pub fn time(first: usize, calls: usize, mut call: impl FnMut(usize)) -> f64 {
    let start = Instant::now();
    for number in first..first + calls {
        call(number);
    }
    start.elapsed().as_nanos() as f64 / calls as f64
}

/// Keys to look for, drawn at random from these.
pub fn drawn(random: &mut Random, keys: &[u64]) -> Vec<u64> {
    (0..LOOKED_FOR).map(|_| *random.pick(keys)).collect()
}

/// Rounds for so long, each given its number, and of these the quarter that took
/// least, when the machine was quiet. A round that gives nothing is left out.
pub fn quiet_rounds<R>(how_long: Duration, mut round: impl FnMut(usize) -> Option<R>) -> Vec<R> {
    let start = Instant::now();
    let mut rounds = Vec::new();
    let mut left_out = 0;
    while start.elapsed() < how_long {
        let began = Instant::now();
        match round(rounds.len() + left_out) {
            Some(times) => rounds.push((began.elapsed(), times)),
            None => left_out += 1,
        }
    }
    rounds.sort_unstable_by_key(|&(whole, _)| whole);
    rounds.truncate(rounds.len().div_ceil(4));
    rounds.into_iter().map(|(_, times)| times).collect()
}
