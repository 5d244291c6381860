//! The check of several herds in turn: tables that the processor has not just
//! checked, so that it cannot foresee which entries are dummies.

use crate::herd::Herd;
use crate::library::check;
use crate::rounds::{median, quiet_rounds, time, Median};
use model::random::Random;
use model::table::Tables;
use std::hint::black_box;
use std::time::Duration;

/// How many herds are checked in turn.
pub const HERDS: u64 = 8;

/// Other herds of the same kind and size.
fn tables(herd: Herd) -> Vec<Tables> {
    let other = |number: u64| {
        let mut random = Random::new(number << 32 | herd.records as u64);
        let keys = herd.tags(&mut random, herd.records);
        herd.tables(&keys, 0)
    };
    (1..=HERDS).map(other).collect()
}

/// Measures one of the checks for so long, in nanoseconds.
pub fn in_turn(herd: Herd, how_long: Duration) -> Median {
    let herds = tables(herd);
    assert!(herds.iter().all(check), "the tables are sound");
    let round = |_| {
        Some(time(0, herds.len(), |number| {
            black_box(check(black_box(&herds[number])));
        }))
    };
    median(quiet_rounds(how_long, round))
}
