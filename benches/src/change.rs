//! The measures of one herd that is changed: keys are put on and taken off again.

use crate::herd::Herd;
use crate::library::{check, off, on, unchecked, Answer};
use crate::rounds::{median, quiet_rounds, time, together, Beside, LOOKED_FOR, TESTED};
use model::random::Random;
use model::table::Tables;
use std::collections::BTreeMap;
use std::hint::black_box;
use std::time::Duration;

/// How many calls without a check, or inserts of the map, are timed together, and
/// then as many that take the keys off again: few beside the smallest herd.
pub const IN_A_ROW: usize = 16;

/// After so many rounds the tables are those of the start again.
pub const SAME_TABLES: usize = 64;

/// A herd with all that a round works on.
struct Bench {
    tables: Tables,
    /// The tables as they are at the start.
    copy: Tables,
    map: BTreeMap<u64, u32>,
    /// Keys to put on, all different and none held.
    keys: Vec<u64>,
    /// The first record that is free.
    free: u32,
    /// How many pairs of on and off are timed in a round.
    pairs: usize,
    /// Whether an on of this round was declined: pages that were cut stay so when
    /// the key is taken off, and in the end there may be none left.
    declined: bool,
}

/// The times of one round of pairs; of on and insert, and of off and remove.
#[derive(Default)]
struct Round {
    call: [f64; 2],
    above: [f64; 2],
    behind: [f64; 2],
}

/// The times of one row, of the same.
struct Row {
    alone: [f64; 2],
    map: [f64; 2],
}

/// Nanoseconds of a call.
fn once(call: impl FnOnce()) -> f64 {
    let mut call = Some(call);
    time(0, 1, |_| call.take().into_iter().for_each(|call| call()))
}

impl Bench {
    fn new(herd: Herd) -> Bench {
        let records = herd.records;
        let mut held = herd.tags(&mut Random::new(records as u64), records + LOOKED_FOR);
        let keys = held.split_off(records);
        let tables = herd.tables(&held, IN_A_ROW);
        let mut bench = Bench {
            copy: tables.clone(),
            tables,
            map: held.iter().copied().zip(0..).collect(),
            keys,
            free: records as u32,
            pairs: 1,
            declined: false,
        };
        bench.test();
        bench.pairs = together(time(0, 20, |_| bench.check()));
        bench
    }

    /// The calls do what they are measured for.
    fn test(&mut self) {
        for number in 0..TESTED {
            assert!(check(&self.tables), "the tables are sound");
            let key = self.keys[number];
            let with = self.test_change(key, on, off);
            let same = self.test_change(key, unchecked::on, unchecked::off);
            assert!(with == same, "the check changes nothing");
        }
    }

    /// The tables with the key, which is taken off again.
    fn test_change(
        &mut self,
        key: u64,
        on: fn(&mut Tables, u64, u32) -> Answer,
        off: fn(&mut Tables, u64) -> Answer,
    ) -> Tables {
        assert_eq!(on(&mut self.tables, key, self.free).number, 0);
        assert!(check(&self.tables), "the tables are sound with the key");
        let with = self.tables.clone();
        assert_eq!(off(&mut self.tables, key).number, 0);
        self.restore();
        with
    }

    fn key(&self, number: usize) -> u64 {
        black_box(self.keys[number % LOOKED_FOR])
    }

    fn check(&self) {
        black_box(check(black_box(&self.tables)));
    }

    fn on(&mut self, key: u64) {
        let answer = on(black_box(&mut self.tables), key, self.free);
        self.declined |= answer.number != 0;
    }

    fn off(&mut self, key: u64) {
        black_box(off(black_box(&mut self.tables), key));
    }

    fn on_alone(&mut self, key: u64, record: usize) {
        let record = self.free + record as u32;
        let answer = unchecked::on(black_box(&mut self.tables), key, record);
        self.declined |= answer.number != 0;
    }

    fn off_alone(&mut self, key: u64) {
        black_box(unchecked::off(black_box(&mut self.tables), key));
    }

    fn insert(&mut self, key: u64) {
        black_box(black_box(&mut self.map).insert(key, self.free));
    }

    fn remove(&mut self, key: u64) {
        black_box(black_box(&mut self.map).remove(&key));
    }

    fn restore(&mut self) {
        self.tables.index.copy_from_slice(&self.copy.index);
        self.tables.keys.copy_from_slice(&self.copy.keys);
        self.tables.used.copy_from_slice(&self.copy.used);
        self.declined = false;
    }

    /// A key put on and taken off with a check of the tables between; a check of
    /// the tables without the key; a check with an insert, and with a remove. On
    /// and off check the same tables as the checks that they are compared with.
    fn pair(&mut self, number: usize, round: &mut Round) {
        let key = self.key(number);
        let [mut put_on, mut with, mut taken_off] = [0.0; 3];
        let [mut without, mut inserted, mut removed] = [0.0; 3];
        for kind in order(number) {
            match kind {
                Kind::Change => {
                    put_on = once(|| self.on(key));
                    with = once(|| self.check());
                    taken_off = once(|| self.off(key));
                }
                Kind::Check => without = once(|| self.check()),
                Kind::Insert => {
                    inserted = once(|| {
                        self.check();
                        self.insert(key);
                    });
                }
                Kind::Remove => {
                    removed = once(|| {
                        self.check();
                        self.remove(key);
                    });
                }
            }
        }
        add(&mut round.call, [put_on, taken_off]);
        add(&mut round.above, [put_on - without, taken_off - with]);
        add(&mut round.behind, [inserted - without, removed - without]);
    }

    /// The tables are those of the start again, after so many rounds or where an on
    /// was declined; whether they are.
    fn renew(&mut self, number: usize) -> bool {
        let renewed = number % SAME_TABLES == 0 || self.declined;
        if renewed {
            self.restore();
        }
        renewed
    }

    /// One round of pairs, of which a first check is not timed; none if an on was
    /// declined.
    fn round(&mut self, number: usize) -> Option<Round> {
        let mut round = Round::default();
        if self.renew(number) {
            self.check();
        }
        self.check();
        for pair in 0..self.pairs {
            self.pair(number * self.pairs + pair, &mut round);
        }
        let each = |sums: [f64; 2]| sums.map(|sum| sum / self.pairs as f64);
        let round = Round {
            call: each(round.call),
            above: each(round.above),
            behind: each(round.behind),
        };
        (!self.declined).then_some(round)
    }

    /// One row; none if an on was declined.
    fn row(&mut self, number: usize) -> Option<Row> {
        self.renew(number);
        let first = number * IN_A_ROW;
        let put_on = time(first, IN_A_ROW, |number| {
            self.on_alone(self.key(number), number % IN_A_ROW);
        });
        let taken_off = time(first, IN_A_ROW, |number| self.off_alone(self.key(number)));
        let inserted = time(first, IN_A_ROW, |number| self.insert(self.key(number)));
        let removed = time(first, IN_A_ROW, |number| self.remove(self.key(number)));
        let row = Row {
            alone: [put_on, taken_off],
            map: [inserted, removed],
        };
        (!self.declined).then_some(row)
    }
}

/// What is timed for a key.
#[derive(Clone, Copy, PartialEq, Eq)]
enum Kind {
    Change,
    Check,
    Insert,
    Remove,
}

/// A random order, but no remove before its insert.
fn order(number: usize) -> [Kind; 4] {
    let mut kinds = [Kind::Change, Kind::Check, Kind::Insert, Kind::Remove];
    Random::new(number as u64).shuffle(&mut kinds);
    let place = |kind| kinds.iter().position(|&other| other == kind);
    if let (Some(insert), Some(remove)) = (place(Kind::Insert), place(Kind::Remove)) {
        if remove < insert {
            kinds.swap(remove, insert);
        }
    }
    kinds
}

fn add(sums: &mut [f64; 2], times: [f64; 2]) {
    sums.iter_mut()
        .zip(times)
        .for_each(|(sum, time)| *sum += time);
}

/// Measures on and off on a herd for so long, and for a third of it without their
/// check.
pub fn changes(herd: Herd, how_long: Duration) -> [Beside; 2] {
    let mut bench = Bench::new(herd);
    let rounds = quiet_rounds(how_long, |number| bench.round(number));
    bench.restore();
    let rows = quiet_rounds(how_long / 3, |number| bench.row(number));
    let of = |value: &dyn Fn(&Round) -> f64| median(rounds.iter().map(value).collect());
    let in_rows = |value: &dyn Fn(&Row) -> f64| median(rows.iter().map(value).collect());
    [0, 1].map(|which: usize| Beside {
        call: of(&|round| round.call[which]),
        above: of(&|round| round.above[which]),
        alone: in_rows(&|row| row.alone[which]),
        map: in_rows(&|row| row.map[which]),
        behind: of(&|round| round.behind[which]),
    })
}
