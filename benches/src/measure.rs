//! The measures of one herd that is only read.

use crate::aligned::Compared;
use crate::herd::{Herd, Size};
use crate::library::{check, find, list, unchecked, Answer};
use crate::rounds::{
    drawn, median, quiet_rounds, time, together, Beside, Median, LOOKED_FOR, TESTED,
};
use model::random::Random;
use model::table::Tables;
use std::collections::BTreeMap;
use std::hint::black_box;
use std::time::Duration;

/// What is read, beside `BTreeMap`'s get and range.
#[derive(Clone, Copy)]
pub enum Read {
    /// Find of a held key.
    Held,
    /// Find of another key.
    Other,
    /// List from a held key on.
    List,
}

pub const READS: [Read; 3] = [Read::Held, Read::Other, Read::List];

/// Check, each read, and a check with each read of the map.
const KINDS: usize = 1 + 2 * READS.len();

/// How many records a list may write, as in the day book.
pub const LISTED: usize = 32;

/// How many reads that check nothing are timed together.
pub const IN_A_ROW: usize = 256;

/// What was measured of a herd, in nanoseconds a call.
pub struct Measures {
    pub records: usize,
    pub size: Size,
    pub rounds: usize,
    pub memcmp: Median,
    pub check: Median,
    /// Check over memcmp, a ratio.
    pub over_memcmp: Median,
    reads: [Beside; READS.len()],
}

impl Measures {
    /// A read beside that of the map.
    pub fn read(&self, what: Read) -> &Beside {
        &self.reads[what as usize]
    }
}

/// The times of one round; four of them for each read.
struct Round {
    memcmp: f64,
    check: f64,
    call: [f64; READS.len()],
    check_and_map: [f64; READS.len()],
    alone: [f64; READS.len()],
    map: [f64; READS.len()],
}

/// A herd with all that a round works on.
struct Bench {
    tables: Tables,
    copy: Compared,
    map: BTreeMap<u64, u32>,
    /// Keys to look for: held ones, and others.
    held: Vec<u64>,
    others: Vec<u64>,
    /// How many calls of check, find or list are timed together.
    calls: usize,
    /// How many comparisons are timed together.
    compares: usize,
}

impl Bench {
    fn new(herd: Herd) -> Bench {
        let mut random = Random::new(herd.records as u64);
        let mut held = herd.tags(&mut random, 2 * herd.records);
        let others = held.split_off(herd.records);
        let tables = herd.tables(&held, 0);
        let mut bench = Bench {
            copy: Compared::new(&tables),
            tables,
            map: held.iter().copied().zip(0..).collect(),
            held: drawn(&mut random, &held),
            others: drawn(&mut random, &others),
            calls: 1,
            compares: 1,
        };
        bench.test();
        bench.calls = together(time(0, 20, |_| bench.check()));
        bench.compares = together(time(0, 20, |_| bench.compare()));
        bench
    }

    /// The calls do what they are measured for.
    fn test(&self) {
        assert!(check(&self.tables), "the tables are sound");
        for &key in &self.held[..TESTED] {
            for answer in [find(&self.tables, key), unchecked::find(&self.tables, key)] {
                assert_eq!((answer.number, answer.record), (0, self.map[&key]));
            }
            self.test_list(key, list);
            self.test_list(key, unchecked::list);
        }
        for &key in &self.others[..TESTED] {
            assert_eq!(find(&self.tables, key).number, 6);
            assert_eq!(unchecked::find(&self.tables, key).number, 6);
        }
    }

    fn test_list(&self, key: u64, list: fn(&Tables, u64, u64, &mut [u32]) -> Answer) {
        let mut out = [0; LISTED];
        let answer = list(&self.tables, key, u64::MAX, &mut out);
        let records = self.map.range(key..).take(LISTED + 1).count();
        let count = records.min(LISTED) as u64;
        assert_eq!((answer.number, answer.count), (0, count));
        assert_eq!(answer.more, records > LISTED);
        assert_eq!(out, self.range(key));
    }

    fn key(&self, what: Read, number: usize) -> u64 {
        let keys = match what {
            Read::Held | Read::List => &self.held,
            Read::Other => &self.others,
        };
        black_box(keys[number % LOOKED_FOR])
    }

    fn check(&self) {
        black_box(check(black_box(&self.tables)));
    }

    /// A read of the tables, by these calls.
    fn read_by(
        &self,
        find: impl Fn(&Tables, u64) -> Answer,
        list: impl Fn(&Tables, u64, u64, &mut [u32]) -> Answer,
        what: Read,
        number: usize,
    ) {
        let key = self.key(what, number);
        let tables = black_box(&self.tables);
        match what {
            Read::Held | Read::Other => {
                black_box(find(tables, key));
            }
            Read::List => {
                let mut out = [0; LISTED];
                black_box(list(tables, key, u64::MAX, black_box(&mut out)));
            }
        }
    }

    /// A read of the tables.
    fn read(&self, what: Read, number: usize) {
        self.read_by(find, list, what, number);
    }

    /// The same read without its check.
    fn read_alone(&self, what: Read, number: usize) {
        self.read_by(unchecked::find, unchecked::list, what, number);
    }

    /// The same read of the map.
    fn read_map(&self, what: Read, number: usize) {
        let key = self.key(what, number);
        match what {
            Read::Held | Read::Other => {
                black_box(black_box(&self.map).get(&key));
            }
            Read::List => {
                black_box(self.range(key));
            }
        }
    }

    /// The first records from a key on; zeros behind the last.
    fn range(&self, key: u64) -> [u32; LISTED] {
        let mut out = [0; LISTED];
        let range = black_box(&self.map).range(key..);
        for (place, (_, record)) in out.iter_mut().zip(range) {
            *place = *record;
        }
        out
    }

    fn compare(&self) {
        black_box(black_box(&self.copy).same(black_box(&self.tables)));
    }

    /// A call that is measured by its difference to a check, or a check.
    fn call(&self, kind: usize, number: usize) {
        match kind.checked_sub(1) {
            None => self.check(),
            Some(read) if read < READS.len() => self.read(READS[read], number),
            Some(read) => {
                self.check();
                self.read_map(READS[read - READS.len()], number);
            }
        }
    }

    /// One round. Check and what is compared with it come in random order.
    fn round(&self, round: usize) -> Round {
        let memcmp = time(0, self.compares, |_| self.compare());
        let mut kinds: [usize; KINDS] = std::array::from_fn(|kind| kind);
        Random::new(round as u64).shuffle(&mut kinds);
        let mut times = [0.0; KINDS];
        for kind in kinds {
            let first = round * self.calls;
            times[kind] = time(first, self.calls, |number| self.call(kind, number));
        }
        let first = round * IN_A_ROW;
        let alone = |what| time(first, IN_A_ROW, |number| self.read_alone(what, number));
        let map = |what| time(first, IN_A_ROW, |number| self.read_map(what, number));
        Round {
            memcmp,
            check: times[0],
            call: READS.map(|what| times[1 + what as usize]),
            check_and_map: READS.map(|what| times[1 + READS.len() + what as usize]),
            alone: READS.map(alone),
            map: READS.map(map),
        }
    }
}

/// Measures a herd for so long.
pub fn measure(herd: Herd, how_long: Duration) -> Measures {
    let bench = Bench::new(herd);
    let rounds = quiet_rounds(how_long, |number| Some(bench.round(number)));
    let of = |value: &dyn Fn(&Round) -> f64| median(rounds.iter().map(value).collect());
    let read = |what: Read| {
        let which = what as usize;
        Beside {
            call: of(&|round| round.call[which]),
            above: of(&|round| round.call[which] - round.check),
            alone: of(&|round| round.alone[which]),
            map: of(&|round| round.map[which]),
            behind: of(&|round| round.check_and_map[which] - round.check),
        }
    };
    Measures {
        records: herd.records,
        size: Size::of(&bench.tables),
        rounds: rounds.len(),
        memcmp: of(&|round| round.memcmp),
        check: of(&|round| round.check),
        over_memcmp: of(&|round| round.check / round.memcmp),
        reads: READS.map(read),
    }
}
