//! The measures of one herd with two libraries, this one and an earlier one: reads,
//! and keys put on and taken off.

use crate::herd::Herd;
use crate::least::{Least, Times};
use crate::library::check;
use crate::measure::{Read, LISTED, READS};
use crate::rounds::{drawn, median, quiet_rounds, time, Median, LOOKED_FOR, TESTED};
use crate::side::{exchange, order, sides, Side, Tag};
use crate::{change, measure};
use model::random::Random;
use model::table::Tables;
use std::hint::black_box;
use std::time::Duration;

/// A call of both libraries, in nanoseconds.
pub struct Both {
    pub before: Median,
    pub now: Median,
    /// This library over the earlier one, a ratio.
    pub ratio: Median,
}

/// An on or an off of both libraries.
pub struct Change {
    pub quiet: Both,
    /// The means of all rows, each with its least time.
    pub means: Times,
}

/// A row comes again on the same tables: they are renewed where the rows begin again.
const _: () = assert!(LOOKED_FOR % (change::IN_A_ROW * change::SAME_TABLES) == 0);

/// A herd that is only read.
struct Reading {
    sides: [Side; 2],
    /// Keys to look for: held ones, and others.
    held: Vec<u64>,
    others: Vec<u64>,
}

impl Reading {
    fn new(herd: Herd) -> Reading {
        let mut random = Random::new(herd.records as u64);
        let mut held = herd.tags(&mut random, 2 * herd.records);
        let others = held.split_off(herd.records);
        let reading = Reading {
            sides: sides(&herd.tables(&held, 0)),
            held: drawn(&mut random, &held),
            others: drawn(&mut random, &others),
        };
        reading.test();
        reading
    }

    /// Both libraries answer what they are measured for.
    fn test(&self) {
        for (&held, &other) in self.held.iter().zip(&self.others).take(TESTED) {
            let [before, now] = self.sides.each_ref().map(|side| {
                assert_eq!(side.find(other).number, 6);
                let found = side.find(held);
                let mut out = [0; LISTED];
                let listed = side.list(held, &mut out);
                assert_eq!((found.number, listed.number), (0, 0));
                (found.record, listed.count, listed.more, out)
            });
            assert_eq!(before, now);
        }
    }

    fn read(&self, side: &Side, what: Read, number: usize) {
        let key = |keys: &[u64]| black_box(keys[number % LOOKED_FOR]);
        match what {
            Read::Held => {
                black_box(side.find(key(&self.held)));
            }
            Read::Other => {
                black_box(side.find(key(&self.others)));
            }
            Read::List => {
                let mut out = [0; LISTED];
                black_box(side.list(key(&self.held), black_box(&mut out)));
            }
        }
    }

    /// One round, of each read by both libraries.
    fn round(&mut self, number: usize) -> [Times; READS.len()] {
        exchange(&mut self.sides);
        let mut random = Random::new(number as u64);
        let first = number * measure::IN_A_ROW;
        READS.map(|what| {
            let mut times = [0.0; 2];
            for place in order(&mut random) {
                let side = &self.sides[place];
                times[place] = time(first, measure::IN_A_ROW, |number| {
                    self.read(side, what, number);
                });
            }
            times
        })
    }
}

/// Which keys are changed.
#[derive(Clone, Copy)]
enum Changed {
    /// Keys that are not held at the start: they are put on, and taken off again.
    Others,
    /// Keys that are held at the start: they are taken off, and put on again.
    Held,
}

/// A herd that is changed.
struct Changing {
    sides: [Side; 2],
    /// The tables as they are at the start.
    start: Tables,
    changed: Changed,
    /// What is changed, row after row; the keys of a row are all different.
    tags: Vec<Tag>,
    /// The least times of each row, of the changes and of those that undo them.
    least: Least,
}

impl Changing {
    fn new(start: &Tables, changed: Changed, tags: Vec<Tag>) -> Changing {
        let mut changing = Changing {
            sides: sides(start),
            start: start.clone(),
            changed,
            least: Least::new(tags.len() / change::IN_A_ROW),
            tags,
        };
        changing.test();
        changing
    }

    /// The calls do what they are measured for.
    fn test(&mut self) {
        for number in 0..TESTED {
            self.renew(number);
            for place in [0, 1] {
                self.row(place, number);
                let Side {
                    tables, declined, ..
                } = &self.sides[place];
                assert!(*declined || check(tables), "the tables are sound");
                assert!(*declined || tables.keys == self.start.keys);
            }
        }
    }

    fn declined(&self) -> bool {
        self.sides.iter().any(|side| side.declined)
    }

    /// The tables of both are those of the start again, after so many rounds or where
    /// a change was declined.
    fn renew(&mut self, number: usize) {
        if number % change::SAME_TABLES == 0 || self.declined() {
            exchange(&mut self.sides);
            for side in &mut self.sides {
                side.restore(&self.start);
            }
        }
    }

    /// The times of one row by the library of this place: of the changes, and of
    /// those that undo them.
    fn row(&mut self, place: usize, number: usize) -> [f64; 2] {
        let first = number % self.least.rows() * change::IN_A_ROW;
        let tags = &self.tags[first..first + change::IN_A_ROW];
        let side = &mut self.sides[place];
        match self.changed {
            Changed::Others => [side.put_on(tags), side.take_off(tags)],
            Changed::Held => [side.take_off(tags), side.put_on(tags)],
        }
    }

    /// One round, of a row by each library; none if a change was declined.
    fn round(&mut self, number: usize) -> Option<[Times; 2]> {
        self.renew(number);
        let mut times = [[0.0; 2]; 2];
        for place in order(&mut Random::new(number as u64)) {
            let [done, undone] = self.row(place, number);
            times[0][place] = done;
            times[1][place] = undone;
        }
        if self.declined() {
            return None;
        }
        self.least.add(number, times);
        Some(times)
    }

    /// Measures the changes, and those that undo them, for so long.
    fn measure(&mut self, how_long: Duration) -> [Change; 2] {
        let rounds = quiet_rounds(how_long, |number| self.round(number));
        changed(&rounds, &self.least)
    }
}

/// Rows of tags that are drawn at random; those of a row are all different.
fn drawn_rows(random: &mut Random, mut tags: Vec<Tag>) -> Vec<Tag> {
    let mut rows = Vec::new();
    while rows.len() < LOOKED_FOR {
        random.shuffle(&mut tags);
        rows.extend(tags.chunks_exact(change::IN_A_ROW).flatten());
    }
    rows.truncate(LOOKED_FOR);
    rows
}

/// The call of this place in rounds.
fn both<const CALLS: usize>(rounds: &[[Times; CALLS]], call: usize) -> Both {
    let of = |value: fn(Times) -> f64| {
        let values = rounds.iter().map(|round| value(round[call]));
        median(values.collect())
    };
    Both {
        before: of(|[before, _]| before),
        now: of(|[_, now]| now),
        ratio: of(|[before, now]| now / before),
    }
}

/// Two changes that rounds have, and the least times of their rows.
pub fn changed(rounds: &[[Times; 2]], least: &Least) -> [Change; 2] {
    [0, 1].map(|which| Change {
        quiet: both(rounds, which),
        means: least.means(which),
    })
}

/// Measures finds of held keys and of others, and lists, on a herd for so long.
pub fn reads(herd: Herd, how_long: Duration) -> [Both; READS.len()] {
    let mut reading = Reading::new(herd);
    let rounds = quiet_rounds(how_long, |number| Some(reading.round(number)));
    READS.map(|what| both(&rounds, what as usize))
}

/// Measures ons of other keys and their offs, then offs of held keys and their ons,
/// on a herd, both together for so long.
pub fn changes(herd: Herd, how_long: Duration) -> [[Change; 2]; 2] {
    let records = herd.records;
    let mut random = Random::new(records as u64);
    let mut held = herd.tags(&mut random, records + LOOKED_FOR);
    let others = held.split_off(records);
    let start = herd.tables(&held, change::IN_A_ROW);
    let free = (records as u32..).take(change::IN_A_ROW).cycle();
    let others = others.into_iter().zip(free).collect();
    let held = drawn_rows(&mut random, held.into_iter().zip(0..).collect());
    [(Changed::Others, others), (Changed::Held, held)]
        .map(|(changed, tags)| Changing::new(&start, changed, tags).measure(how_long / 2))
}
