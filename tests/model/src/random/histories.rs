//! Random histories.

use super::keys::{key, largest_key, Spread, SPREADS};
use super::Random;
use crate::history::{Call, History, Shape};
use crate::leaf_list::Herd;
use crate::table::{HEADER_BYTES, LAYOUT};

/// A shape small enough that pages, levels and records run out now and then.
pub fn small_shape(random: &mut Random) -> Shape {
    let width = match random.below(3) {
        0 => random.between(1, 8),
        1 => random.between(9, 20),
        _ => random.between(21, 64),
    };
    let entries = match random.below(6) {
        0 => 2,
        1 => random.between(2, 4),
        // From 5 on a page of one entry has fewer than a quarter.
        2..=4 => random.between(5, 12),
        _ => random.between(13, 40),
    };
    let pages = if random.percent(25) {
        random.between(1, 10)
    } else {
        random.between(40, 200)
    };
    let records = random.between(1, 40);
    Shape {
        width,
        entries,
        pages,
        records,
    }
}

/// A history of so many calls on tables of this shape.
pub fn history(random: &mut Random, shape: Shape, count: usize) -> History {
    let calls = calls(random, shape, &Herd::new(), count);
    History { shape, calls }
}

/// So many calls on tables of this shape, where this herd is held at first.
pub fn calls(random: &mut Random, shape: Shape, herd: &Herd, count: usize) -> Vec<Call> {
    let mut yard = Yard::new(random, shape, herd);
    (0..count).map(|_| yard.call(random)).collect()
}

/// What the writer of a history believes of the tables. It does not know which
/// calls are declined.
pub(super) struct Yard {
    shape: Shape,
    spread: Spread,
    on_percent: usize,
    pub(super) held: Herd,
}

impl Yard {
    /// The yard where this herd is held.
    pub(super) fn new(random: &mut Random, shape: Shape, herd: &Herd) -> Yard {
        Yard {
            shape,
            spread: *random.pick(&SPREADS),
            on_percent: 50,
            held: herd.clone(),
        }
    }

    fn call(&mut self, random: &mut Random) -> Call {
        self.turn(random);
        match random.below(100) {
            0 => self.format(random),
            1 | 2 => Call::Check,
            3..=12 => Call::Find(self.some_key(random)),
            13..=22 => self.list(random),
            23..=25 => self.load(random),
            _ if self.is_on(random) => {
                let key = self.some_key(random);
                let record = self.some_record(random);
                self.put_on(key, record);
                Call::On(key, record)
            }
            _ => {
                let key = self.held_key(random);
                self.held.remove(&key);
                Call::Off(key)
            }
        }
    }

    /// Herds grow for a while, and then shrink for a while.
    pub(super) fn turn(&mut self, random: &mut Random) {
        if random.percent(3) {
            self.on_percent = *random.pick(&[10, 50, 90]);
            self.spread = *random.pick(&SPREADS);
        }
    }

    /// Whether the next change is an on.
    pub(super) fn is_on(&self, random: &mut Random) -> bool {
        random.percent(self.on_percent)
    }

    /// A record for an on: mostly a free one.
    pub(super) fn some_record(&self, random: &mut Random) -> u64 {
        let records = self.shape.records as u64;
        let taken: Vec<u64> = self.held.values().map(|&record| record.into()).collect();
        let free: Vec<u64> = (0..records)
            .filter(|record| !taken.contains(record))
            .collect();
        match random.below(20) {
            0 => records + random.number() % 2,
            1 => random.number(),
            2 | 3 => random.number() % records,
            _ if free.is_empty() => random.number() % records,
            _ => *random.pick(&free),
        }
    }

    /// The key is believed to be held now.
    pub(super) fn put_on(&mut self, key: u64, record: u64) {
        if record < self.shape.records as u64 {
            self.held.entry(key).or_insert(record as u32);
        }
    }

    fn list(&self, random: &mut Random) -> Call {
        let mut ends = [self.some_key(random), self.some_key(random)];
        if random.percent(80) {
            ends.sort_unstable();
        }
        if random.percent(20) {
            ends = [0, largest_key(self.shape.width)];
        }
        let length = random.below(self.shape.records + 3);
        let slice = (0..length).map(|_| random.number() as u32).collect();
        Call::List(ends[0], ends[1], slice)
    }

    /// A format that is often done: at another width, and now and then with
    /// other pages on a table of the same length.
    fn format(&mut self, random: &mut Random) -> Call {
        let length = LAYOUT.index_bytes(self.shape.entries, self.shape.pages);
        let mut shape = self.shape;
        shape.width = random.between(0, 65);
        if random.percent(50) {
            let same_length = |&entries: &usize| {
                let pages = (length - HEADER_BYTES) / LAYOUT.page_bytes(entries);
                LAYOUT.index_bytes(entries, pages) == length || entries == 20
            };
            let fitting: Vec<usize> = (1..=60).filter(same_length).collect();
            shape.entries = *random.pick(&fitting);
            shape.pages = (length - HEADER_BYTES) / LAYOUT.page_bytes(shape.entries);
        }
        let in_limits = (1..=64).contains(&shape.width) && shape.entries >= 2 && shape.pages > 0;
        if in_limits && LAYOUT.index_bytes(shape.entries, shape.pages) == length {
            self.shape = shape;
            self.held.clear();
        }
        shape.format()
    }

    /// A held key, a neighbour of one, a new one, or one too wide.
    pub(super) fn some_key(&self, random: &mut Random) -> u64 {
        match random.below(20) {
            0 => random.number(),
            1..=3 => self.held_key(random),
            4 | 5 => self.held_key(random) ^ 1 << random.below(self.shape.width),
            _ => key(random, self.shape.width, self.spread),
        }
    }

    pub(super) fn held_key(&self, random: &mut Random) -> u64 {
        let keys: Vec<u64> = self.held.keys().copied().collect();
        if keys.is_empty() || random.percent(5) {
            return key(random, self.shape.width, self.spread);
        }
        *random.pick(&keys)
    }
}
