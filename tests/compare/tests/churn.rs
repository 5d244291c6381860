//! Long runs of calls on one pair of tables, never formatted again: herds grow
//! until no record is free and shrink until none is held, over and over.
//!
//! Every call is checked against the ordered map. A run goes in stretches; in
//! some of them the model goes along, and at their end the tables must be the
//! model's up to page numbers.

use compare::merges::MERGES;
use compare::met::{Met, CUTS, EMPTIED};
use compare::run::Run;
use compare::supply::seeds;
use model::calls::Movement;
use model::claims::claims;
use model::history::{Call, Failure, History, Shape};
use model::random::keys::{key, largest_key, Spread, SPREADS};
use model::random::loads::answers;
use model::random::Random;
use model::shrink::shrink;
use model::table::read;

/// A run, and what it is made of.
struct Churn {
    shape: Shape,
    /// Calls of a stretch.
    stretch: usize,
    /// The model goes along in one stretch of so many.
    along: usize,
    /// The claims about the tables are tested in one stretch of so many.
    claimed: usize,
    /// How new keys are spread.
    spreads: &'static [Spread],
}

/// Who writes the calls of a run.
struct Yard {
    random: Random,
    growing: bool,
    spreads: &'static [Spread],
    spread: Spread,
}

impl Yard {
    fn call(&mut self, run: &Run) -> Call {
        self.turn(run);
        if self.random.percent(1) {
            return self.load(run);
        }
        let key = self.key(run);
        let random = &mut self.random;
        match random.below(100) {
            0 => Call::Check,
            1..=5 => Call::Find(key),
            6 => Call::Find(self.held(run)),
            7 | 8 => self.list(run),
            9 => Call::On(self.held(run), self.record(run, 0)),
            10 => Call::On(key, self.record(run, 1)),
            11 => Call::On(key, (run.tables.used.len() + random.below(3)) as u64),
            12 => Call::Off(key),
            13 => Call::On(too_wide(run), self.record(run, 0)),
            14 => Call::Off(too_wide(run)),
            _ if random.percent(if self.growing { 85 } else { 15 }) => {
                Call::On(key, self.record(run, 0))
            }
            _ => Call::Off(self.held(run)),
        }
    }

    /// The herd grows until no record is free or, now and then, until there is
    /// no room; it shrinks until none is held, or turns before.
    fn turn(&mut self, run: &Run) {
        let (held, records) = (run.map.held.len(), run.tables.used.len());
        match held {
            0 => self.growing = true,
            _ if held == records => self.growing = false,
            _ if run.no_room && self.random.percent(20) => self.growing = false,
            _ if self.random.below(8 * records) == 0 => self.growing = !self.growing,
            _ => return,
        }
        self.spread = *self.random.pick(self.spreads);
    }

    /// A new key, or one near a held one, or one of a few thousand.
    fn key(&mut self, run: &Run) -> u64 {
        let width = run.map.width as usize;
        match self.random.below(4) {
            0 => self.held(run) ^ 1 << self.random.below(width),
            1 => ((1 << (width - 1)) + self.random.number() % 8_192) & largest_key(width),
            _ => key(&mut self.random, width, self.spread),
        }
    }

    /// A held key if there is one.
    fn held(&mut self, run: &Run) -> u64 {
        run.tables.keys[self.record(run, 1) as usize]
    }

    /// A record with this byte if there is one.
    fn record(&mut self, run: &Run, byte: u8) -> u64 {
        let used = &run.tables.used;
        let first = self.random.below(used.len());
        let records = (first..used.len()).chain(0..first);
        let mut fitting = records.filter(|&record| used[record] == byte);
        fitting.next().unwrap_or(first) as u64
    }

    /// A load of at most 40 movements, of which some undo the one before.
    fn load(&mut self, run: &Run) -> Call {
        let count = self.random.below(41);
        let mut movements: Vec<Movement> = Vec::new();
        for _ in 0..count {
            let grows = self.random.percent(if self.growing { 85 } else { 15 });
            let record = self.record(run, 0) as u32;
            let movement = |key, on| Movement { key, record, on };
            movements.push(match movements.last() {
                Some(last) if self.random.percent(15) => movement(last.key, 1 - last.on),
                _ if grows => movement(self.key(run), 1),
                _ => movement(self.held(run), 0),
            });
        }
        let answers = answers(&mut self.random, count);
        Call::Load(movements, answers)
    }

    fn list(&mut self, run: &Run) -> Call {
        let mut ends = [self.key(run), self.key(run)];
        if self.random.percent(80) {
            ends.sort_unstable();
        }
        let slice = vec![self.random.number() as u32; self.random.below(40)];
        Call::List(ends[0], ends[1], slice)
    }
}

/// The smallest key of more than W bits, or the largest if W is 64.
fn too_wide(run: &Run) -> u64 {
    let largest = largest_key(run.map.width as usize);
    largest.saturating_add(1)
}

impl Churn {
    /// So many calls, counted by what they met.
    fn run(&self, seed: u64, calls: usize) -> Met {
        let mut run = Run::new(self.shape);
        let mut yard = Yard {
            random: Random::new(seed),
            growing: true,
            spreads: self.spreads,
            spread: self.spreads[0],
        };
        for number in 0..calls / self.stretch {
            let along = number % self.along == 0;
            run.model = along.then(|| read(run.tables.lent()));
            let start = run.clone();
            let mut made = Vec::new();
            if let Err(what) = self.stretch(&mut run, &mut yard, &mut made, number) {
                let stretch = format!("seed {seed}, {:?}, stretch {number}", self.shape);
                fail(&start, &stretch, self.shape, made, &what);
            }
        }
        run.met
    }

    fn stretch(
        &self,
        run: &mut Run,
        yard: &mut Yard,
        made: &mut Vec<Call>,
        number: usize,
    ) -> Result<(), String> {
        for _ in 0..self.stretch {
            made.push(yard.call(run));
            run.step(&made[made.len() - 1])?;
        }
        run.compare()?;
        if number % self.claimed == 0 {
            claims(run.tables.lent(), run.map.width as usize, &run.map.held)?;
        }
        Ok(())
    }
}

/// Panics with the fewest calls of the stretch that still fail from the tables
/// at its start, the model going along and compared after each.
fn fail(start: &Run, stretch: &str, shape: Shape, calls: Vec<Call>, what: &str) -> ! {
    let attempt = |history: &History| {
        let mut run = start.clone();
        run.model = Some(read(run.tables.lent()));
        for (before, made) in history.calls.iter().enumerate() {
            let calls = before + 1;
            let step = run.step(made).and_then(|()| run.compare());
            step.map_err(|what| Failure { calls, what })?;
        }
        Ok(())
    };
    let history = History { shape, calls };
    let Err(failure) = attempt(&history) else {
        panic!("{stretch}: {what}; not so if compared after each call");
    };
    let (shortest, failure) = shrink(&history, failure, attempt);
    let (what, calls) = (failure.what, shortest.calls);
    panic!("{stretch}: {what}\nafter, of its calls,\n{calls:#x?}");
}

/// A quarter of a million calls at small pages, where all refusals but 8 are met.
fn small_pages(width: usize, entries: usize, pages: usize, records: usize) -> Met {
    let churn = Churn {
        shape: Shape {
            width,
            entries,
            pages,
            records,
        },
        stretch: 500,
        along: 8,
        claimed: 5,
        spreads: &SPREADS,
    };
    let met = churn.run(seeds(1).start, 250_000);
    met.assert(100, &["on 0", "on 3", "on 4", "on 5", "on 7"]);
    met.assert(
        100,
        &["off 0", "off 6", "find 0", "find 6", "list 0", "check true"],
    );
    met.assert(100, &CUTS);
    met.assert(100, &["load 0", "moved on 0", "moved off 0"]);
    met.assert(
        20,
        &[
            "load 12",
            "moved on 7",
            "moved on after a 7",
            "moved after a refusal",
        ],
    );
    // Told where the model goes along.
    met.assert(10, &EMPTIED);
    met
}

#[test]
fn two_entries_a_page() {
    let met = small_pages(26, 2, 150, 20);
    met.assert(100, &["on 8"]);
}

#[test]
fn three_entries_a_page() {
    let met = small_pages(16, 3, 60, 24);
    met.assert(100, &["on 2", "off 2"]);
}

#[test]
fn four_entries_a_page() {
    let met = small_pages(20, 4, 50, 30);
    met.assert(100, &["on 2", "off 2"]);
}

#[test]
fn five_entries_a_page() {
    let met = small_pages(40, 5, 60, 36);
    met.assert(100, &["on 2", "off 2"]);
    // One entry makes a page of E one over E, and two entries are not sparse.
    let never = ["neighbour further over E", "joined and still sparse"];
    let merges = MERGES.into_iter().filter(|what| !never.contains(what));
    met.assert(20, &merges.collect::<Vec<&str>>());
}

#[test]
fn nine_entries_a_page() {
    let met = small_pages(48, 9, 40, 60);
    met.assert(100, &["on 2", "off 2"]);
    met.assert(20, &MERGES);
}

/// W 64, E 60, P 250, 4,096 records.
#[test]
fn the_day_books_tables() {
    let churn = Churn {
        shape: Shape {
            width: 64,
            entries: 60,
            pages: 250,
            records: 4_096,
        },
        stretch: 500,
        along: 20,
        claimed: 20,
        spreads: &[Spread::Even],
    };
    let met = churn.run(seeds(1).start, 200_000);
    met.assert(100, &["on 0", "on 3", "on 4", "on 5", "off 0", "off 6"]);
    met.assert(100, &["one page taken"]);
    met.assert(100, &["load 0", "moved on 0", "moved off 0"]);
    met.assert(10, &["joined left", "joined right"]);
}
