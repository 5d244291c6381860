//! The measures of empty tables of a herd's size: format, and their check.

use crate::herd::{Size, WIDTH};
use crate::library::{check, format};
use crate::rounds::{median, quiet_rounds, time, together, Median};
use model::table::{header, Tables};
use std::hint::black_box;
use std::time::Duration;

/// What was measured, in nanoseconds a call.
pub struct Formats {
    /// Zeros written over the same bytes.
    pub memset: Median,
    pub format: Median,
    /// Format over memset, a ratio.
    pub over_memset: Median,
    /// Check of the tables that format leaves.
    pub check: Median,
}

/// The times of one round.
struct Round {
    memset: f64,
    format: f64,
    check: f64,
}

/// Tables with what a format of them is given.
struct Bench {
    tables: Tables,
    arguments: [u64; 3],
    /// How many calls are timed together.
    calls: usize,
}

impl Bench {
    fn new(size: &Size) -> Bench {
        let (entries, pages) = (size.most_entries, size.most_pages);
        let mut bench = Bench {
            tables: Tables::zero(entries, pages, size.records),
            arguments: [WIDTH, entries, pages].map(|number| number as u64),
            calls: 1,
        };
        bench.test();
        bench.calls = together(time(0, 20, |_| bench.format()));
        bench
    }

    /// Format does what it is measured for.
    fn test(&mut self) {
        self.tables.index.fill(1);
        self.tables.keys.fill(1);
        self.tables.used.fill(1);
        assert_eq!(format(&mut self.tables, self.arguments).number, 0);
        assert!(check(&self.tables), "the tables are sound");
        assert_eq!(header(&self.tables.index).held, 0);
    }

    fn format(&mut self) {
        black_box(format(black_box(&mut self.tables), self.arguments));
    }

    fn check(&self) {
        black_box(check(black_box(&self.tables)));
    }

    fn clear(&mut self) {
        let Tables { index, keys, used } = black_box(&mut self.tables);
        index.fill(0);
        keys.fill(0);
        used.fill(0);
    }

    /// One round. Every second begins with the zeros; the check comes last, of
    /// tables that are formatted again.
    fn round(&mut self, number: usize) -> Round {
        let [mut memset, mut format] = [0.0; 2];
        for turn in [number, number + 1] {
            if turn % 2 == 0 {
                memset = time(0, self.calls, |_| self.clear());
            } else {
                format = time(0, self.calls, |_| self.format());
            }
        }
        self.format();
        Round {
            memset,
            format,
            check: time(0, self.calls, |_| self.check()),
        }
    }
}

/// Measures format and check on tables of this size for so long.
pub fn formats(size: &Size, how_long: Duration) -> Formats {
    let mut bench = Bench::new(size);
    let rounds = quiet_rounds(how_long, |number| Some(bench.round(number)));
    let of = |value: &dyn Fn(&Round) -> f64| median(rounds.iter().map(value).collect());
    Formats {
        memset: of(&|round| round.memset),
        format: of(&|round| round.format),
        over_memset: of(&|round| round.format / round.memset),
        check: of(&|round| round.check),
    }
}
