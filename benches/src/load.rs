//! The measures of a load of forty movements: in one call, in forty calls, and as a
//! check and forty changes that check nothing.

use crate::comparison::ratio;
use crate::herd::{Herd, Tags};
use crate::library::{check, find, load, off, on, unchecked, Answer};
use crate::lorry::{lorries, Load, Lorry, FORTY, LOADS, LORRIES};
use crate::report::{micros, row};
use crate::rounds::{median, quiet_rounds, time, Median};
use model::random::Random;
use model::table::Tables;
use std::hint::black_box;
use std::time::Duration;

const METHOD: &str = "\
Loads of forty movements, all of which are done, by this library alone. Tables are made as above, with 40 free records
and at least 20 free pages, and 16 lorries come in turn, with three loads each; of lots, the keys of a load are those of
one lot or a few. A round takes one lorry in two ways, in random order: each load in one call, and as a check and then
forty ons and offs without check, by the copy of the library. Rounds of their own, for a third of the time, take it in
one call and in forty. Every way begins with the tables of the start and two checks that are not timed, so that all
check and change the same bytes. Times are medians over the quarter of the rounds that took least, and a ratio is the
median of the ratios within them; brackets show the interval of the median (95 in 100). These may be rounds of lorries
that cut and merge few pages. So the means of all lorries follow, with the least of its times for each.";

/// Prints what was done.
pub fn print_method() {
    println!("\n{METHOD}");
}

/// What is timed of a load.
#[derive(Clone, Copy)]
enum Part {
    /// The load in one call.
    Load,
    /// The load in forty calls.
    Calls,
    /// A check of the tables that the load finds.
    Check,
    /// The load in forty calls without check, behind that check.
    Changes,
}

/// The times of the parts, in nanoseconds.
#[derive(Clone, Copy)]
struct Times([f64; 4]);

impl Times {
    fn of(&self, part: Part) -> f64 {
        self.0[part as usize]
    }

    fn set(&mut self, part: Part, time: f64) {
        self.0[part as usize] = time;
    }

    fn over_check_and_changes(&self) -> f64 {
        self.of(Part::Load) / (self.of(Part::Check) + self.of(Part::Changes))
    }

    fn over_calls(&self) -> f64 {
        self.of(Part::Load) / self.of(Part::Calls)
    }
}

/// The times of a lorry's loads.
type Round = [Times; LOADS.len()];

/// Those of a lorry that has not come.
const NEVER: Round = [Times([f64::INFINITY; 4]); LOADS.len()];

/// How a lorry is unloaded.
#[derive(Clone, Copy)]
enum Way {
    OneCall,
    FortyCalls,
    Apart,
}

/// A herd with all that a round works on.
struct Bench {
    tables: Tables,
    /// The tables as they are at the start.
    start: Tables,
    lorries: Vec<Lorry>,
    /// The least times of each lorry.
    least: [Round; LORRIES],
}

impl Bench {
    fn new(herd: Herd) -> Bench {
        let (tables, lorries) = lorries(herd);
        let mut bench = Bench {
            start: tables.clone(),
            tables,
            lorries,
            least: [NEVER; LORRIES],
        };
        (0..LORRIES).for_each(|lorry| bench.test(lorry));
        bench
    }

    /// The three ways do what they are measured for, and the same.
    fn test(&mut self, lorry: usize) {
        let after = [Way::OneCall, Way::FortyCalls, Way::Apart].map(|way| {
            self.unload(way, lorry, &mut NEVER.clone());
            assert!(check(&self.tables), "the tables are sound");
            self.tables.clone()
        });
        assert!(after.iter().all(|tables| *tables == after[0]));
        assert!(after[0].used == self.start.used, "as many are held");
        let [.., last] = &self.lorries[lorry];
        for movement in last {
            let found = find(&self.tables, movement.key);
            match movement.on {
                0 => assert_eq!(found.number, 6),
                _ => assert_eq!((found.number, found.record), (0, movement.record)),
            }
        }
    }

    fn restore(&mut self) {
        self.tables.index.copy_from_slice(&self.start.index);
        self.tables.keys.copy_from_slice(&self.start.keys);
        self.tables.used.copy_from_slice(&self.start.used);
    }

    /// Unloads a lorry this way, and sets the times of its loads.
    fn unload(&mut self, way: Way, lorry: usize, round: &mut Round) {
        self.restore();
        let tables = &mut self.tables;
        checked(tables);
        checked(tables);
        for (load, times) in self.lorries[lorry].iter().zip(round) {
            match way {
                Way::OneCall => times.set(Part::Load, in_one_call(tables, load)),
                Way::FortyCalls => times.set(Part::Calls, one_by_one(tables, load, on, off)),
                Way::Apart => {
                    times.set(Part::Check, checked(tables));
                    let changes = one_by_one(tables, load, unchecked::on, unchecked::off);
                    times.set(Part::Changes, changes);
                }
            }
        }
    }

    /// One round, of one lorry.
    fn round(&mut self, mut ways: [Way; 2], number: usize) -> Round {
        Random::new(number as u64).shuffle(&mut ways);
        let lorry = number % LORRIES;
        let mut round = NEVER;
        for way in ways {
            self.unload(way, lorry, &mut round);
        }
        for (least, times) in self.least[lorry].iter_mut().zip(&round) {
            for (least, time) in least.0.iter_mut().zip(times.0) {
                *least = least.min(time);
            }
        }
        round
    }

    /// Rounds for so long.
    fn rounds(&mut self, ways: [Way; 2], how_long: Duration) -> Vec<Round> {
        quiet_rounds(how_long, |number| Some(self.round(ways, number)))
    }

    /// The means of the lorries' least times of a load.
    fn means(&self, which: usize) -> Times {
        let mean = |part: usize| {
            let least = self.least.iter().map(|round| round[which].0[part]);
            let timed: Vec<f64> = least.filter(|time| time.is_finite()).collect();
            timed.iter().sum::<f64>() / timed.len() as f64
        };
        Times(std::array::from_fn(mean))
    }
}

/// Nanoseconds of a check of sound tables.
fn checked(tables: &Tables) -> f64 {
    let mut sound = false;
    let nanos = time(0, 1, |_| sound = check(black_box(tables)));
    assert!(sound, "the tables are sound");
    nanos
}

/// Nanoseconds of movements, which are all done.
fn done(mut make: impl FnMut(&mut [u32])) -> f64 {
    let mut answers = [u32::MAX; FORTY];
    let nanos = time(0, 1, |_| make(black_box(&mut answers)));
    assert_eq!(answers, [0; FORTY], "every movement is done");
    nanos
}

/// Nanoseconds of a load in one call.
fn in_one_call(tables: &mut Tables, movements: &Load) -> f64 {
    done(|answers| {
        black_box(load(black_box(tables), black_box(movements), answers));
    })
}

/// Nanoseconds of a load in forty calls of these.
fn one_by_one(
    tables: &mut Tables,
    movements: &Load,
    on: impl Fn(&mut Tables, u64, u32) -> Answer,
    off: impl Fn(&mut Tables, u64) -> Answer,
) -> f64 {
    done(|answers| {
        for (movement, answer) in black_box(movements).iter().zip(answers) {
            let tables = black_box(&mut *tables);
            let done = match movement.on {
                0 => off(tables, movement.key),
                _ => on(tables, movement.key, movement.record),
            };
            *answer = done.number;
        }
    })
}

/// What was measured of a load.
struct Measures {
    parts: [Median; 4],
    over_check_and_changes: Median,
    over_calls: Median,
    means: Times,
}

/// Measures the loads on a herd for so long; with how many rounds were kept.
fn measure(herd: Herd, how_long: Duration) -> ([usize; 2], [Measures; LOADS.len()]) {
    let mut bench = Bench::new(herd);
    let apart = bench.rounds([Way::OneCall, Way::Apart], how_long * 2 / 3);
    let calls = bench.rounds([Way::OneCall, Way::FortyCalls], how_long / 3);
    let measures = std::array::from_fn(|which| {
        let of = |rounds: &[Round], value: &dyn Fn(&Times) -> f64| {
            let values = rounds.iter().map(|round| value(&round[which]));
            median(values.collect())
        };
        let part = |rounds, part: Part| of(rounds, &|times| times.of(part));
        Measures {
            parts: [
                part(&apart, Part::Load),
                part(&calls, Part::Calls),
                part(&apart, Part::Check),
                part(&apart, Part::Changes),
            ],
            over_check_and_changes: of(&apart, &Times::over_check_and_changes),
            over_calls: of(&calls, &Times::over_calls),
            means: bench.means(which),
        }
    });
    ([apart.len(), calls.len()], measures)
}

/// Measures herds of so many records, each for so long, and prints the table.
pub fn print(tags: Tags, entries: usize, records: &[usize], each: Duration) {
    let herd = |&records: &usize| Herd {
        tags,
        entries,
        records,
    };
    let measured = records.iter().map(|records| measure(herd(records), each));
    let (kept, herds): (Vec<_>, Vec<_>) = measured.unzip();
    println!("\n{}\n", tags.name());
    row("records, all held", records, usize::to_string);
    row("rounds kept, and of forty calls", &kept, |[apart, calls]| {
        format!("{apart}, {calls}")
    });
    for (which, what) in LOADS.iter().enumerate() {
        println!("\n{what}");
        let herds: Vec<&Measures> = herds.iter().map(|loads| &loads[which]).collect();
        print_medians(&herds);
        print_means(&herds);
    }
}

fn print_medians(herds: &[&Measures]) {
    let part = |name: &str, part: Part| row(name, herds, |m| micros(m.parts[part as usize]));
    part("load of forty, us", Part::Load);
    part("forty calls, us", Part::Calls);
    part("check, us", Part::Check);
    part("forty changes without check, us", Part::Changes);
    row("load / (check and changes)", herds, |m| {
        ratio(m.over_check_and_changes)
    });
    row("load / forty calls", herds, |m| {
        format!("{:.3}", m.over_calls.value)
    });
}

fn print_means(herds: &[&Measures]) {
    let part = |name: &str, part: Part| {
        row(name, herds, |m| format!("{:.3}", m.means.of(part) / 1e3));
    };
    part("mean load of forty, us", Part::Load);
    part("mean of forty calls, us", Part::Calls);
    part("mean check, us", Part::Check);
    part("mean of forty changes, us", Part::Changes);
    row("means, load / (check and changes)", herds, |m| {
        format!("{:.2}", m.means.over_check_and_changes())
    });
    row("means, load / forty calls", herds, |m| {
        format!("{:.3}", m.means.over_calls())
    });
}
