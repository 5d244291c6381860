//! How many tags tables of E and P hold, for docs/SIZING.md.
//!
//! Seeded: every figure is the same in every run.

mod few_keys;
mod longest;
mod years;

use model::index::Index;
use model::random::tags::{lot, lots, tag};
use model::random::Random;
use std::collections::BTreeSet;

/// Register length of a table that only its pages bound.
const MOST_RECORDS: usize = 65_534;

/// Tables of E and P that all take about as many bytes as E 60, P 100.
const SAME_BYTES: [(usize, usize); 4] = [(20, 294), (60, 100), (120, 50), (255, 24)];

/// A kind of herd: what it is called, and its first keys in the order in which
/// they come.
type Kind = (&'static str, fn(&mut Random, usize) -> Vec<u64>);

const KINDS: [Kind; 9] = [
    ("one run of numbers, in order", |_, count| {
        let from = 31_415_900_000;
        (0..count as u64).map(|i| tag(826, from + i)).collect()
    }),
    ("one run of numbers, in random order", |random, count| {
        let from = 31_415_900_000;
        let mut tags: Vec<u64> = (0..count as u64).map(|i| tag(826, from + i)).collect();
        random.shuffle(&mut tags);
        tags
    }),
    ("lots of holdings, lot by lot", lots),
    ("the same tags, all in random order", |random, count| {
        let mut tags = lots(random, count);
        random.shuffle(&mut tags);
        tags
    }),
    (
        "scattered national numbers of one country",
        |random, count| {
            let tags = (0..count).map(|_| tag(826, random.number() % (1 << 38)));
            tags.collect::<BTreeSet<u64>>()
                .into_iter()
                .collect::<Vec<u64>>()
                .shuffled(random)
        },
    ),
    ("any 64 bits", |random, count| {
        (0..count).map(|_| random.number()).collect()
    }),
    (
        "pairs of tags of 15 digits that part in bit 64",
        |_, count| {
            // The upper 13 bits of the national number count the pairs.
            (0..count.min(1 << 14) as u64)
                .map(|i| tag(826, (i / 2) << 25 | ((1 << 25) - 2) | (i % 2)))
                .collect()
        },
    ),
    (
        "pairs of codes of a country up to 999 that part in bit 64",
        |_, count| {
            // The upper 16 bits count the pairs; country 991 has nine one-bits.
            let ones = 991 << 38 | ((1u64 << 38) - 2);
            (0..count.min(1 << 17) as u64)
                .map(|i| (i / 2) << 48 | ones | (i % 2))
                .collect()
        },
    ),
    ("pairs of any keys that part in bit 64", |_, count| {
        // The upper 15 bits count the pairs; all ones up to bit 63.
        let ones = (1u64 << 49) - 2;
        (0..count.min(1 << 16) as u64)
            .map(|i| (i / 2) << 49 | ones | (i % 2))
            .collect()
    }),
];

/// Items in random order.
trait Shuffled {
    fn shuffled(self, random: &mut Random) -> Self;
}

impl Shuffled for Vec<u64> {
    fn shuffled(mut self, random: &mut Random) -> Self {
        random.shuffle(&mut self);
        self
    }
}

/// How many keys a table held when it first declined one, and the row; no row
/// if the keys ran out.
fn fill(e: usize, p: usize, records: usize, keys: &[u64]) -> (Index, usize, Option<u32>) {
    let mut index = Index::empty(64, e, p, records);
    for (held, &key) in keys.iter().enumerate() {
        if held == records {
            return (index, held, None);
        }
        if let Err(row) = index.on(key, held as u64) {
            return (index, held, Some(row));
        }
    }
    (index, keys.len(), None)
}

fn held_by_kind(seeds: u64) {
    println!("## Tags held when the first is declined");
    print!("| herd |");
    for (e, p) in SAME_BYTES {
        print!(" E {e}, P {p} ({} bytes) |", 16 + p * (2 + 3 * e));
    }
    println!("\n|---|{}", "---:|".repeat(SAME_BYTES.len()));
    for (name, keys) in KINDS {
        print!("| {name} |");
        for (e, p) in SAME_BYTES {
            let mut least = (usize::MAX, None);
            for seed in 0..seeds {
                let keys = keys(&mut Random::new(seed), 6_000);
                let (_, held, row) = fill(e, p, MOST_RECORDS, &keys);
                least = least.min((held, row));
            }
            match least {
                (held, Some(row)) => print!(" {held} ({row}) |"),
                (held, None) => print!(" above {held} |"),
            }
        }
        println!();
    }
    println!();
}

/// What 4,096 records of each kind take, or as many as come before a refusal.
fn records_4096(e: usize, p: usize, seeds: u64) {
    println!("## W 64, E {e}, P {p}, 4,096 records");
    println!("| herd | tags held | stopped by | pages in use | entries a tag | entries a page on level 0 | root level |");
    println!("|---|---:|---|---:|---:|---:|---:|");
    for (name, keys) in KINDS {
        let fills = (0..seeds).map(|seed| fill(e, p, 4096, &keys(&mut Random::new(seed), 4_200)));
        let (index, held, row) = fills.min_by_key(|(_, held, _)| *held).expect("a seed");
        let by = row.map_or("the register".to_string(), |row| format!("row {row}"));
        let pages = index.root.pages();
        let low = pages.iter().filter(|page| page.level() == 0).count();
        let entries = index.root.leaves().len();
        println!(
            "| {name} | {held} | {by} | {} | {:.2} | {:.1} | {} |",
            pages.len(),
            entries as f64 / held as f64,
            entries as f64 / low as f64,
            index.root.level()
        );
    }
    println!();
}

/// Years beside the race: a steady herd, whose tags leave and are replaced by
/// new lots.
fn churn() {
    println!("## A steady herd of lots: most pages in use");
    println!("| tags | E | leave | after filling | in 4 turnovers | in 8 | bytes of so many pages | rebuilt in key order |");
    println!("|---:|---:|---|---:|---:|---:|---:|---:|");
    let small = [
        (500, 60),
        (750, 60),
        (1000, 20),
        (1000, 60),
        (1000, 120),
        (1000, 255),
    ];
    for (steady, e) in small
        .into_iter()
        .chain([(2000, 60), (2000, 120), (2000, 255)])
    {
        for whole in [true, false] {
            let (most, keys) = steady_herd(steady, e, [0, 4, 8], whole);
            let leave = if whole {
                "lot by lot"
            } else {
                "one by one, at random"
            };
            print!("| {steady} | {e} | {leave} |");
            for pages in most {
                print!(" {pages} |");
            }
            let (rebuilt, _, _) = fill(e, 65_534, MOST_RECORDS, &keys);
            println!(
                " {} | {} |",
                16 + most[2] * (2 + 3 * e),
                rebuilt.root.pages().len()
            );
        }
    }
    println!();
}

/// The most pages in use up to each number of turnovers, and the keys held at
/// the end, in order.
fn steady_herd(
    steady: usize,
    e: usize,
    turnovers: [usize; 3],
    whole: bool,
) -> ([usize; 3], Vec<u64>) {
    let mut random = Random::new(0);
    let mut index = Index::empty(64, e, 65_534, steady + 60);
    let mut free: Vec<u64> = (0..steady as u64 + 60).rev().collect();
    let mut held: Vec<Vec<(u64, u64)>> = Vec::new();
    let (mut count, mut most, mut gone) = (0, 0, 0);
    let most = turnovers.map(|turnovers| loop {
        while count < steady {
            let mut come = Vec::new();
            for key in lot(&mut random) {
                let record = free.pop().expect("a free record");
                match index.on(key, record) {
                    Ok(()) => come.push((key, record)),
                    Err(_) => free.push(record),
                }
            }
            count += come.len();
            held.push(come);
            most = most.max(index.root.pages().len());
        }
        if gone >= steady * turnovers {
            break most;
        }
        let at = random.below(held.len());
        let leaving = if whole {
            held.swap_remove(at)
        } else {
            let one = random.below(held[at].len());
            let tag = held[at].swap_remove(one);
            if held[at].is_empty() {
                held.swap_remove(at);
            }
            vec![tag]
        };
        count -= leaving.len();
        gone += leaving.len();
        for (key, record) in leaving {
            index.off(key).expect("a held key");
            free.push(record);
        }
    });
    (most, index.herd().into_keys().collect())
}

fn main() {
    let kinds = longest::kinds();
    longest::longest_lists(&kinds);
    longest::pages_of_longest(&kinds);
    longest::fewest_of_longest(&kinds);
    held_by_kind(2);
    records_4096(60, 250, 4);
    records_4096(120, 125, 4);
    churn();
    years::years();
    years::years_to_the_last_page(2);
    few_keys::greedy();
    few_keys::fewest_of_groups();
    few_keys::pages_of_groups();
}
