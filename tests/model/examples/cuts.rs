//! How many entries the quick search tries where insertion cuts a row, for herds
//! put on one after the other.
//!
//! Seeded: every figure is the same in every run.

use model::index::Index;
use model::pages::{Cut, Cutting};
use model::quick_cut::quick_search;
use model::random::tags::{lots, tag};
use model::random::Random;
use std::collections::BTreeSet;

/// Tags of each herd.
const TAGS: usize = 4_096;

/// Herds of each kind.
const HERDS: u64 = 4;

/// The entries a page may hold.
const ENTRIES: [usize; 3] = [60, 120, 255];

/// A kind of herd: what it is called, and its tags in the order in which they come.
type Kind = (&'static str, fn(&mut Random) -> Vec<u64>);

const KINDS: [Kind; 3] = [
    ("scattered national numbers of one country", |random| {
        let mut tags = BTreeSet::new();
        while tags.len() < TAGS {
            tags.insert(tag(826, random.number() % (1 << 38)));
        }
        let mut tags: Vec<u64> = tags.into_iter().collect();
        random.shuffle(&mut tags);
        tags
    }),
    ("lots of holdings, lot by lot", |random| {
        let mut tags = lots(random, TAGS);
        tags.truncate(TAGS);
        tags
    }),
    ("one run of numbers, in order", |random| {
        let from = random.number() % ((1 << 38) - TAGS as u64);
        (from..).take(TAGS).map(|number| tag(826, number)).collect()
    }),
];

/// All cuts while these tags are put on.
fn cuts(entries: usize, tags: &[u64]) -> Vec<Cut> {
    let mut index = Index::empty(64, entries, 65_534, tags.len());
    let mut all = Vec::new();
    for (&key, record) in tags.iter().zip(0..) {
        all.extend(index.cuts(key, record).expect("a new tag"));
        index.on(key, record).expect("room");
    }
    all
}

/// Prints a line of figures of these cuts.
fn print_line(name: &str, entries: usize, cuts: &[Cut]) {
    let count = |of| cuts.iter().filter(|cut| cut.of == of).count();
    let kinds = [Cutting::Page, Cutting::Part, Cutting::NewRoot].map(count);
    let (mut length, mut tried, mut choice, mut sooner) = (0, 0, 0, 0);
    for Cut { depths, .. } in cuts {
        let found = quick_search(depths);
        length += depths.len();
        tried += found.tried;
        choice += depths.len() - 1;
        sooner += usize::from(found.tried < depths.len() - 1);
    }
    let mean = |sum: usize| sum as f64 / cuts.len() as f64;
    println!(
        "| {name} | {entries} | {} | {} | {} | {:.1} | {:.1} | {:.0} % | {:.0} % |",
        kinds[0],
        kinds[1],
        kinds[2],
        mean(length),
        mean(tried),
        100.0 * tried as f64 / choice as f64,
        100.0 * mean(sooner),
    );
}

fn main() {
    println!("## W 64, {HERDS} herds of {TAGS} tags put on one after the other: cuts");
    println!("| herd | E | pages cut | parts cut again | new roots cut | entries of the row, mean | tried, mean | tried, of all but the last | stopped sooner |");
    println!("|---|---:|---:|---:|---:|---:|---:|---:|---:|");
    for (name, tags) in KINDS {
        for entries in ENTRIES {
            let herds = (0..HERDS).map(|seed| tags(&mut Random::new(seed)));
            let cuts: Vec<Cut> = herds.flat_map(|tags| cuts(entries, &tags)).collect();
            print_line(name, entries, &cuts);
        }
    }
}
