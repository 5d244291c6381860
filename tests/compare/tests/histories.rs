//! Random histories of all calls, from a done format on tables of random bytes:
//! after every call the answer, the list slice, the answers beside the movements
//! of a load and the tables are the model's, and all that is claimed of histories
//! holds.

use compare::beside::beside;
use compare::merges::MERGES;
use compare::met::{Met, CUTS, EMPTIED, MOVED};
use compare::supply::seeds;
use model::history::{follow_from, Call, Failure, History, Shape};
use model::map::Map;
use model::random::histories::history;
use model::random::keys::{key, Spread};
use model::random::Random;
use model::shrink::must_hold;
use model::table::Tables;
use std::cell::RefCell;

/// Every answer of every call that a history can meet.
const ANSWERS: [&str; 20] = [
    "format 0",
    "format 9",
    "on 0",
    "on 2",
    "on 3",
    "on 4",
    "on 5",
    "on 7",
    "on 8",
    "off 0",
    "off 2",
    "off 6",
    "find 0",
    "find 2",
    "find 6",
    "list 0",
    "list 2",
    "check true",
    "load 0",
    "load 12",
];

/// Tables of random bytes of this shape's lengths.
fn random_tables(seed: u64, shape: Shape) -> Tables {
    let mut random = Random::new(seed);
    let mut tables = Tables::zero(shape.entries, shape.pages, shape.records);
    tables.index.fill_with(|| random.number() as u8);
    tables.keys.fill_with(|| random.number());
    tables.used.fill_with(|| random.number() as u8);
    tables
}

/// The history holds on the library, from the format it starts with.
fn hold(seed: u64, history: &History, met: &mut Met) {
    let met = RefCell::new(met);
    must_hold(seed, history, |history| {
        let calls = [&[history.shape.format()], &history.calls[..]].concat();
        let tables = random_tables(seed, history.shape);
        let run = |tables: &mut Tables, made: &Call| beside(tables, made, &mut met.borrow_mut());
        let failure = |failure: Failure| Failure {
            calls: failure.calls - 1,
            ..failure
        };
        follow_from(tables, Map::new(0), &calls, run).map_err(failure)
    });
}

/// Small and roomy shapes of all kinds.
fn any_shape(random: &mut Random) -> Shape {
    Shape {
        width: random.between(1, 64),
        entries: match random.below(6) {
            0 => 2,
            1 => random.between(2, 4),
            // From 5 on a page of one entry has fewer than a quarter.
            2 | 3 => random.between(5, 12),
            4 => random.between(13, 30),
            _ => random.between(31, 255),
        },
        pages: match random.below(4) {
            0 => random.between(1, 12),
            1 => random.between(13, 60),
            _ => random.between(100, 300),
        },
        records: match random.below(4) {
            0 => random.between(1, 4),
            1 => random.between(5, 15),
            _ => random.between(16, 40),
        },
    }
}

#[test]
fn shapes_of_all_kinds() {
    let mut met = Met::default();
    for seed in seeds(150) {
        let mut random = Random::new(seed);
        let shape = any_shape(&mut random);
        hold(seed, &history(&mut random, shape, 120), &mut met);
    }
    met.assert(5, &ANSWERS);
    met.assert(5, &MOVED);
    met.assert(
        5,
        &["joined left", "joined right", "root lowered by a join"],
    );
    met.assert(5, &CUTS);
    met.assert(5, &EMPTIED);
}

#[test]
fn every_width_with_two_entries_a_page() {
    let mut met = Met::default();
    for width in 1..=64 {
        for seed in seeds(2).map(|seed| seed + 100 * width as u64) {
            let mut random = Random::new(seed);
            let shape = Shape {
                width,
                entries: 2,
                pages: random.between(20, 150),
                records: 10,
            };
            hold(seed, &history(&mut random, shape, 80), &mut met);
        }
    }
    met.assert(5, &CUTS);
    met.assert(5, &EMPTIED);
    met.assert(3, &["on 7", "on 8", "moved on 7", "moved on 8"]);
}

/// Ons of keys in pairs that begin alike, which bring many dummies, and then
/// offs of all these keys in another order.
fn growing_and_shrinking(random: &mut Random, shape: Shape) -> History {
    let mut keys = Vec::new();
    while keys.len() + 2 <= shape.records {
        let key = key(random, shape.width, Spread::Even);
        keys.extend([key, key ^ 1 << random.below(shape.width / 3)]);
    }
    let ons = keys
        .iter()
        .zip(0..)
        .map(|(&key, record)| Call::On(key, record));
    let mut calls: Vec<Call> = ons.collect();
    random.shuffle(&mut keys);
    calls.extend(keys.into_iter().map(Call::Off));
    History { shape, calls }
}

#[test]
fn few_and_many_entries_a_page() {
    let mut met = Met::default();
    for entries in (2..20).chain((20..255).step_by(15)) {
        let seed = seeds(1).start + entries as u64;
        let mut random = Random::new(seed);
        let shape = Shape {
            width: random.between(50, 64),
            entries,
            pages: random.between(6, 150),
            records: 10 + entries / 10,
        };
        let history = growing_and_shrinking(&mut random, shape);
        hold(seed, &history, &mut met);
    }
    met.assert(10, &["on 0", "off 0", "pages taken", "page emptied"]);
    met.assert(5, &["new root", "root lowered"]);
    met.assert(
        5,
        &["joined left", "joined right", "joined and still sparse"],
    );
}

/// Herds that are sold out, in pages that are joined while they are.
#[test]
fn herds_sold_out() {
    let mut met = Met::default();
    for seed in seeds(100) {
        let mut random = Random::new(seed);
        let shape = Shape {
            width: random.between(50, 64),
            entries: random.between(5, 12),
            pages: 150,
            records: 30,
        };
        let history = growing_and_shrinking(&mut random, shape);
        hold(seed, &history, &mut met);
    }
    met.assert(3, &MERGES);
}

#[test]
fn large_pages() {
    let mut met = Met::default();
    for (seed, entries) in seeds(4).zip([60, 130, 200, 255]) {
        let mut random = Random::new(seed);
        let shape = Shape {
            width: 64,
            entries,
            pages: 30,
            records: 50,
        };
        let history = growing_and_shrinking(&mut random, shape);
        hold(seed, &history, &mut met);
    }
    met.assert(3, &["new root", "root lowered"]);
    met.assert(4, &["one page taken", "joined left", "joined right"]);
}

#[test]
fn a_register_of_one_record_and_a_table_of_one_page() {
    let mut met = Met::default();
    for seed in seeds(40) {
        let mut random = Random::new(seed);
        let width = random.between(1, 64);
        for (entries, records) in [(2, 1), (5, 6)] {
            let shape = Shape {
                width,
                entries,
                pages: 1,
                records,
            };
            hold(seed, &history(&mut random, shape, 50), &mut met);
        }
    }
    met.assert(
        20,
        &["on 0", "on 3", "on 4", "on 5", "on 7", "off 0", "off 6"],
    );
}
