//! Random histories: every answer, list slice and table is as claimed.

mod common;

use common::seeds;
use model::history::{call, follow, Call, History, Outcome, Shape};
use model::random::histories::{history, small_shape};
use model::random::Random;
use model::shrink::must_hold;
use model::table::{read, Tables};
use std::collections::BTreeSet;

/// The model's calls follow the map.
fn hold(seed: u64, history: &History) {
    must_hold(seed, history, |history| {
        follow(history, |tables, made| Ok(call(tables, made)))
    });
}

#[test]
fn small_shapes() {
    for seed in seeds(120) {
        let mut random = Random::new(seed);
        let shape = small_shape(&mut random);
        hold(seed, &history(&mut random, shape, 250));
    }
}

#[test]
fn every_width_with_two_entries_a_page() {
    for width in 1..=64 {
        for seed in seeds(2) {
            let mut random = Random::new(seed);
            let shape = Shape {
                width,
                entries: 2,
                pages: 150,
                records: 10,
            };
            hold(seed, &history(&mut random, shape, 120));
        }
    }
}

#[test]
fn a_register_of_one_record_and_a_table_of_one_page() {
    for seed in seeds(40) {
        let mut random = Random::new(seed);
        let width = random.between(1, 64);
        let one_record = Shape {
            width,
            entries: 2,
            pages: 1,
            records: 1,
        };
        hold(seed, &history(&mut random, one_record, 80));
        let one_page = Shape {
            width,
            entries: 5,
            pages: 1,
            records: 6,
        };
        hold(seed, &history(&mut random, one_page, 80));
    }
}

#[test]
fn large_herds_in_day_book_pages() {
    for seed in seeds(2) {
        let mut random = Random::new(seed);
        let shape = Shape {
            width: 64,
            entries: 60,
            pages: 30,
            records: 150,
        };
        hold(seed, &history(&mut random, shape, 600));
        let shape = Shape {
            width: 64,
            entries: 255,
            pages: 6,
            records: 150,
        };
        hold(seed, &history(&mut random, shape, 300));
    }
}

#[test]
fn histories_meet_every_answer_and_high_roots() {
    let (mut answers, mut beside) = (BTreeSet::new(), BTreeSet::new());
    let mut highest = 0;
    for seed in seeds(60) {
        let mut random = Random::new(seed);
        let shape = small_shape(&mut random);
        let history = history(&mut random, shape, 150);
        let run = |tables: &mut Tables, made: &Call| {
            let outcome = call(tables, made);
            match (&outcome, made) {
                (Outcome::Answered(answer) | Outcome::Listed(answer, _), _) => {
                    answers.insert(answer.number);
                }
                (Outcome::Loaded(answer, numbers), Call::Load(movements, _)) => {
                    answers.insert(answer.number);
                    if answer.number == 0 {
                        beside.extend(numbers[..movements.len()].to_vec());
                    }
                }
                _ => {}
            }
            highest = highest.max(read(tables.lent()).root.level());
            Ok(outcome)
        };
        follow(&history, run).expect("the history holds");
    }
    assert_eq!(answers, BTreeSet::from([0, 2, 3, 4, 5, 6, 7, 8, 9, 12]));
    assert_eq!(beside, BTreeSet::from([0, 2, 3, 4, 5, 6, 7, 8]));
    assert!(highest >= 8, "no root above level {highest}");
}
