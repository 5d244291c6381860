//! Loads on sound tables, beside the model's and beside the library's own single
//! calls.

use compare::met::{Met, CUTS, EMPTIED, MOVED};
use compare::supply::{load_on, seeds, shape_of, sound_tables};
use compare::{same, tag_index};
use model::answer::Answer;
use model::calls::Movement;
use model::history::Call;
use model::random::keys::{key, Spread};
use model::random::loads::movements;
use model::random::sound_tables::sound_index;
use model::random::Random;
use model::table::{read, Tables};

/// A load with a list of answers as long as its movements.
fn load(movements: Vec<Movement>) -> Call {
    let answers = vec![77; movements.len()];
    Call::Load(movements, answers)
}

fn on(key: u64, record: u32) -> Movement {
    Movement { key, record, on: 1 }
}

fn off(key: u64) -> Movement {
    let (record, on) = (0, 0);
    Movement { key, record, on }
}

/// Tables after a done format of the library.
fn formatted(w: u64, e: usize, p: usize, records: usize) -> Tables {
    let mut tables = Tables::zero(e, p, records);
    let answer = tag_index::format(&mut tables, w, e as u64, p as u64);
    assert_eq!(answer, Answer::done());
    tables
}

/// The numbers beside the movements of a load that is done.
fn numbers(tables: &Tables, movements: &[Movement]) -> Vec<u32> {
    let made = load(movements.to_vec());
    let (answer, numbers) = same::load(tables, made, &mut Met::default(), "by hand");
    assert_eq!(answer, Answer::done());
    numbers
}

#[test]
fn random_borders_and_all_widths() {
    let mut met = Met::default();
    for seed in seeds(4_000) {
        let mut random = Random::new(seed);
        let tables = sound_tables(&mut random);
        let most = *random.pick(&[1, 7, 40]);
        let count = random.below(most + 1);
        let made = load_on(&mut random, &read(tables.lent()), count);
        same::load(&tables, made, &mut met, &format!("seed {seed}"));
    }
    met.assert(20, &["load 0", "load 12"]);
    met.assert(20, &MOVED);
    met.assert(5, &CUTS);
    met.assert(5, &EMPTIED);
}

/// Hundreds of movements in one load.
#[test]
fn long_loads() {
    let mut met = Met::default();
    for (seed, entries) in seeds(12).flat_map(|seed| (2..=8).map(move |entries| (seed, entries))) {
        let mut random = Random::new(100 * seed + entries as u64);
        let width = random.between(1, 64);
        let index = sound_index(&mut random, width, entries, 40);
        let count = random.between(200, 500);
        let made = load_on(&mut random, &index, count);
        let what = format!("seed {seed}, E {entries}");
        same::load(&Tables::of(&index), made, &mut met, &what);
    }
    met.assert(
        10,
        &[
            "load 0",
            "moved on 0",
            "moved off 0",
            "moved after a refusal",
        ],
    );
}

/// More movements than 16 bits can count.
#[test]
fn seventy_thousand_movements() {
    let mut met = Met::default();
    let mut random = Random::new(seeds(1).start);
    let tables = formatted(12, 5, 12, 8);
    let index = read(tables.lent());
    let movements = movements(&mut random, shape_of(&index), &index.herd(), 70_000);
    let (answer, _) = same::load(&tables, load(movements), &mut met, "70,000 movements");
    assert_eq!(answer, Answer::done());
    met.assert(1_000, &["moved on 0", "moved off 0"]);
    met.assert(50, &["moved on 7", "moved on after a 7"]);
}

/// Each width, from tables that hold nothing.
#[test]
fn every_width() {
    let mut met = Met::default();
    for width in 1..=64 {
        let mut random = Random::new(seeds(1).start + width);
        let entries = random.between(2, 8);
        let pages = random.between(20, 150);
        let tables = formatted(width, entries, pages, 20);
        let made = load_on(&mut random, &read(tables.lent()), 250);
        same::load(&tables, made, &mut met, &format!("W {width}"));
    }
    met.assert(50, &["load 0", "moved on 0", "moved off 0"]);
    met.assert(
        5,
        &[
            "moved on 2",
            "moved on 7",
            "moved on 8",
            "moved on after a 7",
        ],
    );
}

/// The day book's pages: herds of a few hundred that come and go in one load.
#[test]
fn the_day_books_pages() {
    let mut met = Met::default();
    for seed in seeds(8) {
        let mut random = Random::new(seed);
        let tables = formatted(64, 60, 250, 400);
        let mut keys: Vec<u64> = (0..300)
            .map(|_| key(&mut random, 64, Spread::Even))
            .collect();
        let ons = (0..).zip(&keys).map(|(record, &key)| on(key, record));
        let mut all: Vec<Movement> = ons.collect();
        random.shuffle(&mut keys);
        all.extend(keys.iter().map(|&key| off(key)));
        let what = format!("seed {seed}");
        let (_, numbers) = same::load(&tables, load(all), &mut met, &what);
        assert!(numbers.iter().all(|&number| number == 0), "{what}");
        let index = sound_index(&mut random, 64, 60, 300);
        let made = load_on(&mut random, &index, 300);
        same::load(&Tables::of(&index), made, &mut met, &what);
    }
    met.assert(100, &["moved on 0", "moved off 0"]);
    met.assert(10, &["one page taken", "joined left", "joined right"]);
}

#[test]
fn every_bit_of_on() {
    let tables = formatted(8, 2, 9, 4);
    let movement = |value| Movement {
        on: value,
        ..on(7, 2)
    };
    let bits = (0..32).map(|bit| 1 << bit);
    for value in bits.chain([3, u32::MAX - 1, u32::MAX]) {
        let movements = [movement(value), movement(value), movement(0)];
        assert_eq!(numbers(&tables, &movements), [0, 4, 0], "on {value}");
    }
}

/// An off takes the key alone.
#[test]
fn every_bit_of_the_record_of_an_off() {
    let tables = formatted(8, 2, 9, 4);
    for record in (0..32).map(|bit| 1 << bit).chain([0, 3, u32::MAX]) {
        let off = Movement { record, ..off(7) };
        let movements = [off, on(7, 2), on(9, 3), off, off];
        assert_eq!(numbers(&tables, &movements), [6, 0, 0, 0, 6], "{record}");
    }
}

/// Every row of a movement, and the examples of rows 7 and 8, where an off makes
/// room for what was declined.
#[test]
fn every_row_of_a_movement() {
    let small = [
        on(256, 4),
        off(256),
        on(7, 4),
        on(7, 65_536),
        off(7),
        on(7, 0),
        on(8, 0),
        on(7, 3),
        on(8, 3),
        off(7),
    ];
    let expected = [2, 2, 3, 3, 6, 0, 4, 5, 0, 0];
    assert_eq!(numbers(&formatted(8, 2, 9, 4), &small), expected);
    let page = [
        on(0, 0),
        on(128, 1),
        on(64, 2),
        on(192, 3),
        off(64),
        on(192, 3),
    ];
    let expected = [0, 0, 0, 7, 0, 0];
    assert_eq!(numbers(&formatted(8, 3, 1, 4), &page), expected);
    let [one, other] = [on(65_535, 0), on(65_534, 1)];
    let pages = [one, other, off(one.key), other, one, off(other.key), other];
    for (p, expected) in [(135, [0, 7, 0, 0, 7, 0, 0]), (136, [0, 0, 0, 4, 0, 0, 0])] {
        assert_eq!(numbers(&formatted(16, 2, p, 2), &pages), expected, "P {p}");
    }
    let [one, other] = [on((1 << 17) - 1, 0), on((1 << 17) - 2, 1)];
    let levels = [one, other, on(0, 1), off(one.key), on(other.key, 0)];
    for p in [1, 135, 1_000] {
        assert_eq!(
            numbers(&formatted(17, 2, p, 2), &levels),
            [0, 8, 0, 0, 0],
            "P {p}"
        );
    }
}

/// The most pages and the most records.
#[test]
fn tables_at_their_limits() {
    let mut random = Random::new(seeds(1).start);
    let tables = formatted(64, 3, 65_534, 65_534);
    let mut movements = vec![on(7, 65_533), on(8, 65_534), on(8, 65_535), on(8, 131_069)];
    for record in 0..30 {
        let key = key(&mut random, 64, Spread::Clustered);
        movements.extend([on(key, 65_532 - record), off(key), on(key, record)]);
    }
    let moved = numbers(&tables, &movements);
    assert_eq!(moved[..4], [0, 3, 3, 3]);
    let done = moved.iter().filter(|&&number| number == 0).count();
    assert!(done >= 40, "{done} done");
}
