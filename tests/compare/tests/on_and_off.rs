//! On and off on sound tables that no history makes, and rows 8 and 7 from both
//! sides.

use compare::beside::beside;
use compare::merges::MERGES;
use compare::met::{Met, CUTS, EMPTIED};
use compare::supply::{seeds, shape_of, some_change, sound_tables};
use compare::{same, tag_index};
use model::answer::Answer;
use model::history::{follow_from, Call, History, Outcome, Shape};
use model::map::Map;
use model::random::histories::calls;
use model::random::keys::{key, largest_key, Spread, SPREADS};
use model::random::places::pages_in_use;
use model::random::sound_tables::{any_sound_index, number_pages, sound_index, ENTRIES};
use model::random::Random;
use model::shrink::must_hold;
use model::table::{header, read, stored_page, Tables};
use std::cell::RefCell;

fn root_level(tables: &Tables) -> usize {
    stored_page(&tables.index, header(&tables.index).root).level
}

/// Tables after a done format of the library.
fn formatted(shape: Shape) -> Tables {
    let mut tables = Tables::zero(shape.entries, shape.pages, shape.records);
    let [w, e, p] = [shape.width, shape.entries, shape.pages].map(|number| number as u64);
    assert_eq!(tag_index::format(&mut tables, w, e, p), Answer::done());
    tables
}

/// An on of tables that are kept, beside the model; its answer number.
fn put_on(tables: &mut Tables, key: u64, record: u64) -> u32 {
    answered(tables, &Call::On(key, record))
}

fn take_off(tables: &mut Tables, key: u64) -> u32 {
    answered(tables, &Call::Off(key))
}

fn answered(tables: &mut Tables, made: &Call) -> u32 {
    match beside(tables, made, &mut Met::default()) {
        Ok(Outcome::Answered(answer)) => answer.number,
        other => panic!("{made:?}: {other:?}"),
    }
}

#[test]
fn random_borders_and_all_levels() {
    let mut met = Met::default();
    for seed in seeds(3_000) {
        let mut random = Random::new(seed);
        let tables = sound_tables(&mut random);
        met.add(format!("level {}", root_level(&tables)));
        for _ in 0..6 {
            let change = some_change(&mut random, &tables);
            same::change(&tables, change, &mut met, &format!("seed {seed}"));
        }
    }
    let levels: Vec<String> = (0..=15).map(|level| format!("level {level}")).collect();
    let levels: Vec<&str> = levels.iter().map(String::as_str).collect();
    met.assert(5, &levels);
    met.assert(20, &["on 2", "on 3", "on 4", "on 5", "on 7", "on 8"]);
    met.assert(20, &["off 2", "off 6"]);
    met.assert(5, &CUTS);
    met.assert(5, &EMPTIED);
}

/// Every held key taken off, each from the same tables, with pages of 5 entries
/// and more: there they are joined, on all levels.
#[test]
fn offs_that_join_pages() {
    let mut met = Met::default();
    for seed in seeds(2_000) {
        let index = any_sound_index(&mut Random::new(seed), &ENTRIES[5..]);
        let tables = Tables::of(&index);
        for &key in index.herd().keys() {
            let off = Call::Off(key);
            same::change(&tables, off, &mut met, &format!("seed {seed}"));
        }
    }
    met.assert(3, &MERGES);
}

/// Every key put on and every key taken off, from the same tables.
#[test]
fn every_key_of_few_bits() {
    let mut met = Met::default();
    for seed in seeds(400) {
        let mut random = Random::new(seed);
        let (width, entries) = (random.between(1, 5), random.between(2, 6));
        let tables = Tables::of(&sound_index(&mut random, width, entries, 14));
        let free = tables.used.iter().position(|&used| used == 0);
        for key in 0..=largest_key(width) + 1 {
            let on = Call::On(key, free.unwrap_or(0) as u64);
            for change in [on, Call::Off(key)] {
                same::change(&tables, change, &mut met, &format!("seed {seed}"));
            }
        }
    }
    met.assert(100, &["on 0", "on 2", "on 5", "on 7"]);
    met.assert(100, &["off 0", "off 2", "off 6"]);
    met.assert(3, &["pages taken", "new root", "pages emptied"]);
}

#[test]
fn histories_from_sound_tables() {
    let met = RefCell::new(Met::default());
    for seed in seeds(300) {
        let mut random = Random::new(seed);
        let width = random.between(1, 64);
        let entries = *random.pick(&ENTRIES);
        let index = sound_index(&mut random, width, entries, 24);
        let (shape, held) = (shape_of(&index), index.herd());
        let calls = calls(&mut random, shape, &held, 30);
        let width = width as u64;
        let attempt = |history: &History| {
            let map = Map {
                width,
                held: held.clone(),
            };
            let run =
                |tables: &mut Tables, made: &Call| beside(tables, made, &mut met.borrow_mut());
            follow_from(Tables::of(&index), map, &history.calls, run)
        };
        must_hold(seed, &History { shape, calls }, attempt);
    }
    met.borrow().assert(5, &CUTS);
    met.borrow().assert(5, &EMPTIED);
    met.borrow().assert(5, &["on 7", "on 8", "off 6"]);
}

#[test]
fn larger_herds() {
    let mut met = Met::default();
    for seed in seeds(40) {
        let mut random = Random::new(seed);
        let entries = *random.pick(&[5, 20, 60, 255]);
        let width = random.between(32, 64);
        let tables = Tables::of(&sound_index(&mut random, width, entries, 300));
        let mut held: Vec<u64> = (0..300)
            .filter(|&record| tables.used[record] == 1)
            .map(|record| tables.keys[record])
            .collect();
        let what = format!("seed {seed}");
        for _ in 0..4 {
            let change = some_change(&mut random, &tables);
            same::change(&tables, change, &mut met, &what);
        }
        random.shuffle(&mut held);
        for &key in held.iter().take(20) {
            same::change(&tables, Call::Off(key), &mut met, &what);
        }
    }
    met.assert(10, &["on 0", "off 0"]);
    met.assert(
        30,
        &["joined left", "joined right", "joined above level 0 alone"],
    );
}

/// The most pages and the most records, both in use anywhere.
#[test]
fn tables_at_their_limits() {
    let mut met = Met::default();
    for seed in seeds(5) {
        let mut random = Random::new(seed);
        let width = random.between(16, 64);
        let mut tables = formatted(Shape {
            width,
            entries: random.between(2, 4),
            pages: 65_534,
            records: 65_534,
        });
        let mut held = Vec::new();
        for number in 0..24 {
            let mut index = read(tables.lent());
            index.root = index.root.without_numbers();
            number_pages(&mut random, &mut index.root, 65_534);
            tables = Tables::of(&index);
            let change = match number {
                0..=12 => {
                    held.push(key(&mut random, width, Spread::Clustered));
                    let record = match number {
                        0 => 65_533,
                        _ => random.below(65_535),
                    };
                    Call::On(held[held.len() - 1], record as u64)
                }
                _ => Call::Off(held.swap_remove(random.below(held.len()))),
            };
            if let Err(how) = beside(&mut tables, &change, &mut met) {
                panic!("seed {seed}, {change:?}: {how}");
            }
        }
    }
    met.assert(10, &["on 0", "off 0"]);
    met.assert(5, &["pages taken", "pages emptied"]);
}

fn two_records(width: usize, pages: usize) -> Shape {
    Shape {
        width,
        entries: 2,
        pages,
        records: 2,
    }
}

/// E 2, W 16, the two largest keys: declined by 7 with 135 pages, accepted with
/// 136; these are then all in use, and used again after an off.
#[test]
fn row_7_from_both_sides() {
    for [first, second] in [[65_535, 65_534], [65_534, 65_535]] {
        let mut few = formatted(two_records(16, 135));
        assert_eq!(put_on(&mut few, first, 0), 0);
        assert_eq!(put_on(&mut few, second, 1), 7);
        assert_eq!(pages_in_use(&few).len(), 1);
        let mut enough = formatted(two_records(16, 136));
        assert_eq!(put_on(&mut enough, first, 0), 0);
        for (key, record) in [(second, 1), (first, 0), (second, 1), (second, 1)] {
            take_off(&mut enough, key);
            assert_eq!((root_level(&enough), pages_in_use(&enough).len()), (0, 1));
            assert_eq!(put_on(&mut enough, key, record), 0);
            let after = (root_level(&enough), pages_in_use(&enough).len());
            assert_eq!(after, (15, 136));
        }
    }
}

/// E 2, W 17, the two largest keys: declined by 8, with few pages and with many.
#[test]
fn row_8_stands_before_row_7() {
    let [one, other] = [(1 << 17) - 1, (1 << 17) - 2];
    for pages in [1, 135, 136, 152, 153, 154, 1_000] {
        for [first, second] in [[one, other], [other, one]] {
            let mut tables = formatted(two_records(17, pages));
            assert_eq!(put_on(&mut tables, first, 0), 0);
            assert_eq!(put_on(&mut tables, second, 1), 8, "P {pages}");
            assert_eq!(put_on(&mut tables, second, 0), 4);
            assert_eq!(put_on(&mut tables, first, 1), 5);
            assert_eq!(take_off(&mut tables, first), 0);
            assert_eq!(put_on(&mut tables, second, 1), 0);
        }
    }
}

/// Keys for as many records, put on one after the other with room for all; then
/// again with just as many pages as were in use after the last on that took
/// one, and with one less.
#[test]
fn row_7_at_its_border() {
    let mut met = [0, 0];
    for seed in seeds(200) {
        let mut random = Random::new(seed);
        let roomy = Shape {
            width: random.between(2, 20),
            entries: random.between(2, 6),
            pages: 600,
            records: random.between(2, 20),
        };
        let spread = *random.pick(&SPREADS);
        let mut tables = formatted(roomy);
        let mut done = Vec::new();
        let mut border = None;
        for record in 0..roomy.records as u64 {
            let key = key(&mut random, roomy.width, spread);
            let before = pages_in_use(&tables).len();
            if put_on(&mut tables, key, record) != 0 {
                continue;
            }
            done.push((key, record));
            let pages = pages_in_use(&tables).len();
            if pages > before {
                border = Some((done.len(), pages));
            }
        }
        let Some((ons, pages)) = border else {
            continue;
        };
        for (less, number) in [(0, 0), (1, 7)] {
            let shape = Shape {
                pages: pages - less,
                ..roomy
            };
            let mut tables = formatted(shape);
            let numbers: Vec<u32> = done[..ons]
                .iter()
                .map(|&(key, record)| put_on(&mut tables, key, record))
                .collect();
            let (last, others) = numbers.split_last().expect("an on took a page");
            assert!(others.iter().all(|&number| number == 0), "seed {seed}");
            assert_eq!(*last, number, "seed {seed}, {shape:?}");
            met[less] += 1;
        }
    }
    assert!(
        met.iter().all(|&times| times >= 100),
        "done, refused: {met:?}"
    );
}
