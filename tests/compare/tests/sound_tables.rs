//! Check and find on sound tables, also on ones that no history makes.

use compare::calls::call;
use compare::supply::{seeds, some_key, sound_tables};
use compare::{same, tag_index};
use model::history::{beside_model, follow, Call, History};
use model::random::histories::{history, small_shape};
use model::random::sound_tables::sound_index;
use model::random::Random;
use model::shrink::must_hold;
use model::table::{header, stored_page, Tables};
use std::collections::BTreeMap;

/// How often each thing was met.
type Met<T> = BTreeMap<T, usize>;

fn meet<T: Ord>(met: &mut Met<T>, thing: T) {
    *met.entry(thing).or_default() += 1;
}

fn root_level(tables: &Tables) -> usize {
    stored_page(&tables.index, header(&tables.index).root).level
}

/// Whether a page below the root has one entry.
fn has_short_page(tables: &Tables) -> bool {
    let header = header(&tables.index);
    let mut others = (0..header.pages as u32).filter(|&page| page != header.root);
    others.any(|page| stored_page(&tables.index, page).count == 1)
}

#[test]
fn random_borders_and_all_levels() {
    let (mut levels, mut answers) = (Met::new(), Met::new());
    let mut short_pages = 0;
    for seed in seeds(4_000) {
        let mut random = Random::new(seed);
        let tables = sound_tables(&mut random);
        let what = format!("seed {seed}");
        assert!(same::check(&tables, &what), "{what}: sound");
        meet(&mut levels, root_level(&tables));
        short_pages += usize::from(has_short_page(&tables));
        for _ in 0..8 {
            let key = some_key(&mut random, &tables);
            meet(&mut answers, same::find(&tables, key, &what).number);
        }
    }
    assert!(
        levels.keys().copied().eq(0..=15),
        "a level not met: {levels:?}"
    );
    assert!(levels.values().all(|&times| times >= 5), "{levels:?}");
    assert!(
        short_pages >= 1_000,
        "few pages of one entry: {short_pages}"
    );
    assert!(answers.keys().copied().eq([0, 2, 6]), "{answers:?}");
    assert!(answers.values().all(|&times| times >= 1_000), "{answers:?}");
}

#[test]
fn every_held_key_and_its_neighbours() {
    let mut found = 0;
    for seed in seeds(300) {
        let mut random = Random::new(seed);
        let tables = sound_tables(&mut random);
        let what = format!("seed {seed}");
        let records = (0..).zip(tables.keys.iter().zip(&tables.used));
        for (record, (&key, &used)) in records {
            let answer = same::find(&tables, key, &what);
            if used == 1 {
                assert_eq!((answer.number, answer.record), (0, record), "{what}");
                found += 1;
            }
            same::find(&tables, key.wrapping_add(1), &what);
            same::find(&tables, key.wrapping_sub(1), &what);
        }
    }
    assert!(found >= 1_000, "few held keys: {found}");
}

#[test]
fn larger_herds() {
    let mut found = 0;
    for seed in seeds(40) {
        let mut random = Random::new(seed);
        let entries = *random.pick(&[5, 20, 60, 255]);
        let width = random.between(32, 64);
        let tables = Tables::of(&sound_index(&mut random, width, entries, 400));
        let what = format!("seed {seed}");
        assert!(same::check(&tables, &what), "{what}: sound");
        for _ in 0..6 {
            let key = some_key(&mut random, &tables);
            found += usize::from(same::find(&tables, key, &what).number == 0);
        }
    }
    assert!(found >= 20, "few found: {found}");
}

/// The most records, and one more; the most pages.
#[test]
fn tables_at_their_limits() {
    let mut random = Random::new(0);
    let small = Tables::of(&sound_index(&mut random, 20, 5, 24));
    for (records, sound) in [(65_534, true), (65_535, false)] {
        let mut tables = small.clone();
        tables.keys.resize(records, 0);
        tables.used.resize(records, 0);
        let what = format!("{records} records");
        assert_eq!(same::check(&tables, &what), sound, "{what}");
        same::find(&tables, tables.keys[0], &what);
    }
    for (entries, pages) in [(2, 65_534), (255, 1), (255, 2_000)] {
        let mut tables = Tables::zero(entries, pages, 3);
        let what = format!("E {entries} P {pages}");
        tag_index::format(&mut tables, 64, entries as u64, pages as u64);
        assert!(same::check(&tables, &what), "{what}");
        let last = tables.index.len() - 1;
        tables.index[last] = 1;
        assert!(!same::check(&tables, &what), "{what}: a stray last byte");
    }
}

/// Each call beside the model's on tables of its own, with a check and two finds
/// after each on, off and load.
#[test]
fn tables_along_histories() {
    for seed in seeds(150) {
        let mut random = Random::new(seed);
        let shape = small_shape(&mut random);
        let made = history(&mut random, shape, 40);
        let history = with_reading(&mut random, made);
        let attempt = |history: &History| follow(history, beside_model(call));
        must_hold(seed, &history, attempt);
    }
}

fn with_reading(random: &mut Random, history: History) -> History {
    let mut calls = Vec::new();
    for made in history.calls {
        let key = match &made {
            Call::On(key, _) | Call::Off(key) => Some(*key),
            Call::Load(movements, _) => movements.last().map(|movement| movement.key),
            _ => None,
        };
        calls.push(made);
        if let Some(key) = key {
            let near = key ^ 1 << random.below(history.shape.width);
            calls.extend([Call::Check, Call::Find(key), Call::Find(near)]);
        }
    }
    History { calls, ..history }
}
