//! Soundness: what check accepts and refuses, and calls on unsound tables.

mod common;
mod rewriting;

use common::seeds;
use model::calls::Movement;
use model::history::{call, Call, Outcome};
use model::index::Index;
use model::leaf_list::leaf_list;
use model::pages::changed;
use model::random::damage::{damaged, Damage, DAMAGES};
use model::random::keys::{herd, Spread};
use model::random::sound_tables::sound_index;
use model::random::Random;
use model::search::insertion;
use model::sound::sound;
use model::table::{header, read, Tables};
use rewriting::is_its_rewriting;
use std::collections::BTreeMap;

/// Random sound tables.
fn sound_tables(random: &mut Random) -> Tables {
    let width = random.between(1, 64);
    let entries = *random.pick(&[2, 2, 3, 4, 5, 8, 20]);
    let records = random.between(1, 16);
    Tables::of(&sound_index(random, width, entries, records))
}

/// Tests that check says what the rewriting says, and gives it.
fn checked(tables: &Tables) -> bool {
    let says = sound(tables.lent());
    assert_eq!(
        says.is_ok(),
        is_its_rewriting(tables),
        "{says:?} {tables:?}"
    );
    says.is_ok()
}

/// Every other call answers 1 on unsound tables and changes no byte.
fn test_unsound(tables: &Tables) {
    let slice = vec![3, 1, 4];
    let movement = Movement {
        key: 0,
        record: 0,
        on: 1,
    };
    let calls = [
        Call::On(0, 0),
        Call::On(u64::MAX, u64::MAX),
        Call::Off(0),
        Call::Find(0),
        Call::List(0, 1, slice.clone()),
        Call::Check,
        Call::Load(vec![], slice.clone()),
        Call::Load(vec![movement; 3], slice.clone()),
        // 12 would apply too.
        Call::Load(vec![movement; 4], slice.clone()),
    ];
    for made in calls {
        let mut after = tables.clone();
        match call(&mut after, &made) {
            Outcome::Checked(yes) => assert!(!yes),
            Outcome::Answered(answer) => assert_eq!(answer.number, 1),
            Outcome::Listed(answer, kept) | Outcome::Loaded(answer, kept) => {
                assert_eq!((answer.number, &kept), (1, &slice));
            }
        }
        assert_eq!(after, *tables, "{made:?} changed a byte");
    }
}

#[test]
fn sound_tables_of_any_borders_are_accepted() {
    let mut levels = BTreeMap::new();
    for seed in seeds(800) {
        let mut random = Random::new(seed);
        let tables = sound_tables(&mut random);
        assert!(checked(&tables), "seed {seed}");
        let root = read(tables.lent()).root;
        *levels.entry(root.level()).or_insert(0) += 1;
    }
    assert!(levels.len() >= 6, "few levels: {levels:?}");
}

#[test]
fn damaged_tables_are_refused_unless_the_damage_leaves_a_sound_table() {
    // Another W may suit a small herd, another key the same leaf list, two pages
    // that hold the same dummy may change places, and other borders may be good.
    let may_stay_sound = [
        Damage::Borders,
        Damage::AnyByte,
        Damage::HeaderByte,
        Damage::KeyAltered,
        Damage::PointersSwapped,
        Damage::EntriesSwapped,
    ];
    let mut refused = BTreeMap::new();
    for seed in seeds(700) {
        let mut random = Random::new(seed);
        let tables = sound_tables(&mut random);
        for damage in DAMAGES {
            let Some(hurt) = damaged(&mut random, &tables, damage) else {
                continue;
            };
            if checked(&hurt) {
                assert!(may_stay_sound.contains(&damage), "seed {seed} {damage:?}");
                continue;
            }
            *refused.entry(format!("{damage:?}")).or_insert(0) += 1;
            test_unsound(&hurt);
        }
    }
    assert_eq!(
        refused.len(),
        DAMAGES.len(),
        "a damage never done: {refused:?}"
    );
    assert!(refused.values().all(|&times| times >= 50), "{refused:?}");
}

#[test]
fn every_value_of_every_byte_of_small_tables() {
    for seed in seeds(12) {
        let mut random = Random::new(seed);
        let width = random.between(1, 4);
        let tables = Tables::of(&sound_index(&mut random, width, 2, 4));
        for place in 0..tables.index.len() {
            for byte in 0..=255 {
                let mut hurt = tables.clone();
                hurt.index[place] = byte;
                let same = hurt == tables;
                // Only another W can leave a sound table.
                assert!(
                    checked(&hurt) == same || place == 0 && !same,
                    "byte {place} to {byte}"
                );
            }
        }
    }
}

#[test]
fn bytes_copied_about_in_the_index_table() {
    for seed in seeds(4_000) {
        let mut random = Random::new(seed);
        let mut tables = sound_tables(&mut random);
        for _ in 0..random.between(1, 4) {
            let byte = *random.pick(&tables.index);
            let place = random.below(tables.index.len());
            tables.index[place] = byte;
        }
        checked(&tables);
    }
}

#[test]
fn check_answers_on_any_bytes_of_any_length() {
    for seed in seeds(4_000) {
        let mut random = Random::new(seed);
        let bytes = random.below(120);
        let mut tables = Tables::zero(2, 0, 0);
        let small = random.between(1, 256) as u64;
        tables.index = (0..bytes)
            .map(|_| (random.number() % small) as u8)
            .collect();
        if bytes >= 24 && random.percent(70) {
            let (entries, pages) = *random.pick(&[(2, 2), (2, 9), (4, 5), (3, 1)]);
            tables.index.resize(16 + pages * (2 + 3 * entries), 0);
            tables.index[..4].copy_from_slice(&[8, entries as u8, 0, pages as u8]);
            tables.index[4..16].fill(0);
        }
        let records = random.below(4);
        tables.keys = (0..records).map(|_| random.number() % 300).collect();
        tables.used = (0..records).map(|_| (random.number() % 3) as u8).collect();
        if !checked(&tables) {
            test_unsound(&tables);
        }
    }
}

#[test]
fn free_records_at_the_end_of_the_register_keep_tables_sound() {
    for seed in seeds(50) {
        let mut random = Random::new(seed);
        let mut tables = sound_tables(&mut random);
        tables.keys.push(0);
        tables.used.push(0);
        assert!(checked(&tables));
        tables.keys.resize(65_534, 0);
        tables.used.resize(65_534, 0);
        assert!(checked(&tables));
        tables.keys.push(0);
        tables.used.push(0);
        assert!(!checked(&tables), "65,535 records");
    }
}

#[test]
fn the_limits_of_the_header() {
    let limits = [
        (1, 1, false),
        (2, 1, true),
        (255, 1, true),
        (2, 65_534, true),
        (2, 65_535, false),
    ];
    for (entries, pages, accepted) in limits {
        for width in [0, 1, 64, 65] {
            let mut index = Index::empty(width, entries, pages, 1);
            let in_limits = accepted && (1..=64).contains(&width);
            assert_eq!(
                checked(&Tables::of(&index)),
                in_limits,
                "E {entries} P {pages}"
            );
            if in_limits {
                index.on(0, 0).expect("one key");
                assert!(checked(&Tables::of(&index)), "E {entries} P {pages}");
            }
        }
    }
}

#[test]
fn a_root_on_level_16_is_refused() {
    for (width, accepted) in [(16, true), (17, false)] {
        let mut index = Index::empty(width, 2, 200, 2);
        let largest = (1u64 << width) - 1;
        index.on(largest, 0).expect("one key");
        let change = insertion(&index.root.leaves(), width, |_| largest, largest - 1, 1);
        index.root = changed(index.root.clone(), &change, 2);
        index.root.number_new(&mut (1..));
        index.register[1] = Some(largest - 1);
        assert_eq!(checked(&Tables::of(&index)), accepted, "W {width}");
    }
}

#[test]
fn a_table_that_holds_the_leaf_list_of_another_register_is_refused() {
    for seed in seeds(300) {
        let mut random = Random::new(seed);
        let tables = sound_tables(&mut random);
        let width = header(&tables.index).width;
        let records = tables.keys.len();
        let mut other = tables.clone();
        let held = header(&tables.index).held;
        let herd = herd(&mut random, width, Spread::Even, held, records);
        other.keys.fill(0);
        other.used.fill(0);
        for (&key, &record) in &herd {
            other.keys[record as usize] = key;
            other.used[record as usize] = 1;
        }
        let mine = read(tables.lent());
        let same_list = leaf_list(width, &herd) == leaf_list(width, &mine.herd());
        assert_eq!(
            checked(&other),
            same_list && herd.len() == held,
            "seed {seed}"
        );
    }
}
