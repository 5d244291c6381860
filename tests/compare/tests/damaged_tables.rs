//! Check, find, on and off on damaged tables: the same answers as the model,
//! and no byte changed but by an on or off of tables that are sound after all.

use compare::met::Met;
use compare::same;
use compare::supply::{seeds, some_key, some_record, sound_tables};
use model::history::Call;
use model::random::damage::{damaged, DAMAGES};
use model::random::sound_tables::sound_index;
use model::random::Random;
use model::table::Tables;
use std::collections::BTreeMap;

/// Check, find, on and off, the last three each refused by 1 exactly if check
/// says no. Gives whether the tables are sound.
fn same_calls(random: &mut Random, tables: &Tables, met: &mut Met, what: &str) -> bool {
    let sound = same::check(tables, what);
    let [found, new, gone] = [0, 1, 2].map(|_| some_key(random, tables));
    let on = Call::On(new, some_record(random, tables));
    let numbers = [
        same::find(tables, found, what).number,
        same::change(tables, on, met, what),
        same::change(tables, Call::Off(gone), met, what),
    ];
    for number in numbers {
        assert_eq!(number == 1, !sound, "{what}: row 1 against check");
    }
    sound
}

#[test]
fn every_kind_of_damage() {
    let mut declined: BTreeMap<String, usize> = BTreeMap::new();
    let (mut still_sound, mut met) = (0, Met::default());
    for seed in seeds(500) {
        let mut random = Random::new(seed);
        let tables = sound_tables(&mut random);
        for damage in DAMAGES {
            let Some(hurt) = damaged(&mut random, &tables, damage) else {
                continue;
            };
            let what = format!("seed {seed} {damage:?}");
            match same_calls(&mut random, &hurt, &mut met, &what) {
                true => still_sound += 1,
                false => *declined.entry(format!("{damage:?}")).or_default() += 1,
            }
        }
    }
    assert_eq!(
        declined.len(),
        DAMAGES.len(),
        "a damage never declined: {declined:?}"
    );
    assert!(declined.values().all(|&times| times >= 50), "{declined:?}");
    assert!(
        still_sound >= 50,
        "few damages left sound tables: {still_sound}"
    );
    met.assert(1_000, &["on 1", "off 1"]);
    met.assert(10, &["on 0", "off 0"]);
}

/// A damage and then bytes copied about or, where it left sound tables, a second
/// damage: they may undo or hide each other.
#[test]
fn two_damages() {
    let (mut declined, mut met) = (0, Met::default());
    for seed in seeds(1_500) {
        let mut random = Random::new(seed);
        let tables = sound_tables(&mut random);
        let damages = [0, 1].map(|_| *random.pick(&DAMAGES));
        let what = format!("seed {seed} {damages:?}");
        let Some(hurt) = damaged(&mut random, &tables, damages[0]) else {
            continue;
        };
        let again = match same::check(&hurt, &what) {
            true => damaged(&mut random, &hurt, damages[1]).unwrap_or(hurt),
            false => bytes_copied(&mut random, hurt),
        };
        declined += usize::from(!same_calls(&mut random, &again, &mut met, &what));
    }
    assert!(declined >= 500, "few declined: {declined}");
}

fn bytes_copied(random: &mut Random, mut tables: Tables) -> Tables {
    if tables.index.is_empty() {
        return tables;
    }
    for _ in 0..random.between(1, 4) {
        let byte = *random.pick(&tables.index);
        let place = random.below(tables.index.len());
        tables.index[place] = byte;
    }
    tables
}

#[test]
fn bytes_copied_about_in_the_index_table() {
    let (mut met, mut calls) = ([0, 0], Met::default());
    for seed in seeds(2_000) {
        let mut random = Random::new(seed);
        let tables = sound_tables(&mut random);
        let hurt = bytes_copied(&mut random, tables);
        let sound = same_calls(&mut random, &hurt, &mut calls, &format!("seed {seed}"));
        met[usize::from(sound)] += 1;
    }
    assert!(
        met.iter().all(|&times| times >= 100),
        "unsound, sound: {met:?}"
    );
}

#[test]
fn every_value_of_every_byte_of_small_tables() {
    let (mut met, mut calls) = ([0, 0], Met::default());
    for seed in seeds(6) {
        let mut random = Random::new(seed);
        let width = random.between(1, 4);
        let tables = Tables::of(&sound_index(&mut random, width, 2, 4));
        for place in 0..tables.index.len().min(120) {
            for byte in 0..=255 {
                let mut hurt = tables.clone();
                hurt.index[place] = byte;
                let what = format!("seed {seed}, byte {place} to {byte}");
                let sound = same_calls(&mut random, &hurt, &mut calls, &what);
                met[usize::from(sound)] += 1;
            }
        }
    }
    // Each byte's own value leaves the tables sound.
    assert!(met[0] >= 10_000 && met[1] >= 100, "unsound, sound: {met:?}");
}
