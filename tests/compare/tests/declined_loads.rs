//! Loads that are declined as a whole: by 1, tested first, on damaged tables and
//! on tables of any bytes and lengths; else by 12. They change nothing.

use compare::met::Met;
use compare::same;
use compare::supply::{load_on, seeds, some_load, sound_tables};
use model::answer::Answer;
use model::history::Call;
use model::random::damage::{damaged, DAMAGES};
use model::random::sound_tables::sound_index;
use model::random::Random;
use model::table::{read, Tables};
use std::collections::BTreeMap;

/// A load is declined by 1 exactly if check says no, else by 12 exactly if its
/// list of answers is too short. Gives the number it answers.
fn declined(tables: &Tables, made: Call, met: &mut Met, what: &str) -> u32 {
    let sound = same::check(tables, what);
    let short = match &made {
        Call::Load(movements, answers) => answers.len() < movements.len(),
        other => panic!("{what}: {other:?}"),
    };
    let (answer, _) = same::load(tables, made, met, what);
    let number = match (sound, short) {
        (false, _) => 1,
        (true, true) => 12,
        (true, false) => 0,
    };
    assert_eq!(answer, Answer::refusal(number), "{what}");
    number
}

#[test]
fn every_kind_of_damage() {
    let mut times: BTreeMap<String, usize> = BTreeMap::new();
    let mut met = Met::default();
    for seed in seeds(300) {
        let mut random = Random::new(seed);
        let tables = sound_tables(&mut random);
        for damage in DAMAGES {
            let Some(hurt) = damaged(&mut random, &tables, damage) else {
                continue;
            };
            let made = some_load(&mut random, &hurt);
            let what = format!("seed {seed} {damage:?}");
            if declined(&hurt, made, &mut met, &what) == 1 {
                *times.entry(format!("{damage:?}")).or_default() += 1;
            }
        }
    }
    assert_eq!(times.len(), DAMAGES.len(), "never declined: {times:?}");
    assert!(times.values().all(|&times| times >= 30), "{times:?}");
    met.assert(20, &["load 0", "load 1"]);
    met.assert(5, &["load 12"]);
}

/// Damage, and a list of answers too short for the movements: 1 stands first.
#[test]
fn row_1_stands_before_row_12() {
    let (mut times, mut met) = ([0, 0], Met::default());
    for seed in seeds(500) {
        let mut random = Random::new(seed);
        let tables = sound_tables(&mut random);
        let count = random.between(1, 20);
        let made = load_on(&mut random, &read(tables.lent()), count);
        let Call::Load(movements, mut answers) = made else {
            panic!("seed {seed}: {made:?}");
        };
        answers.truncate(random.below(count));
        let made = Call::Load(movements, answers);
        let what = format!("seed {seed}");
        assert_eq!(declined(&tables, made.clone(), &mut met, &what), 12);
        let damage = *random.pick(&DAMAGES);
        if let Some(hurt) = damaged(&mut random, &tables, damage) {
            let number = declined(&hurt, made, &mut met, &what);
            times[usize::from(number == 1)] += 1;
        }
    }
    assert!(times[0] >= 5 && times[1] >= 200, "12, 1: {times:?}");
}

#[test]
fn tables_of_any_bytes_and_lengths() {
    let mut met = Met::default();
    for seed in seeds(1_000) {
        let mut random = Random::new(seed);
        let mut tables = sound_tables(&mut random);
        let lengths = [tables.index.len(), tables.keys.len(), tables.used.len()];
        let [index, keys, used] = lengths.map(|length| match random.below(8) {
            0 => 0,
            1 => random.below(length + 1),
            2 => length + 1,
            _ => length,
        });
        tables.index.resize(index, 0);
        tables.keys.resize(keys, 0);
        tables.used.resize(used, 0);
        if random.percent(30) {
            tables.index.fill_with(|| random.number() as u8);
        }
        let made = some_load(&mut random, &tables);
        declined(&tables, made, &mut met, &format!("seed {seed}"));
    }
    met.assert(100, &["load 0", "load 1"]);
    met.assert(5, &["load 12"]);
}

#[test]
fn every_value_of_every_byte_of_small_tables() {
    let mut met = Met::default();
    for seed in seeds(2) {
        let mut random = Random::new(seed);
        let width = random.between(1, 4);
        let tables = Tables::of(&sound_index(&mut random, width, 2, 4));
        for place in 0..tables.index.len().min(90) {
            for byte in 0..=255 {
                let mut hurt = tables.clone();
                hurt.index[place] = byte;
                let made = some_load(&mut random, &hurt);
                let what = format!("seed {seed}, byte {place} to {byte}");
                declined(&hurt, made, &mut met, &what);
            }
        }
    }
    met.assert(5_000, &["load 1"]);
    // Each byte's own value leaves the tables sound.
    met.assert(20, &["load 0"]);
}

/// Every length of a list of answers, from none to more than the movements.
#[test]
fn lists_of_unequal_lengths() {
    let mut met = Met::default();
    for seed in seeds(60) {
        let mut random = Random::new(seed);
        let tables = sound_tables(&mut random);
        let count = random.below(12);
        let made = load_on(&mut random, &read(tables.lent()), count);
        let Call::Load(movements, _) = made else {
            panic!("seed {seed}: {made:?}");
        };
        for length in 0..=count + 2 {
            let answers: Vec<u32> = (0..length).map(|_| random.number() as u32).collect();
            let made = Call::Load(movements.clone(), answers.clone());
            let what = format!("seed {seed}, {length} answers");
            let (_, left) = same::load(&tables, made.clone(), &mut met, &what);
            match declined(&tables, made, &mut met, &what) {
                0 => assert_eq!(left[count..], answers[count..], "{what}"),
                _ => assert_eq!(left, answers, "{what}"),
            }
        }
    }
    met.assert(100, &["load 0", "load 12"]);
}
