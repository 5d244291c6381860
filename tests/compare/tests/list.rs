//! List on sound tables, damaged ones, and tables of any bytes and lengths.

use compare::calls::call;
use compare::list::same_list;
use compare::supply::{seeds, some_key, sound_tables, width};
use model::history::{beside_model, follow, Call, History};
use model::random::damage::{damaged, DAMAGES};
use model::random::histories::{history, small_shape};
use model::random::keys::largest_key;
use model::random::sound_tables::sound_index;
use model::random::Random;
use model::shrink::must_hold;
use model::table::{header, stored_page, Tables};
use std::collections::{BTreeMap, BTreeSet};

/// Two ends, mostly in order.
fn ends(random: &mut Random, tables: &Tables) -> [u64; 2] {
    let mut ends = [0, 1].map(|_| some_key(random, tables));
    if random.percent(80) {
        ends.sort_unstable();
    }
    match random.below(10) {
        0 => [0, largest_key(width(tables))],
        1 => [ends[0], ends[0]],
        2 => [ends[0], largest_key(width(tables))],
        _ => ends,
    }
}

/// A slice of any content, shorter or longer than the herd.
fn slice(random: &mut Random, records: usize) -> Vec<u32> {
    let length = random.below(records + 3);
    (0..length).map(|_| random.number() as u32).collect()
}

#[test]
fn sound_tables_of_all_levels() {
    let mut levels = BTreeSet::new();
    let mut met: BTreeMap<&str, usize> = BTreeMap::new();
    for seed in seeds(3_000) {
        let mut random = Random::new(seed);
        let tables = sound_tables(&mut random);
        let root = header(&tables.index).root;
        levels.insert(stored_page(&tables.index, root).level);
        for _ in 0..5 {
            let [a, b] = ends(&mut random, &tables);
            let slice = slice(&mut random, tables.keys.len());
            let answer = same_list(&tables, [a, b], &slice, &format!("seed {seed}"));
            let kind = match (answer.number, answer.count, answer.more) {
                (2, ..) => "too wide",
                (_, 0, false) if a > b => "a above b",
                (_, 0, false) => "none in the range",
                (_, 0, true) => "no room at all",
                (_, _, true) => "more remain",
                (_, 1, false) => "one",
                _ => "all of several",
            };
            *met.entry(kind).or_default() += 1;
        }
    }
    assert!(levels.into_iter().eq(0..=15), "a level was not met");
    assert_eq!(met.len(), 7, "{met:?}");
    assert!(met.values().all(|&times| times >= 100), "{met:?}");
}

/// Every pair of ends among the held keys and their neighbours.
#[test]
fn every_range_of_small_herds() {
    let mut most = 0;
    for seed in seeds(60) {
        let mut random = Random::new(seed);
        let width = random.between(1, 64);
        let entries = random.between(2, 4);
        let tables = Tables::of(&sound_index(&mut random, width, entries, 6));
        let near = |&key: &u64| [key.wrapping_sub(1), key, key.wrapping_add(1)];
        let keys: BTreeSet<u64> = tables.keys.iter().flat_map(near).collect();
        for &a in &keys {
            for &b in &keys {
                let slice = slice(&mut random, 6);
                let answer = same_list(&tables, [a, b], &slice, &format!("seed {seed}"));
                most = most.max(answer.count);
            }
        }
    }
    assert!(most >= 5, "at most {most} listed");
}

#[test]
fn larger_herds() {
    let mut listed = 0;
    for seed in seeds(40) {
        let mut random = Random::new(seed);
        let entries = *random.pick(&[5, 20, 60, 255]);
        let tables = Tables::of(&sound_index(&mut random, 64, entries, 400));
        for _ in 0..5 {
            let ends = ends(&mut random, &tables);
            let slice = slice(&mut random, 400);
            listed += same_list(&tables, ends, &slice, &format!("seed {seed}")).count;
        }
    }
    assert!(listed >= 2_000, "few listed: {listed}");
}

#[test]
fn damaged_tables() {
    let mut declined: BTreeMap<String, usize> = BTreeMap::new();
    for seed in seeds(200) {
        let mut random = Random::new(seed);
        let tables = sound_tables(&mut random);
        for damage in DAMAGES {
            let Some(hurt) = damaged(&mut random, &tables, damage) else {
                continue;
            };
            let ends = ends(&mut random, &hurt);
            let slice = slice(&mut random, hurt.keys.len());
            let what = format!("seed {seed} {damage:?}");
            if same_list(&hurt, ends, &slice, &what).number == 1 {
                *declined.entry(format!("{damage:?}")).or_default() += 1;
            }
        }
    }
    assert_eq!(
        declined.len(),
        DAMAGES.len(),
        "never declined: {declined:?}"
    );
    assert!(declined.values().all(|&times| times >= 20), "{declined:?}");
}

#[test]
fn tables_of_any_bytes_and_lengths() {
    let mut met = [0, 0];
    for seed in seeds(1_000) {
        let mut random = Random::new(seed);
        let mut tables = sound_tables(&mut random);
        let lengths = [tables.index.len(), tables.keys.len(), tables.used.len()];
        let [index, keys, used] = lengths.map(|length| match random.below(8) {
            0 => 0,
            1 => random.below(length + 1),
            2 => length + 1,
            _ => length,
        });
        tables.index.resize(index, 0);
        tables.keys.resize(keys, 0);
        tables.used.resize(used, 0);
        if random.percent(30) {
            tables.index.fill_with(|| random.number() as u8);
        }
        let ends = ends(&mut random, &tables);
        let slice = slice(&mut random, keys);
        let answer = same_list(&tables, ends, &slice, &format!("seed {seed}"));
        met[usize::from(answer.number == 1)] += 1;
    }
    assert!(
        met.iter().all(|&times| times >= 100),
        "sound, unsound: {met:?}"
    );
}

/// Each call beside the model's on tables of its own, many lists among them.
#[test]
fn tables_along_histories() {
    let mut lists = 0;
    for seed in seeds(150) {
        let mut random = Random::new(seed);
        let shape = small_shape(&mut random);
        let history = history(&mut random, shape, 80);
        let is_list = |made: &&Call| matches!(made, Call::List(..));
        lists += history.calls.iter().filter(is_list).count();
        let attempt = |history: &History| follow(history, beside_model(call));
        must_hold(seed, &history, attempt);
    }
    assert!(lists >= 500, "few lists: {lists}");
}
