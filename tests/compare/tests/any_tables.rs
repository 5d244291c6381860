//! Every call on tables of any bytes and any lengths, and format at its limits.

use compare::met::Met;
use compare::same;
use compare::supply::{seeds, some_key, some_record, sound_tables};
use model::history::Call;
use model::random::Random;
use model::table::{Tables, HEADER_BYTES, LAYOUT};

/// Check, find, on, off and format. Gives whether the format was done.
fn same_calls(random: &mut Random, tables: &Tables, met: &mut Met, what: &str) -> bool {
    let sound = same::check(tables, what);
    let [found, new, gone] = [0, 1, 2].map(|_| some_key(random, tables));
    same::find(tables, found, what);
    let on = Call::On(new, some_record(random, tables));
    for change in [on, Call::Off(gone)] {
        let number = same::change(tables, change, met, what);
        assert_eq!(number == 1, !sound, "{what}: row 1 against check");
    }
    same::format(tables, [8, 2, 2], what).number == 0
}

fn bytes(random: &mut Random, length: usize, below: u64) -> Vec<u8> {
    (0..length)
        .map(|_| (random.number() % below) as u8)
        .collect()
}

/// A table of random bytes, now and then behind a header that agrees with its
/// length.
fn random_bytes(random: &mut Random) -> Tables {
    let length = random.below(120);
    let below = random.between(1, 256) as u64;
    let mut index = bytes(random, length, below);
    if length >= 24 && random.percent(70) {
        let (entries, pages) = *random.pick(&[(2, 2), (2, 9), (4, 5), (3, 1)]);
        index.resize(LAYOUT.index_bytes(entries, pages), 0);
        index[..HEADER_BYTES].fill(0);
        index[..4].copy_from_slice(&[8, entries as u8, 0, pages as u8]);
    }
    let records = random.below(4);
    Tables {
        index,
        keys: (0..records).map(|_| random.number() % 300).collect(),
        used: bytes(random, records, 3),
    }
}

#[test]
fn tables_of_random_bytes() {
    let (mut met, mut calls) = ([0, 0], Met::default());
    for seed in seeds(4_000) {
        let mut random = Random::new(seed);
        let tables = random_bytes(&mut random);
        let done = same_calls(&mut random, &tables, &mut calls, &format!("seed {seed}"));
        met[usize::from(done)] += 1;
    }
    calls.assert(3_000, &["on 1", "off 1"]);
    assert!(
        met.iter().all(|&times| times >= 100),
        "formats refused, done: {met:?}"
    );
}

#[test]
fn empty_tables() {
    let full = sound_tables(&mut Random::new(0));
    let mut met = Met::default();
    for empty in 0..8 {
        let mut tables = full.clone();
        let slices = [empty & 1 != 0, empty & 2 != 0, empty & 4 != 0];
        let Tables { index, keys, used } = &mut tables;
        if slices[0] {
            *index = Vec::new();
        }
        if slices[1] {
            *keys = Vec::new();
        }
        if slices[2] {
            *used = Vec::new();
        }
        let what = format!("empty index, keys, used: {slices:?}");
        assert_eq!(same::check(&tables, &what), empty == 0, "{what}");
        same_calls(&mut Random::new(0), &tables, &mut met, &what);
    }
    met.assert(7, &["on 1", "off 1"]);
}

/// Each length up to three off, each alone and with the others.
#[test]
fn lengths_that_do_not_agree() {
    let (mut met, mut calls) = ([0, 0], Met::default());
    for seed in seeds(60) {
        let mut random = Random::new(seed);
        let tables = sound_tables(&mut random);
        for off in 0..27 {
            let [index, keys, used] = [off % 3, off / 3 % 3, off / 9];
            let by = random.between(1, 3);
            let mut hurt = tables.clone();
            hurt.index.resize(tables.index.len() + index * by - by, 0);
            let resized = |length: usize, to: usize| (length + to * by).saturating_sub(by);
            hurt.keys.resize(resized(tables.keys.len(), keys), 0);
            hurt.used.resize(resized(tables.used.len(), used), 0);
            let what = format!("seed {seed}, lengths {index} {keys} {used} by {by}");
            met[usize::from(same::check(&hurt, &what))] += 1;
            same_calls(&mut random, &hurt, &mut calls, &what);
        }
    }
    calls.assert(60, &["on 1", "off 1"]);
    calls.assert(10, &["on 0", "off 0"]);
    assert!(
        met.iter().all(|&times| times >= 60),
        "unsound, sound: {met:?}"
    );
}

/// W, E and P inside their limits, at them, or past them.
fn numbers(random: &mut Random) -> [u64; 3] {
    let odd = [0, 1, 65_534, 65_535, 65_536, 1 << 32, u64::MAX];
    let w = *random.pick(&[1, 2, 8, 16, 63, 64, 65, 256]);
    let e = *random.pick(&[1, 2, 3, 4, 60, 255, 256, 258]);
    let p = *random.pick(&[0, 1, 2, 3, 10, 40]);
    let mut numbers = [w, e, p];
    if random.percent(10) {
        numbers[random.below(3)] = *random.pick(&odd);
    }
    numbers
}

/// Tables of any content, mostly as long as E and P say.
fn tables_to_format(random: &mut Random, [_, e, p]: [u64; 3]) -> Tables {
    let page = 2 + 3 * (e % 256) as usize;
    let length = HEADER_BYTES + page * (p % 64) as usize;
    let off = *random.pick(&[0, 0, 0, 0, 1, page]);
    let length = match random.percent(50) {
        true => length + off,
        false => length.saturating_sub(off),
    };
    let records = *random.pick(&[0, 1, 2, 9, 30]);
    let odd = usize::from(random.percent(10));
    Tables {
        index: bytes(random, length, 256),
        keys: (0..records).map(|_| random.number()).collect(),
        used: bytes(random, records + odd, 256),
    }
}

#[test]
fn format_of_any_tables() {
    let mut met = [0, 0];
    for seed in seeds(4_000) {
        let mut random = Random::new(seed);
        let numbers = numbers(&mut random);
        let tables = tables_to_format(&mut random, numbers);
        let answer = same::format(&tables, numbers, &format!("seed {seed}"));
        met[usize::from(answer.number == 0)] += 1;
    }
    assert!(
        met.iter().all(|&times| times >= 500),
        "refused, done: {met:?}"
    );
}

/// Each limit from both sides, the index table as long as E and P say. Some
/// numbers would be inside the limits if they were cut to the header's bytes.
#[test]
fn format_at_its_limits() {
    let mut done = 0;
    let cases = [
        ([0, 2, 1], 1),
        ([1, 2, 1], 1),
        ([64, 2, 1], 1),
        ([65, 2, 1], 1),
        ([256 + 8, 2, 1], 1),
        ([8, 1, 1], 1),
        ([8, 255, 1], 1),
        ([8, 256, 1], 1),
        ([8, 256 + 2, 1], 1),
        ([8, 2, 0], 1),
        ([8, 2, 65_534], 1),
        ([8, 2, 65_535], 1),
        ([8, 2, 65_537], 1),
        ([8, 2, 3], 0),
        ([8, 2, 3], 65_534),
        ([8, 2, 3], 65_535),
    ];
    for ([w, e, p], records) in cases {
        let mut tables = Tables::zero(e as usize, p as usize, records);
        tables.index.fill(0xa5);
        tables.keys.fill(u64::MAX);
        tables.used.fill(7);
        let what = format!("{records} records");
        done += u32::from(same::format(&tables, [w, e, p], &what).number == 0);
    }
    assert_eq!(done, 5, "the cases inside the limits");
}
