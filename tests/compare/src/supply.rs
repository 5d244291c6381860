//! Seeds, tables and keys for comparisons.

use model::calls::Movement;
use model::history::{Call, Shape};
use model::index::Index;
use model::random::keys::{key, largest_key, SPREADS};
use model::random::loads::{answers, movements};
use model::random::sound_tables::{any_sound_index, ENTRIES};
use model::random::Random;
use model::table::Tables;
use std::ops::Range;

/// So many seeds. MODEL_SEED in the environment, if set, gives other ones.
pub fn seeds(count: u64) -> Range<u64> {
    let set = std::env::var("MODEL_SEED").ok();
    let first = set.map_or(0, |seed| seed.parse().expect("MODEL_SEED is a number"));
    first..first + count
}

/// Sound tables with random borders between pages.
pub fn sound_tables(random: &mut Random) -> Tables {
    let large = random.percent(8).then_some([255]);
    let entries = large.as_ref().map_or(&ENTRIES[..], |large| large);
    Tables::of(&any_sound_index(random, entries))
}

/// W as the header has it, or 64 if it is none.
pub fn width(tables: &Tables) -> usize {
    let width = tables.index.first().map_or(64, |&byte| byte.into());
    if (1..=64).contains(&width) {
        width
    } else {
        64
    }
}

/// A key to look for: one of the register's, a neighbour of one, another, or
/// one too wide.
pub fn some_key(random: &mut Random, tables: &Tables) -> u64 {
    let width = width(tables);
    let spread = *random.pick(&SPREADS);
    let new = key(random, width, spread);
    let near = match tables.keys.is_empty() {
        true => new,
        false => *random.pick(&tables.keys),
    };
    match random.below(12) {
        0..=2 => near,
        3 => near.wrapping_add(1),
        4 => near.wrapping_sub(1),
        5 | 6 => near ^ 1 << random.below(width),
        7 => near | largest_key(width).wrapping_add(1),
        8 => random.number(),
        9 => *random.pick(&[0, largest_key(width), u64::MAX]),
        _ => new,
    }
}

/// A record for an on: mostly one that is free, else any of the register's, the
/// first past it, or one far past it.
pub fn some_record(random: &mut Random, tables: &Tables) -> u64 {
    let length = tables.used.len();
    let free: Vec<usize> = (0..length)
        .filter(|&record| tables.used[record] == 0)
        .collect();
    let any = random.below(length.max(1));
    match random.below(10) {
        0 => any as u64,
        1 => length as u64,
        2 => *random.pick(&[65_534, 65_535, 65_536, (1 << 16) + any as u64, 1 << 31]),
        _ if free.is_empty() => any as u64,
        _ => *random.pick(&free) as u64,
    }
}

/// An on or an off, as likely as not done on sound tables.
pub fn some_change(random: &mut Random, tables: &Tables) -> Call {
    let key = some_key(random, tables);
    match random.percent(60) {
        true => Call::On(key, some_record(random, tables)),
        false => Call::Off(key),
    }
}

/// The shape of an index.
pub fn shape_of(index: &Index) -> Shape {
    Shape {
        width: index.width,
        entries: index.most_entries,
        pages: index.most_pages,
        records: index.register.len(),
    }
}

/// A load of so many movements, which follow one another on this index.
pub fn load_on(random: &mut Random, index: &Index, count: usize) -> Call {
    let movements = movements(random, shape_of(index), &index.herd(), count);
    Call::Load(movements, answers(random, count))
}

/// A load of a few movements, each an on or an off of any tables.
pub fn some_load(random: &mut Random, tables: &Tables) -> Call {
    let count = random.below(6);
    let movement = |_| Movement {
        key: some_key(random, tables),
        record: some_record(random, tables) as u32,
        on: *random.pick(&[0, 0, 1, 1, 2, u32::MAX]),
    };
    let movements = (0..count).map(movement).collect();
    Call::Load(movements, answers(random, count))
}
