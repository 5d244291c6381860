//! Lorries with loads of forty movements, all of which can be done.

use crate::herd::Herd;
use crate::library::Movement;
use model::random::Random;
use model::table::Tables;

/// How many movements a load has.
pub const FORTY: usize = 40;

const TWENTY: usize = FORTY / 2;

/// How many lorries come in turn, again and again.
pub const LORRIES: usize = 16;

/// How many pages are free at least: where pages are few and large, a quarter of them
/// would not do for every load.
const FREE_PAGES: usize = 20;

pub type Load = [Movement; FORTY];

/// What the loads of a lorry do, one after the other.
pub const LOADS: [&str; 3] = [
    "forty other keys put on",
    "and taken off",
    "twenty held keys taken off, twenty others put on their records",
];

pub type Lorry = [Load; LOADS.len()];

/// The herd's tables with forty free records and pages enough, and the lorries that come to it. Of
/// lots, the keys of a load follow each other in one lot or a few.
pub fn lorries(herd: Herd) -> (Tables, Vec<Lorry>) {
    let mut random = Random::new(herd.records as u64);
    let each = FORTY + TWENTY;
    let mut held = herd.tags(&mut random, herd.records + LORRIES * each);
    let others = held.split_off(herd.records);
    let tables = herd.tables_with(&held, FORTY, FREE_PAGES);
    let lorries = others.chunks_exact(each);
    let lorries = lorries.map(|others| lorry(&mut random, &held, others));
    (tables, lorries.collect())
}

/// A lorry with these keys, which are not held: forty come and go, and twenty come
/// for held ones.
fn lorry(random: &mut Random, held: &[u64], others: &[u64]) -> Lorry {
    let (forty, twenty) = others.split_at(FORTY);
    let first = random.below(held.len() - TWENTY + 1);
    let on = |key: u64, record: usize| Movement {
        key,
        record: record as u32,
        on: 1,
    };
    let off = |key: u64| Movement {
        key,
        record: 0,
        on: 0,
    };
    [
        std::array::from_fn(|place| on(forty[place], held.len() + place)),
        std::array::from_fn(|place| off(forty[place])),
        std::array::from_fn(|place| match place.checked_sub(TWENTY) {
            None => off(held[first + place]),
            Some(place) => on(twenty[place], first + place),
        }),
    ]
}
