//! Calls on sound tables that no history makes.

mod common;

use common::seeds;
use model::history::{call, follow_from, History, Shape};
use model::index::Index;
use model::leaf_list::Entry;
use model::map::Map;
use model::pages::{changed, Page, Row};
use model::random::histories::calls;
use model::random::keys::{key, SPREADS};
use model::random::sound_tables::{any_sound_index, ENTRIES};
use model::random::Random;
use model::search::{position_list, search, Change};
use model::shrink::must_hold;
use model::table::Tables;
use std::collections::BTreeMap;

/// A random sound index with a few spare pages.
fn random_index(random: &mut Random) -> Index {
    any_sound_index(random, &ENTRIES)
}

/// Level 0 by page numbers.
fn level_0(root: &Page) -> BTreeMap<Option<u32>, Vec<Entry>> {
    let pages = root.pages().into_iter();
    let leaves = pages.filter(|page| page.level() == 0);
    leaves.map(|page| (page.number, page.leaves())).collect()
}

#[test]
fn calls_from_sound_tables_follow_the_map() {
    for seed in seeds(400) {
        let mut random = Random::new(seed);
        let index = random_index(&mut random);
        let shape = Shape {
            width: index.width,
            entries: index.most_entries,
            pages: index.most_pages,
            records: index.register.len(),
        };
        let herd = index.herd();
        let calls = calls(&mut random, shape, &herd, 25);
        let map = Map {
            width: index.width as u64,
            held: herd,
        };
        let attempt = |history: &History| {
            follow_from(
                Tables::of(&index),
                map.clone(),
                &history.calls,
                |tables, made| Ok(call(tables, made)),
            )
        };
        must_hold(seed, &History { shape, calls }, attempt);
    }
}

#[test]
fn the_walk_through_pages_ends_where_the_search_of_the_whole_list_does() {
    for seed in seeds(600) {
        let mut random = Random::new(seed);
        let index = random_index(&mut random);
        let leaves = index.root.leaves();
        let spread = *random.pick(&SPREADS);
        let mut keys: Vec<u64> = index.herd().keys().copied().collect();
        keys.extend((0..20).map(|_| key(&mut random, index.width, spread)));
        for key in keys {
            let walked = index.root.walk(&position_list(key, index.width), 0);
            assert_eq!(
                walked,
                leaves[search(&leaves, key, index.width)],
                "seed {seed}"
            );
        }
    }
}

#[test]
fn an_on_changes_one_page_of_level_0() {
    for seed in seeds(1_500) {
        let mut random = Random::new(seed);
        let before = random_index(&mut random);
        let mut after = before.clone();
        let spread = *random.pick(&SPREADS);
        let new = key(&mut random, before.width, spread);
        let Some(record) = before.register.iter().position(Option::is_none) else {
            continue;
        };
        if after.on(new, record as u64).is_err() {
            assert_eq!(after, before);
            continue;
        }
        let (old, new) = (level_0(&before.root), level_0(&after.root));
        let differ = old
            .iter()
            .filter(|(page, leaves)| new.get(page) != Some(leaves));
        assert_eq!(differ.count(), 1, "seed {seed}");
        let taken: Vec<_> = new.keys().filter(|page| !old.contains_key(page)).collect();
        let in_use_before = before.root.pages();
        let free = |page: &Option<u32>| in_use_before.iter().all(|used| used.number != *page);
        assert!(
            taken.into_iter().all(free),
            "a new part stands in a page that was free"
        );
    }
}

/// Whether entries are, in order, what may be left of a page: some may be gone,
/// one may have taken a lower depth, and the removed record's may be a dummy.
fn may_be_left(left: &[Entry], before: &[Entry], removed: u32) -> bool {
    let mut rest = before.iter();
    left.iter().all(|entry| {
        rest.any(|old| {
            let record = old.record.filter(|&record| record != removed);
            record == entry.record && old.depth >= entry.depth
        })
    })
}

/// The pages of level 0 with the numbers they have, left to right.
fn in_order(root: &Page) -> Vec<(Option<u32>, Vec<Entry>)> {
    let pages = root.pages().into_iter();
    let leaves = pages.filter(|page| page.level() == 0);
    leaves.map(|page| (page.number, page.leaves())).collect()
}

/// Each page of level 0 after an off is what may be left of one page, whose
/// number it has, or once at most of two that stood side by side when all that
/// were emptied had gone; it then has the left one's number, and the right one
/// is free.
#[test]
fn an_off_takes_out_of_pages_and_joins_two_of_level_0_at_most() {
    let mut met = [0; 2];
    for seed in seeds(1_500) {
        let mut random = Random::new(seed);
        let before = random_index(&mut random);
        let held: Vec<(u64, u32)> = before.herd().into_iter().collect();
        if held.is_empty() {
            continue;
        }
        let (key, record) = *random.pick(&held);
        let mut after = before.clone();
        assert_eq!(after.off(key), Ok(()));
        let (left, new) = (in_order(&before.taken_out(key)), in_order(&after.root));
        let old = level_0(&before.root);
        for (page, left) in &left {
            let entries = old.get(page).expect("no page is taken");
            assert!(may_be_left(left, entries, record), "seed {seed}");
        }
        let joined = |at: usize| {
            let mut pages = left.clone();
            let (_, right) = pages.remove(at + 1);
            pages[at].1.extend(right);
            pages
        };
        let join = new.len() < left.len();
        let one_join = (0..left.len() - 1).any(|at| joined(at) == new);
        assert!(if join { one_join } else { left == new }, "seed {seed}");
        met[usize::from(join)] += 1;
    }
    assert!(
        met.iter().all(|&times| times >= 40),
        "kept, joined: {met:?}"
    );
}

/// The depths of the pages of level 0 after a row is cut.
fn cut(depths: &[usize], most: usize) -> Vec<Vec<usize>> {
    let leaf = |&depth: &usize| Entry {
        depth,
        record: None,
    };
    let leaves = Row::Leaves(depths.iter().map(leaf).collect());
    let root = changed(
        Page {
            number: None,
            row: leaves,
        },
        &Change::new(),
        most,
    );
    let pages = root.pages().into_iter().filter(|page| page.level() == 0);
    pages.map(Page::depths).collect()
}

#[test]
fn rows_are_cut_after_the_shallowest_entry_but_the_last() {
    let row = [3, 2, 5, 4, 1, 6, 0];
    assert_eq!(cut(&row, 7), [vec![3, 2, 5, 4, 1, 6, 0]]);
    assert_eq!(cut(&row, 6), [vec![3, 2, 5, 4, 1], vec![6, 0]]);
    assert_eq!(cut(&row, 5), [vec![3, 2, 5, 4, 1], vec![6, 0]]);
    assert_eq!(cut(&row, 4), [vec![3, 2], vec![5, 4, 1], vec![6, 0]]);
    assert_eq!(cut(&row, 3), [vec![3, 2], vec![5, 4, 1], vec![6, 0]]);
    assert_eq!(cut(&row, 2), [vec![3, 2], vec![5, 4], vec![1], vec![6, 0]]);
    assert_eq!(cut(&[1, 2, 3, 0], 2), [vec![1], vec![2], vec![3, 0]]);
    assert_eq!(cut(&[4, 3, 2, 0], 2), [vec![4, 3], vec![2], vec![0]]);
}
