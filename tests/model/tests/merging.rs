//! Merging: small cases at W 8 by hand, and what it leaves alone.
//!
//! A tree is written with a pair of brackets around each page below the root.
//! Each herd's records are numbered from 1 in key order.

mod common;

use common::seeds;
use model::index::Index;
use model::leaf_list::{show, Entry};
use model::merging::merged;
use model::pages::{lowered, Page, Row};
use model::random::sound_tables::{any_sound_index, ENTRIES};
use model::random::Random;
use model::sound::sound;
use model::table::Tables;

/// The page that this writing shows, its children numbered from `next` on.
fn page(text: &str, next: &mut u32) -> Page {
    let number = Some(*next);
    *next += 1;
    if !text.starts_with('[') {
        return Page::new(number, Row::Leaves(entries(text)));
    }
    let mut children = Vec::new();
    let (mut depth, mut start) = (0, 0);
    for (at, letter) in text.char_indices() {
        match letter {
            '[' => depth += 1,
            ']' => depth -= 1,
            _ => {}
        }
        if depth == 0 {
            children.push(page(&text[start + 1..at], next));
            start = at + 1;
        }
    }
    Page::new(number, Row::Children(children))
}

/// The entries of `(1,-)(0,2)`.
fn entries(text: &str) -> Vec<Entry> {
    let pairs = text.split_terminator(')');
    let entry = |pair: &str| {
        let (depth, record) = pair[1..].split_once(',').expect("a depth and a record");
        let depth = depth.parse().expect("a depth");
        Entry::new(depth, record.parse().ok())
    };
    pairs.map(entry).collect()
}

/// The writing of a tree.
fn written(page: &Page) -> String {
    match &page.row {
        Row::Leaves(leaves) => show(leaves),
        Row::Children(children) => children
            .iter()
            .map(|child| format!("[{}]", written(child)))
            .collect(),
    }
}

/// The index of this herd in these pages of E entries.
fn index(entries: usize, herd: &[u64], pages: &str) -> Index {
    let mut index = Index::empty(8, entries, 20, herd.len() + 1);
    for (record, &key) in herd.iter().enumerate() {
        index.register[record + 1] = Some(key);
    }
    index.root = page(pages, &mut 0);
    assert_eq!(sound(Tables::of(&index).lent()), Ok(()), "{pages}");
    index
}

/// What an off of this key leaves of these pages.
fn after_off(entries: usize, herd: &[u64], pages: &str, key: u64) -> String {
    let mut index = index(entries, herd, pages);
    assert_eq!(index.off(key), Ok(()));
    assert_eq!(sound(Tables::of(&index).lent()), Ok(()), "{pages}");
    written(&index.root)
}

const P10: [u64; 4] = [0, 0b0100_0000, 0b1010_1010, 0b1010_1100];

/// Depths that fall: (7,1)(6,2)(5,3)(4,4)(3,5)(2,6)(1,7)(0,8).
const FALLING: [u64; 8] = [0, 2, 4, 8, 16, 32, 64, 128];

/// Depths that rise: (1,1)(2,2)(3,3)(0,4).
const RISING: [u64; 4] = [0, 0b1000_0000, 0b1100_0000, 0b1110_0000];

/// (1,1)(3,2)(2,3)(0,4).
const A_STEP: [u64; 4] = [0, 0b1000_0000, 0b1010_0000, 0b1100_0000];

#[test]
fn p10_less_01000000_is_p4_in_one_page() {
    let p10 = "[(2,1)(1,2)][(3,-)(5,-)(6,3)(0,4)]";
    let p4 = "(1,1)(3,-)(5,-)(6,3)(0,4)";
    assert_eq!(after_off(5, &P10, p10, 0b0100_0000), p4);
}

#[test]
fn joined_with_the_left_neighbour() {
    let pages = "[(1,1)][(2,2)][(3,3)(0,4)]";
    let joined = "[(1,1)][(2,2)(0,4)]";
    assert_eq!(after_off(5, &RISING, pages, 0b1100_0000), joined);
}

#[test]
fn the_left_one_of_both_neighbours_is_taken() {
    let pages = "[(7,1)(6,2)][(5,3)(4,4)][(3,5)(2,6)(1,7)(0,8)]";
    let joined = "[(7,1)(6,2)(4,3)][(3,5)(2,6)(1,7)(0,8)]";
    assert_eq!(after_off(5, &FALLING, pages, 8), joined);
}

#[test]
fn a_shallower_left_neighbour_is_passed_over_for_the_right_one() {
    let pages = "[(1,1)][(3,2)(2,3)][(0,4)]";
    let joined = "[(1,1)][(2,3)(0,4)]";
    assert_eq!(after_off(5, &A_STEP, pages, 0b1000_0000), joined);
}

#[test]
fn a_left_neighbour_that_is_too_full_is_passed_over_for_the_right_one() {
    let pages = "[(7,1)(6,2)(5,3)(4,4)(3,5)][(2,6)(1,7)][(0,8)]";
    let joined = "[(7,1)(6,2)(5,3)(4,4)(3,5)][(1,6)(0,8)]";
    assert_eq!(after_off(5, &FALLING, pages, 64), joined);
    let roomier = "[(7,1)(6,2)(5,3)(4,4)(3,5)(1,6)][(0,8)]";
    assert_eq!(after_off(6, &FALLING, pages, 64), roomier);
}

#[test]
fn neither_neighbour_can_be_joined() {
    // The left one is shallower, and the right one would be one over E.
    let herd = [0, 128, 160, 192, 196, 200, 208, 224];
    let pages = "[(1,1)][(3,2)(2,3)][(6,4)(5,5)(4,6)(3,7)(0,8)]";
    let kept = "[(1,1)][(2,3)][(6,4)(5,5)(4,6)(3,7)(0,8)]";
    assert_eq!(after_off(5, &herd, pages, 128), kept);
    // The left one would be one over E, and the right one is deeper.
    let herd = [0, 2, 4, 8, 16, 64, 96, 128, 192];
    let pages = "[(7,1)(6,2)(5,3)(4,4)(2,5)][(3,6)(1,7)][(2,8)][(0,9)]";
    let kept = "[(7,1)(6,2)(5,3)(4,4)(2,5)][(1,6)][(2,8)][(0,9)]";
    assert_eq!(after_off(5, &herd, pages, 96), kept);
}

#[test]
fn exactly_a_quarter_is_not_fewer() {
    let pages = "[(7,1)(6,2)(5,3)(4,4)][(3,5)(2,6)(1,7)][(0,8)]";
    let kept = "[(7,1)(6,2)(5,3)(4,4)][(3,5)(1,6)][(0,8)]";
    assert_eq!(after_off(8, &FALLING, pages, 64), kept);
    // Two are fewer than a quarter of nine, which is more than two.
    let joined = "[(7,1)(6,2)(5,3)(4,4)(3,5)(1,6)][(0,8)]";
    assert_eq!(after_off(9, &FALLING, pages, 64), joined);
}

#[test]
fn a_page_that_is_still_sparse_is_not_joined_again() {
    let pages = "[(7,1)][(6,2)(5,3)][(4,4)(3,5)(2,6)(1,7)(0,8)]";
    let joined = "[(7,1)(5,2)][(4,4)(3,5)(2,6)(1,7)(0,8)]";
    assert_eq!(after_off(9, &FALLING, pages, 4), joined);
}

#[test]
fn joined_on_two_levels() {
    let herd = [0, 0b1000_0000, 0b1100_0000, 0b1101_0000, 0b1110_0000];
    let pages = "[[(1,1)]][[(2,2)]][[(4,3)(3,4)][(0,5)]]";
    let joined = "[[(1,1)]][[(2,2)][(3,4)(0,5)]]";
    assert_eq!(after_off(5, &herd, pages, 0b1100_0000), joined);
}

#[test]
fn an_only_child_whose_parent_is_joined() {
    let pages = "[[(1,1)]][[(3,2)(2,3)]][[(0,4)]]";
    let joined = "[[(1,1)]][[(2,3)][(0,4)]]";
    assert_eq!(after_off(5, &A_STEP, pages, 0b1000_0000), joined);
}

#[test]
fn a_page_of_another_parent_is_no_neighbour() {
    let pages = "[[(7,1)][(6,2)(5,3)]][[(4,4)(3,5)]][[(2,6)][(1,7)][(0,8)]]";
    // The page of the fourth is alone under its parent, which is joined.
    let joined = "[[(7,1)][(6,2)(5,3)][(3,4)]][[(2,6)][(1,7)][(0,8)]]";
    assert_eq!(after_off(5, &FALLING, pages, 16), joined);
}

#[test]
fn the_parent_of_a_page_that_is_not_sparse_is_looked_at() {
    let pages = "[[(7,1)(6,2)]][[(5,3)(4,4)(3,5)]][[(2,6)(1,7)(0,8)]]";
    let joined = "[[(7,1)(6,2)][(5,3)(3,4)]][[(2,6)(1,7)(0,8)]]";
    assert_eq!(after_off(5, &FALLING, pages, 16), joined);
}

#[test]
fn an_off_that_makes_a_dummy_joins_too() {
    let pages = "[(1,1)][(2,2)][(3,3)(0,4)]";
    let joined = "[(1,1)][(2,-)(3,3)(0,4)]";
    assert_eq!(after_off(5, &RISING, pages, 0b1000_0000), joined);
}

#[test]
fn the_page_that_covers_the_key_now_is_not_the_one_that_held_it() {
    let pages = "[(7,1)][(6,2)(5,3)(4,4)(3,5)(2,6)][(1,7)(0,8)]";
    let joined = "[(6,1)(5,3)(4,4)(3,5)(2,6)][(1,7)(0,8)]";
    assert_eq!(after_off(5, &FALLING, pages, 2), joined);
}

#[test]
fn the_root_rule_comes_last() {
    let pages = "[[(7,1)(6,2)(5,3)(4,4)(3,5)]][[(2,6)(1,7)(0,8)]]";
    let joined = "[(7,1)(6,2)(5,3)(4,4)(2,5)][(1,7)(0,8)]";
    assert_eq!(after_off(5, &FALLING, pages, 32), joined);
    let three = "[[[(7,1)(6,2)(5,3)(4,4)(3,5)]]][[[(2,6)(1,7)(0,8)]]]";
    let joined = "[[(7,1)(6,2)(5,3)(4,4)(2,5)]][[(1,7)(0,8)]]";
    assert_eq!(after_off(5, &FALLING, three, 32), joined);
}

#[test]
fn the_left_page_keeps_its_number() {
    for (pages, key) in [
        ("[(1,1)][(2,2)][(3,3)(0,4)]", 0b1100_0000),
        ("[(1,1)][(2,2)][(3,3)(0,4)]", 0b1000_0000),
    ] {
        let mut index = index(5, &RISING, pages);
        assert_eq!(index.off(key), Ok(()));
        let numbers: Vec<_> = index.root.pages().iter().map(|page| page.number).collect();
        assert_eq!(numbers, [Some(0), Some(1), Some(2)], "{pages}");
    }
}

/// A page's number, its last depth and all leaves under it.
type Seen = (Option<u32>, usize, Vec<Entry>);

/// The pages of a level, left to right.
fn level(root: &Page, level: usize) -> Vec<Seen> {
    let pages = root.pages().into_iter();
    let pages = pages.filter(|page| page.level() == level);
    pages
        .map(|page| (page.number, page.last_depth(), page.leaves()))
        .collect()
}

/// The same pages, but that the one at `left` has taken in the next.
fn joined(pages: &[Seen], left: usize) -> Vec<Seen> {
    let mut pages = pages.to_vec();
    let (_, depth, leaves) = pages.remove(left + 1);
    pages[left].1 = depth;
    pages[left].2.extend(leaves);
    pages
}

/// Which page of a level, whose pages are `old` without merging, has taken in
/// the next, if the pages are `new` with it. There must be no other change, and
/// the page was deeper than the next.
fn the_join(old: &[Seen], new: &[Seen]) -> Option<usize> {
    if old == new {
        return None;
    }
    let mut lefts = 0..old.len() - 1;
    let left = lefts.find(|&left| joined(old, left) == new);
    let left = left.expect("two neighbours put together");
    assert!(old[left].1 > old[left + 1].1);
    Some(left)
}

/// On each level at most two neighbours are put together, and take the number
/// of the left and the depth of the right one. No page is taken, every other
/// page keeps its number, its depth and the leaves under it, and on level 0
/// stands what would stand there without merging.
#[test]
fn merging_only_puts_neighbours_together() {
    let mut joins = 0;
    for seed in seeds(1_500) {
        let before = any_sound_index(&mut Random::new(seed), &ENTRIES);
        for &key in before.herd().keys() {
            let without = before.taken_out(key);
            let with = merged(without.clone(), key, before.width, before.most_entries);
            assert_eq!(with.leaves(), without.leaves(), "seed {seed}");
            assert_eq!(with.level(), without.level(), "seed {seed}");
            joins += (0..=with.level())
                .filter_map(|at| the_join(&level(&without, at), &level(&with, at)))
                .count();
            let mut after = before.clone();
            assert_eq!(after.off(key), Ok(()));
            assert_eq!(after.root, lowered(with), "seed {seed}");
            assert_eq!(sound(Tables::of(&after).lent()), Ok(()), "seed {seed}");
        }
    }
    assert!(joins >= 1_000, "{joins} joins");
}

/// "Fewer than a quarter of E": a page has an entry, so E 5 is the least.
#[test]
fn nothing_is_joined_up_to_four_entries_a_page() {
    for seed in seeds(400) {
        let before = any_sound_index(&mut Random::new(seed), &[2, 3, 4]);
        for &key in before.herd().keys() {
            let mut after = before.clone();
            assert_eq!(after.off(key), Ok(()));
            assert_eq!(after.root, lowered(before.taken_out(key)), "seed {seed}");
        }
    }
}
