//! Merging against its second form on the borders: every branch is met, and
//! every wrong rule is seen.

mod borders;
mod common;

use borders::{borders, merged, Borders, Order, Rule, Seen, Side, REQUESTED};
use common::seeds;
use model::index::Index;
use model::pages::{lowered, Page};
use model::random::sound_tables::any_sound_index;
use model::random::Random;
use model::search::search;
use std::collections::BTreeMap;

/// E from 5 on, where pages are joined.
const ENTRIES: [usize; 12] = [5, 5, 6, 7, 8, 9, 9, 10, 11, 12, 16, 20];

/// An off of a held key, whose tree before merging has the covering leaf at
/// `place`.
struct Off {
    before: Index,
    key: u64,
    taken_out: Page,
    place: usize,
    after: Index,
}

/// Takes every held key off, each from the same random tables.
fn offs(seed: u64) -> Vec<Off> {
    let before = any_sound_index(&mut Random::new(seed), &ENTRIES);
    let off = |&key: &u64| {
        let taken_out = before.taken_out(key);
        let mut after = before.clone();
        assert_eq!(after.off(key), Ok(()));
        Off {
            before: before.clone(),
            key,
            place: search(&taken_out.leaves(), key, before.width),
            taken_out,
            after,
        }
    };
    before.herd().keys().map(off).collect()
}

/// The borders after merging by this rule, and what was met.
fn by(rule: &Rule, off: &Off) -> (Borders, Seen) {
    merged(&off.taken_out, off.place, off.after.most_entries, rule)
}

/// The numbers of the page of level 0 that holds the leaf at `place`, and of
/// all pages above it, the root last.
fn over(root: &Page, place: usize) -> Vec<Option<u32>> {
    root.over(place).iter().map(|page| page.number).collect()
}

/// What an off met besides what its pages met when they were looked at.
fn besides(off: &Off, seen: &mut Seen) {
    let leaves = off.before.root.leaves();
    let joined = seen.iter().any(|what| what.starts_with("joined on the"));
    if joined && leaves.len() == off.taken_out.leaves().len() {
        seen.insert("joined after an off that only made a dummy");
    }
    let held = over(&off.before.root, search(&leaves, off.key, off.before.width));
    let covers = over(&off.taken_out, off.place);
    if held[0] != covers[0] {
        seen.insert("covered by another page than held it");
    }
    if held.len() > 1 && held[1] != covers[1] {
        seen.insert("covered under another parent");
    }
    if off.after.root.level() < lowered(off.taken_out.clone()).level() {
        seen.insert("root lowered because of a join");
    }
}

/// What offs meet of merging, and how often at least in the seeds below.
const BRANCHES: [(&str, usize); 19] = [
    ("covered by another page than held it", 1_000),
    ("covered under another parent", 200),
    ("exactly E entries after a join", 300),
    ("joined above level 0 alone", 2_500),
    ("joined after an off that only made a dummy", 500),
    ("joined on the left", 2_500),
    ("joined on the right", 2_000),
    ("joined on two or more levels", 600),
    ("left neighbour one over E", 200),
    ("left neighbour shallower", 1_000),
    ("neighbour further over E", 30),
    ("no left neighbour under its parent", 1_200),
    ("no neighbour that it can be joined with", 1_200),
    ("nothing to do", 10_000),
    ("only child", 2_000),
    ("right neighbour deeper", 800),
    ("right neighbour one over E", 180),
    ("root lowered because of a join", 2_500),
    ("still sparse after its join", 1_400),
];

#[test]
fn every_branch_is_met_and_both_forms_agree() {
    let mut met: BTreeMap<&str, usize> = BTreeMap::new();
    for seed in seeds(6_000) {
        for off in offs(seed) {
            let (second, mut seen) = by(&REQUESTED, &off);
            let what = format!("seed {seed}, off {:#x}", off.key);
            assert_eq!(borders(&off.after.root), second, "{what}");
            besides(&off, &mut seen);
            for what in seen {
                *met.entry(what).or_default() += 1;
            }
        }
    }
    let branches: BTreeMap<&str, usize> = BRANCHES.into();
    assert!(met.keys().eq(branches.keys()), "{met:#?}");
    for (what, least) in branches {
        assert!(met[what] >= least, "{what}: {} times", met[what]);
    }
}

/// Rules that are not the request's.
const WRONG: [(&str, Rule); 13] = [
    (
        "exactly a quarter is few enough",
        Rule {
            sparse: |count, most| 4 * count <= most,
            ..REQUESTED
        },
    ),
    (
        "a quarter is rounded down",
        Rule {
            sparse: |count, most| count < most / 4,
            ..REQUESTED
        },
    ),
    (
        "the left neighbour is skipped",
        Rule {
            sides: &[Side::Right],
            ..REQUESTED
        },
    ),
    (
        "the right neighbour is skipped",
        Rule {
            sides: &[Side::Left],
            ..REQUESTED
        },
    ),
    (
        "the right neighbour is tried first",
        Rule {
            sides: &[Side::Right, Side::Left],
            ..REQUESTED
        },
    ),
    (
        "depths do not matter",
        Rule {
            deeper: false,
            ..REQUESTED
        },
    ),
    (
        "one entry past E is joined",
        Rule {
            fits: |together, most| together <= most + 1,
            ..REQUESTED
        },
    ),
    (
        "just E entries are not joined",
        Rule {
            fits: |together, most| together < most,
            ..REQUESTED
        },
    ),
    (
        "a page of another parent is joined",
        Rule {
            one_parent: false,
            ..REQUESTED
        },
    ),
    (
        "level 0 only",
        Rule {
            order: Order::LowestOnly,
            ..REQUESTED
        },
    ),
    (
        "a parent is looked at only where something was joined below",
        Rule {
            order: Order::UpWhileJoined,
            ..REQUESTED
        },
    ),
    (
        "from the root down",
        Rule {
            order: Order::Down,
            ..REQUESTED
        },
    ),
    (
        "a page that is still sparse is joined again",
        Rule {
            again: true,
            ..REQUESTED
        },
    ),
];

#[test]
fn every_wrong_rule_is_seen() {
    let mut differ = [0; WRONG.len()];
    for off in seeds(1_500).flat_map(offs) {
        let after = borders(&off.after.root);
        for ((_, rule), differ) in WRONG.iter().zip(&mut differ) {
            *differ += usize::from(by(rule, &off).0 != after);
        }
    }
    for ((what, _), differ) in WRONG.iter().zip(differ) {
        assert!(differ >= 40, "{what}: {differ} offs differ");
    }
}

/// The page that held the key is not always the one to look at.
#[test]
fn the_page_that_held_the_key_is_seen_to_be_wrong() {
    let mut differ = 0;
    for mut off in seeds(1_500).flat_map(offs) {
        let leaves = off.before.root.leaves();
        let held = over(&off.before.root, search(&leaves, off.key, off.before.width))[0];
        let mut places = 0..off.taken_out.leaves().len();
        // An emptied page has no leaf.
        if let Some(place) = places.find(|&place| over(&off.taken_out, place)[0] == held) {
            off.place = place;
            differ += usize::from(by(&REQUESTED, &off).0 != borders(&off.after.root));
        }
    }
    assert!(differ >= 30, "{differ} offs differ");
}
