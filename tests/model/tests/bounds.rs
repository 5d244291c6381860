//! How long the leaf list may get, and what stands after a dummy: every small
//! herd, random herds, and what breaks either claim.

mod common;

use common::seeds;
use model::bounds::{bounds, most_entries};
use model::leaf_list::{leaf_list, show, Entry, Herd};
use model::longest::Longest;
use model::random::keys::{herd, largest_key, SPREADS};
use model::random::Random;
use std::rc::Rc;

/// The herd whose keys are the one-bits of `set`, each its own record.
fn herd_of(set: u32) -> Herd {
    let held = (0..16).filter(|key| set >> key & 1 == 1);
    held.map(|key| (u64::from(key), key)).collect()
}

/// Every herd of keys of at most 4 bits with its list.
fn every_herd(width: usize) -> impl Iterator<Item = (Herd, Vec<Entry>)> {
    let herds = (0..1 << (1 << width)).map(herd_of);
    herds.map(move |herd| {
        let list = leaf_list(width, &herd);
        (herd, list)
    })
}

/// The herd of the two largest keys, the smaller on the first record.
fn two_largest(width: usize, [smaller, larger]: [u32; 2]) -> Herd {
    let largest = largest_key(width);
    Herd::from([(largest - 1, smaller), (largest, larger)])
}

#[test]
fn every_herd_of_up_to_4_bits_keeps_the_bounds() {
    for width in 1..=4 {
        for (herd, list) in every_herd(width) {
            let kept = bounds(width, herd.len(), &list);
            assert_eq!(kept, Ok(()), "W {width} {herd:?}");
        }
    }
}

#[test]
fn random_herds_keep_the_bounds() {
    let longest: Vec<Rc<Longest>> = (0..=64).map(|width| Longest::any(width, 60)).collect();
    let (mut empty, mut long, mut reach) = (0, 0, 0);
    for seed in seeds(4_000) {
        let mut random = Random::new(seed);
        let width = random.between(1, 64);
        let spread = *random.pick(&SPREADS);
        let size = match random.below(4) {
            0 => random.below(4),
            _ => random.below(61),
        };
        let herd = herd(&mut random, width, spread, size, 80);
        let (held, list) = (herd.len(), leaf_list(width, &herd));
        assert_eq!(bounds(width, held, &list), Ok(()), "seed {seed}");
        assert!(list.len() <= longest[width].most()[held], "seed {seed}");
        empty += usize::from(held == 0);
        long += usize::from(held >= 10 && list.len() >= 2 * held);
        reach += usize::from(held >= 2 && list.len() == most_entries(width, held));
    }
    let met = format!("{empty} empty, {long} long, {reach} reach the bound");
    assert!(empty >= 100 && long >= 100 && reach >= 5, "{met}");
}

#[test]
fn the_two_largest_keys_reach_the_bound_on_any_records() {
    for width in 1..=64 {
        for records in [[0, 1], [1, 0], [65_533, 7]] {
            let list = leaf_list(width, &two_largest(width, records));
            assert_eq!(bounds(width, 2, &list), Ok(()), "W {width}");
            assert_eq!(list.len(), most_entries(width, 2), "W {width}");
            assert_eq!(list.len(), width + 1);
        }
    }
}

#[test]
fn no_other_two_keys_of_up_to_8_bits_reach_the_bound() {
    for width in 1..=8 {
        let largest = largest_key(width);
        let pairs = (0..=largest).flat_map(|high| (0..high).map(move |low| [low, high]));
        let reach = |pair: &[u64; 2]| {
            let herd = Herd::from(pair.map(|key| (key, key as u32)));
            leaf_list(width, &herd).len() >= most_entries(width, 2)
        };
        let reaching: Vec<[u64; 2]> = pairs.filter(reach).collect();
        assert_eq!(reaching, [[largest - 1, largest]], "W {width}");
    }
}

/// Whether a rule holds of the list of so many keys at this width.
type Rule = fn(usize, usize, &[Entry]) -> bool;

/// Whether this holds of every dummy that is not last, and the entry after it.
fn after_dummies(list: &[Entry], rule: fn(&Entry, &Entry) -> bool) -> bool {
    let mut pairs = list.windows(2).filter(|pair| pair[0].record.is_none());
    pairs.all(|pair| rule(&pair[0], &pair[1]))
}

/// Rules that are not the request's, and that a herd breaks.
const WRONG: [(&str, Rule); 7] = [
    ("several keys never reach the bound", |width, held, list| {
        held < 2 || list.len() < most_entries(width, held)
    }),
    (
        "each further key has at most W - 1 entries",
        |width, held, list| held < 1 || list.len() <= most_entries(width - 1, held),
    ),
    ("a key has at most two entries", |_, held, list| {
        held < 1 || list.len() <= 2 * held
    }),
    ("a dummy is followed by the next depth", |_, _, list| {
        after_dummies(list, |dummy, next| next.depth == dummy.depth + 1)
    }),
    ("a dummy is followed by a record", |_, _, list| {
        after_dummies(list, |_, next| next.record.is_some())
    }),
    ("a record is followed by a shallower entry", |_, _, list| {
        let mut pairs = list.windows(2).filter(|pair| pair[0].record.is_some());
        pairs.all(|pair| pair[1].depth < pair[0].depth)
    }),
    ("no dummy is ever last", |_, _, list| {
        list[list.len() - 1].record.is_some()
    }),
];

#[test]
fn every_wrong_rule_is_broken_by_a_herd() {
    let herds: Vec<(Herd, Vec<Entry>)> = every_herd(4).collect();
    for (what, rule) in WRONG {
        let mut broken = herds
            .iter()
            .filter(|(herd, list)| !rule(4, herd.len(), list));
        assert!(broken.next().is_some(), "{what}: no herd breaks it");
    }
    for width in 1..=64 {
        let list = leaf_list(width, &two_largest(width, [0, 1]));
        assert!(!WRONG[0].1(width, 2, &list), "W {width}");
    }
}

/// Lists at W 3, the keys that they are said to hold, and words from what is
/// said of them.
const WRONG_LISTS: [(usize, &str, &str); 14] = [
    // An entry too many.
    (2, "(1,-)(2,-)(3,1)(1,3)(0,2)", "5 entries"),
    (2, "(3,1)(2,2)(3,3)(1,4)(0,5)", "5 entries"),
    (1, "(1,1)(0,2)", "2 entries"),
    (3, "(1,-)(2,-)(3,1)(1,-)(2,-)(3,2)(1,3)(0,4)", "8 entries"),
    // A dummy last.
    (1, "(0,-)", "dummy at 0"),
    (2, "(1,-)(2,1)(0,-)", "dummy at 2"),
    (3, "(1,1)(0,2)(3,-)", "dummy at 2"),
    // A dummy followed by an entry as deep, live or a dummy.
    (2, "(1,-)(2,-)(2,1)(0,2)", "dummy at 1"),
    (2, "(1,-)(1,-)(2,1)(0,2)", "dummy at 0"),
    // A dummy followed by a shallower entry.
    (2, "(1,-)(3,-)(2,1)(0,2)", "dummy at 1"),
    (2, "(2,1)(1,-)(0,2)", "dummy at 1"),
    // Another list than the empty herd's.
    (0, "", "the empty herd"),
    (0, "(0,1)", "the empty herd"),
    (0, "(1,-)(0,-)", "the empty herd"),
];

/// The entries of a list as it is shown.
fn entries(shown: &str) -> Vec<Entry> {
    let entry = |entry: &str| {
        let (depth, record) = entry[1..].split_once(',').expect("two numbers");
        Entry::new(depth.parse().expect("a depth"), record.parse().ok())
    };
    let list: Vec<Entry> = shown.split_terminator(')').map(entry).collect();
    assert_eq!(show(&list), shown);
    list
}

#[test]
fn lists_that_break_a_claim_are_refused() {
    for (held, shown, words) in WRONG_LISTS {
        let refused = bounds(3, held, &entries(shown)).expect_err(shown);
        assert!(refused.contains(words), "{shown}: {refused}");
    }
    let kept = [(0, "(0,-)"), (1, "(0,1)"), (2, "(1,-)(2,-)(3,1)(0,2)")];
    for (held, shown) in kept {
        assert_eq!(bounds(3, held, &entries(shown)), Ok(()), "{shown}");
    }
}
