//! Every history of on and off at small W: each page tree that any of them can
//! make, changed by each key and by a load, beside the model; and all that is
//! claimed of histories holds of it.

use compare::beside::beside;
use compare::merges::MERGES;
use compare::met::{Met, CUTS, EMPTIED};
use compare::tag_index;
use model::answer::Answer;
use model::calls::Movement;
use model::claims::claims;
use model::history::{Call, Outcome};
use model::pages::Page;
use model::table::{read, Tables};
use std::collections::HashSet;

fn tree(tables: &Tables) -> Page {
    read(tables.lent()).root.without_numbers()
}

/// Puts the key on, or takes it off if it is held. Each key is its own record.
fn step(tables: &Tables, key: u64, met: &mut Met) -> Tables {
    let made = match tables.used[key as usize] {
        1 => Call::Off(key),
        _ => Call::On(key, key),
    };
    let mut next = tables.clone();
    let outcome = beside(&mut next, &made, met);
    let done = Ok(Outcome::Answered(Answer::done()));
    assert_eq!(outcome, done, "{made:?} after {:?}", tree(tables));
    next
}

/// A load that puts each key on, or takes it off if it is held, beginning with
/// `first`, and then undoes that for `first`.
fn load(tables: &Tables, first: usize, met: &mut Met) {
    let keys = tables.used.len();
    let movement = |at: usize| {
        let key = (first + at) % keys;
        let held = tables.used[key] == 1;
        // After all the others the first key is held if it was not before.
        let on = u32::from(held == (at == keys));
        let [key, record] = [key as u64; 2];
        let record = record as u32;
        Movement { key, record, on }
    };
    let movements: Vec<Movement> = (0..=keys).map(movement).collect();
    let answers = vec![7; keys + 2];
    let loaded = [vec![0; keys + 1], vec![7]].concat();
    let made = Call::Load(movements, answers);
    let outcome = beside(&mut tables.clone(), &made, met);
    let done = Ok(Outcome::Loaded(Answer::done(), loaded));
    assert_eq!(outcome, done, "{made:?} after {:?}", tree(tables));
}

/// Makes every history and gives the number of different page trees.
fn explore(width: usize, entries: usize, met: &mut Met) -> usize {
    let (keys, pages) = (1 << width, 40);
    let mut empty = Tables::zero(entries, pages, keys);
    let [w, e, p] = [width, entries, pages].map(|number| number as u64);
    assert_eq!(tag_index::format(&mut empty, w, e, p), Answer::done());
    let mut trees = HashSet::from([tree(&empty)]);
    let mut to_do = vec![empty];
    while let Some(tables) = to_do.pop() {
        load(&tables, trees.len() % keys, met);
        for key in 0..keys as u64 {
            let next = step(&tables, key, met);
            if trees.insert(tree(&next)) {
                let herd = read(next.lent()).herd();
                assert_eq!(claims(next.lent(), width, &herd), Ok(()));
                to_do.push(next);
            }
        }
    }
    trees.len()
}

#[test]
fn every_history_of_few_bits() {
    let mut met = Met::default();
    let cases = [(1, 2), (2, 2), (2, 3), (3, 2), (3, 3), (3, 4), (3, 5)];
    for (width, entries) in cases {
        let trees = explore(width, entries, &mut met);
        assert!(trees >= 1 << (1 << width), "a tree for every herd at least");
    }
    met.assert(10, &CUTS);
    met.assert(10, &EMPTIED);
    met.assert(10, &["joined left", "joined right", "no page sparse"]);
    met.assert(100, &["load 0", "moved on 0", "moved off 0"]);
    let answers = ["on 0", "off 0", "load 0", "moved on 0", "moved off 0"];
    met.assert_only(&[&answers[..], &CUTS, &EMPTIED, &MERGES].concat());
}
