//! Every history of on and off at small W: all page trees that any of them
//! can make are sound, and all that is claimed of histories holds.

use model::claims::claims;
use model::index::Index;
use model::sound::sound;
use model::table::Tables;
use std::collections::HashSet;

/// Puts the key on, or takes it off if it is held. Each key is its own record.
fn step(index: &Index, key: u64) -> Index {
    let mut next = index.clone();
    let done = match next.register[key as usize] {
        Some(_) => next.off(key),
        None => next.on(key, key),
    };
    assert_eq!(done, Ok(()));
    next
}

/// Makes every history and gives the number of different page trees.
fn explore(width: usize, entries: usize) -> usize {
    let keys = 1 << width;
    let empty = Index::empty(width, entries, 100, keys);
    let mut met = HashSet::from([empty.root.without_numbers()]);
    let mut to_do = vec![empty];
    while let Some(index) = to_do.pop() {
        for key in 0..keys as u64 {
            let next = step(&index, key);
            if met.insert(next.root.without_numbers()) {
                let tables = Tables::of(&next);
                assert_eq!(sound(tables.lent()), Ok(()), "{index:?} {key}");
                let claimed = claims(tables.lent(), width, &next.herd());
                assert_eq!(claimed, Ok(()), "{index:?} {key}");
                to_do.push(next);
            }
        }
    }
    met.len()
}

#[test]
fn every_history_at_2_and_3_bits() {
    for (width, entries) in [(1, 2), (2, 2), (2, 3), (3, 2), (3, 3), (3, 4), (3, 5)] {
        let trees = explore(width, entries);
        println!("W {width}, E {entries}: {trees} page trees");
        assert!(trees >= 1 << (1 << width), "a tree for every herd at least");
    }
}
