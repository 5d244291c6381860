//! Search, insertion and deletion on the flat list against its definition.

mod common;

use common::seeds;
use model::bits::{bits, number};
use model::leaf_list::{leaf_list, next_discriminator, show, Entry, Herd};
use model::random::keys::{herd, key, SPREADS};
use model::random::Random;
use model::search::{changed, deletion, insertion, search};

/// The first entry whose discriminator exceeds the key. The closing depth 0
/// stands for a bound above every key.
fn first_above(list: &[Entry], wanted: u64, width: usize) -> usize {
    let mut bound = bits(0, width);
    for (i, entry) in list.iter().enumerate() {
        if entry.depth == 0 {
            return i;
        }
        bound = next_discriminator(&bound, entry.depth);
        if number(&bound) > wanted {
            return i;
        }
    }
    panic!("no entry closes the list");
}

/// Tests one key on a herd and its list: it is put on the record if it is not
/// held, else taken off; `after` is the list that must be left.
fn test_key(width: usize, held: (&Herd, &[Entry]), put: (u64, u32), after: &[Entry]) {
    let ((herd, list), (key, record)) = (held, put);
    let i = search(list, key, width);
    assert_eq!(i, first_above(list, key, width), "W {width} {herd:?} {key}");
    let change = match herd.get(&key) {
        Some(&held) => {
            assert_eq!(list[i].record, Some(held));
            deletion(list, i)
        }
        None => {
            let key_of = |record| *herd.iter().find(|held| *held.1 == record).expect("held").0;
            insertion(list, width, key_of, key, record)
        }
    };
    let left = changed(list, &change);
    assert!(
        left == after,
        "W {width} {herd:?} {key}: {} for {}",
        show(&left),
        show(after)
    );
}

/// The lowest record not in use.
fn free_record(herd: &Herd) -> u32 {
    let free = |record: &u32| herd.values().all(|used| used != record);
    (0..).find(free).expect("a free record")
}

/// The herd with the key put on or taken off.
fn other_herd(herd: &Herd, key: u64) -> Herd {
    let mut other = herd.clone();
    if other.remove(&key).is_none() {
        other.insert(key, free_record(herd));
    }
    other
}

/// The herd whose keys are the one-bits of `set`, each its own record.
fn herd_of(set: usize) -> Herd {
    let held = (0..16).filter(|key| set >> key & 1 == 1);
    held.map(|key| (key, key as u32)).collect()
}

#[test]
fn every_key_on_every_herd_of_up_to_4_bits() {
    for width in 1..=4 {
        let keys = 1 << width;
        let sets = 0..1 << keys;
        let lists: Vec<Vec<Entry>> = sets.map(|set| leaf_list(width, &herd_of(set))).collect();
        for (set, list) in lists.iter().enumerate() {
            let herd = herd_of(set);
            for key in 0..keys {
                let after = &lists[set ^ 1 << key];
                test_key(width, (&herd, list), (u64::from(key), key), after);
            }
        }
    }
}

#[test]
fn random_keys_on_random_herds() {
    for seed in seeds(6_000) {
        let mut random = Random::new(seed);
        let width = random.between(1, 64);
        let spread = *random.pick(&SPREADS);
        let size = random.below(20);
        let herd = herd(&mut random, width, spread, size, 30);
        let list = leaf_list(width, &herd);
        let held: Vec<u64> = herd.keys().copied().collect();
        let key = match random.below(2) {
            0 if !held.is_empty() => *random.pick(&held),
            _ => key(&mut random, width, spread),
        };
        let after = leaf_list(width, &other_herd(&herd, key));
        test_key(width, (&herd, &list), (key, free_record(&herd)), &after);
    }
}

#[test]
fn the_largest_key_lies_in_the_last_interval() {
    for width in 1..=64 {
        let largest = u64::MAX >> (64 - width);
        let herd = Herd::from([(0, 5), (largest, 9)]);
        let list = leaf_list(width, &herd);
        assert_eq!(
            list[list.len() - 1],
            Entry {
                depth: 0,
                record: Some(9)
            }
        );
        assert_eq!(search(&list, largest, width), list.len() - 1);
    }
}

#[test]
fn two_largest_keys_have_a_dummy_at_each_depth_but_the_last() {
    for width in 1..=64 {
        let largest = u64::MAX >> (64 - width);
        let list = leaf_list(width, &Herd::from([(largest - 1, 1), (largest, 2)]));
        let mut expected: Vec<Entry> = (1..width)
            .map(|depth| Entry {
                depth,
                record: None,
            })
            .collect();
        expected.push(Entry {
            depth: width,
            record: Some(1),
        });
        expected.push(Entry {
            depth: 0,
            record: Some(2),
        });
        assert_eq!(list, expected, "W {width}");
    }
}
