//! Cutting a page more quickly: "in every row that insertion cuts, the place found
//! is 01's". Every order and every history of few keys, and random histories, all
//! offs with merging.

mod common;
mod cut_rows;

use common::seeds;
use cut_rows::check;
use model::index::Index;
use model::pages::{lowered, Cut, Cutting};
use model::random::keys::{key, SPREADS};
use model::random::tags::{lots, tag};
use model::random::Random;
use std::collections::{BTreeMap, BTreeSet, HashSet};

/// What was met.
#[derive(Debug, Default)]
struct Met {
    /// How often each kind of row was cut with no depth one above its last, and
    /// how often with one.
    cuts: BTreeMap<Cutting, [usize; 2]>,
    /// Entries of the longest row that was cut.
    longest: usize,
    /// Offs that merged pages.
    merged: usize,
}

impl Met {
    /// Puts a key on and checks every row that is cut; gives 0 or the row that
    /// declines it.
    fn on(&mut self, index: &mut Index, key: u64, record: u64) -> u32 {
        let cuts = index.cuts(key, record).expect("rows 2 to 5 do not apply");
        for Cut { of, depths, place } in cuts {
            assert!(depths.len() > index.most_entries, "{depths:?}");
            // "Its shallowest entry": there is one alone.
            let choice = depths[..depths.len() - 1].iter();
            let as_shallow = choice.filter(|&&depth| depth <= depths[place - 1]);
            assert_eq!(as_shallow.count(), 1, "{depths:?}");
            let stopped = check(&depths, place);
            self.cuts.entry(of).or_default()[usize::from(stopped)] += 1;
            self.longest = self.longest.max(depths.len());
        }
        index.on(key, record).err().unwrap_or(0)
    }

    /// Takes a key off and gives its record.
    fn off(&mut self, index: &mut Index, key: u64) -> u64 {
        let record = index.find(key).expect("a held key");
        let unmerged = lowered(index.taken_out(key));
        index.off(key).expect("a held key");
        self.merged += usize::from(index.root != unmerged);
        record.into()
    }

    /// How often a kind of row was cut: with none one above its last, with one.
    fn cut(&self, of: Cutting) -> [usize; 2] {
        self.cuts.get(&of).copied().unwrap_or_default()
    }
}

/// Puts all keys on that are not held, in every order; gives how many orders there
/// are. Each key is its own record.
fn every_order(index: &Index, met: &mut Met) -> usize {
    let keys = 0..index.register.len() as u64;
    let come: Vec<u64> = keys.filter(|&key| index.find(key).is_err()).collect();
    let mut orders = usize::from(come.is_empty());
    for key in come {
        let mut next = index.clone();
        assert_eq!(met.on(&mut next, key, key), 0);
        orders += every_order(&next, met);
    }
    orders
}

#[test]
fn all_keys_of_3_bits_in_every_order() {
    for entries in [2, 3] {
        let mut met = Met::default();
        let orders = every_order(&Index::empty(3, entries, 100, 8), &mut met);
        println!("E {entries}: {met:?}");
        assert_eq!(orders, 40_320);
        assert!(met.cut(Cutting::Page).iter().all(|&times| times > 10_000));
        // At E 3 neither a part nor a new root is ever too long.
        let too_long = [Cutting::Part, Cutting::NewRoot].map(|of| met.cut(of) != [0, 0]);
        assert_eq!(too_long, [entries == 2; 2]);
    }
}

/// Makes every history of on and off; gives the number of different page trees. Each
/// key is its own record.
fn every_history(empty: Index, met: &mut Met) -> usize {
    let keys = empty.register.len() as u64;
    let mut trees = HashSet::from([empty.root.without_numbers()]);
    let mut to_do = vec![empty];
    while let Some(index) = to_do.pop() {
        for key in 0..keys {
            let mut next = index.clone();
            let done = match next.find(key) {
                Ok(_) => met.off(&mut next, key) == key,
                Err(_) => met.on(&mut next, key, key) == 0,
            };
            assert!(done);
            if trees.insert(next.root.without_numbers()) {
                to_do.push(next);
            }
        }
    }
    trees.len()
}

#[test]
fn all_keys_of_3_bits_in_every_history() {
    let mut met = Met::default();
    for entries in 2..=7 {
        let trees = every_history(Index::empty(3, entries, 100, 8), &mut met);
        println!("E {entries}: {trees} page trees");
        assert!(trees >= 256, "a tree for every herd at least");
    }
    println!("{met:?}");
    assert_cut(&met, &[Cutting::Page], [100, 100]);
    assert_cut(&met, &[Cutting::Part], [5, 5]);
    assert_cut(&met, &[Cutting::NewRoot], [0, 5]);
    assert!(met.merged >= 100, "{met:?}");
}

/// What comes to a yard.
#[derive(Clone, Copy, Debug, PartialEq, Eq)]
enum Comers {
    /// Keys of any width; all begin with as many zeros, if any.
    Keys,
    /// Scattered national numbers of one country.
    Scattered,
    /// Lots of holdings.
    Lots,
}

/// An empty index, and keys that may come to it, none twice. Of 60 seeds in a row,
/// each has another size of E, other first zeros or another spread.
fn yard(seed: u64, random: &mut Random, comers: Comers) -> (Index, Vec<u64>) {
    let entries = match seed % 5 {
        0 => random.between(2, 4),
        1 => random.between(5, 12),
        2 => random.between(13, 60),
        3 => random.between(61, 254),
        _ => 255,
    };
    let count = (4 * entries).clamp(60, 600);
    let width = match comers {
        Comers::Keys => random.between(1, 64),
        _ => 64,
    };
    let (zeros, spread) = (seed / 5 % 3, SPREADS[(seed / 15 % 4) as usize]);
    let keys: BTreeSet<u64> = match comers {
        Comers::Keys => (0..count)
            .map(|_| key(random, width, spread) >> zeros)
            .collect(),
        Comers::Scattered => (0..count)
            .map(|_| tag(826, random.number() % (1 << 38)))
            .collect(),
        Comers::Lots => lots(random, count).into_iter().collect(),
    };
    let index = Index::empty(width, entries, 65_534, keys.len());
    (index, keys.into_iter().collect())
}

/// A history of at most so many ons and offs: the herd grows up to half of them, and
/// then shrinks or grows for a while. A key that is declined by 8 does not come again.
fn history(seed: u64, comers: Comers, changes: usize, met: &mut Met) {
    let mut random = Random::new(seed);
    let (mut index, mut away) = yard(seed, &mut random, comers);
    let mut held = Vec::new();
    let mut free: Vec<u64> = (0..away.len() as u64).collect();
    let mut on_percent = 90;
    for change in 0..changes {
        if change > changes / 2 && random.percent(2) {
            on_percent = *random.pick(&[10, 50, 90]);
        }
        if away.is_empty() && held.is_empty() {
            return;
        }
        let comes = held.is_empty() || random.percent(on_percent);
        if comes && !away.is_empty() {
            let key = away.swap_remove(random.below(away.len()));
            let record = *free.last().expect("a record for each key");
            match met.on(&mut index, key, record) {
                0 => {
                    free.pop();
                    held.push(key);
                }
                row => assert_eq!(row, 8),
            }
        } else {
            let key = held.swap_remove(random.below(held.len()));
            free.push(met.off(&mut index, key));
            away.push(key);
        }
    }
}

/// Histories of these comers, each of a seed, and what they met.
fn histories(comers: Comers, count: u64) -> Met {
    let mut met = Met::default();
    for seed in seeds(count) {
        history(seed, comers, 1_000, &mut met);
    }
    println!("{comers:?}: {met:?}");
    assert!(met.merged >= 20, "{met:?}");
    met
}

/// Asserts that rows of these kinds were cut at least so often: with no depth one
/// above the last, and with one.
fn assert_cut(met: &Met, kinds: &[Cutting], least: [usize; 2]) {
    for &of in kinds {
        let [none, stopped] = met.cut(of);
        let enough = none >= least[0] && stopped >= least[1];
        assert!(enough, "{of:?}: {met:?}");
    }
}

#[test]
fn random_histories_of_any_width() {
    let met = histories(Comers::Keys, 60);
    assert_cut(&met, &[Cutting::Page, Cutting::Part], [100, 20]);
    assert_cut(&met, &[Cutting::NewRoot], [5, 5]);
}

#[test]
fn random_histories_of_tags() {
    for comers in [Comers::Scattered, Comers::Lots] {
        let met = histories(comers, 15);
        assert_cut(&met, &[Cutting::Page, Cutting::Part], [100, 5]);
        // Every tag begins with 1, so that the whole list has a depth 1.
        assert_cut(&met, &[Cutting::NewRoot], [0, 5]);
        assert!(met.longest > 255, "{met:?}");
    }
}
