//! Few keys that use up the pages: those of a greedy search, and groups below a
//! run of one-bits.

use crate::{fill, MOST_RECORDS, SAME_BYTES};
use model::index::Index;
use model::longest::{Longest, Parting};
use model::random::tags::tag;
use model::random::Random;

/// Prints the fewest keys that a greedy search found to use up the pages.
pub fn greedy() {
    println!(
        "## Fewest keys found that use up the pages (greedy search, not shown to be the least)"
    );
    println!("| E | P | keys held when the first was declined | row |");
    println!("|---:|---:|---:|---:|");
    for (e, p) in SAME_BYTES.into_iter().chain([(60, 250)]) {
        let (held, row) = searched(e, p);
        println!("| {e} | {p} | {held} | {row} |");
    }
    println!();
}

/// How many keys were held when one of those tried was first declined, and the
/// row: of the keys tried each time the one is put on that adds most pages, then
/// most entries.
fn searched(e: usize, p: usize) -> (usize, u32) {
    let mut random = Random::new(0);
    let mut index = Index::empty(64, e, p, MOST_RECORDS);
    let mut held = vec![u64::MAX];
    index.on(u64::MAX, 0).expect("the first key");
    loop {
        let mut best: Option<((usize, usize), u64, Index)> = None;
        let mut declined = None;
        for key in (0..24).flat_map(|_| near(&mut random, &held)) {
            let mut next = index.clone();
            match next.on(key, held.len() as u64) {
                Ok(()) => {
                    let size = (next.root.pages().len(), next.root.leaves().len());
                    if best.as_ref().is_none_or(|(most, ..)| *most < size) {
                        best = Some((size, key, next));
                    }
                }
                Err(5) => {}
                Err(row) => declined = Some(row),
            }
        }
        if let Some(row) = declined {
            return (held.len(), row);
        }
        if let Some((_, key, next)) = best {
            held.push(key);
            index = next;
        }
    }
}

/// Two keys that part from a held one: in one of the last bits, and at some bit
/// with one-bits or any after it.
fn near(random: &mut Random, held: &[u64]) -> [u64; 2] {
    let near = *random.pick(held);
    let bit = random.below(64);
    let tail = match random.percent(50) {
        true => u64::MAX,
        false => random.number(),
    };
    let below = (1u64 << bit) - 1;
    let far = ((near ^ (1 << bit)) & !below) | (tail & below);
    [near ^ (1 << random.below(3)), far]
}

/// Keys: what they are called, the first and the last of them, and how many of
/// their last bits may be any up to the last key.
type Kind = (&'static str, [u64; 2], usize);

/// Any 64 bits, tags of 15 digits of any country, and those of country 826.
fn kinds() -> [Kind; 3] {
    let highest = (1 << 38) - 1;
    [
        ("any 64 bits", [0, u64::MAX], 64),
        ("15 digits", [tag(0, 0), tag(999, highest)], 48),
        ("country 826", [tag(826, 0), tag(826, highest)], 38),
    ]
}

/// Groups of so many keys, each group with its number in so many bits, then
/// one-bits, then a herd whose longest list has E entries or a few more.
fn groups((_, [first, last], free): &Kind, number_bits: usize, size: usize, e: usize) -> Vec<u64> {
    let bits = free - number_bits;
    let herds = (1..=bits).map(|rest| (rest, Longest::any(rest, size)));
    let mut long = herds.filter(|(_, longest)| longest.most().get(size) >= Some(&e));
    let Some((rest, longest)) = long.next() else {
        return vec![];
    };
    let herd = longest.herd(size, Parting::Even);
    let ones = (1u64 << bits) - (1 << rest);
    let group = |number: u64| herd.iter().map(move |key| (number << bits) | ones | key);
    let keys = (0..1 << number_bits).flat_map(group).map(|key| first | key);
    keys.filter(|key| key <= last).collect()
}

/// Prints the fewest keys of such groups that were held when the first was
/// declined.
pub fn fewest_of_groups() {
    println!("## Groups below a run of one-bits: fewest keys held when the first was declined");
    println!("| E | P | any 64 bits | 15 digits | country 826 |");
    println!("|---:|---:|---:|---:|---:|");
    for (e, p) in SAME_BYTES.into_iter().chain([(60, 250), (120, 125)]) {
        print!("| {e} | {p} |");
        for kind in kinds() {
            let shapes =
                (1..=6).flat_map(|number_bits| (1..=16).map(move |i| (number_bits, 2 * i)));
            let herds = shapes.map(|(number_bits, size)| groups(&kind, number_bits, size, e));
            let fills = herds.map(|keys| fill(e, p, MOST_RECORDS, &keys));
            let declined = fills.filter_map(|(_, held, row)| Some((held, row?)));
            let (held, row) = declined.min().expect("one was declined");
            print!(" {held} ({row}) |");
        }
        println!();
    }
    println!();
}

/// Prints the most pages that some 512 keys of such groups take for each 1,000.
pub fn pages_of_groups() {
    println!("## 512 keys in groups below a run of one-bits, with pages enough: pages for each 1,000 keys");
    println!("| E | any 64 bits | 15 digits | country 826 |");
    println!("|---:|---:|---:|---:|");
    for e in [60, 120, 255] {
        print!("| {e} |");
        for kind in kinds() {
            let herds =
                (4..=8).map(|number_bits| groups(&kind, number_bits, 512 >> number_bits, e));
            let pages = herds.filter(|keys| !keys.is_empty()).map(|keys| {
                let (index, held, _) = fill(e, MOST_RECORDS, MOST_RECORDS, &keys);
                (index.root.pages().len() * 1_000).div_ceil(held)
            });
            print!(" {} |", pages.max().expect("a herd"));
        }
        println!();
    }
    println!();
}
