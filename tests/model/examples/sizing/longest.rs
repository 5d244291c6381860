//! Herds with the longest lists: their entries, the pages that they take, and how
//! few of their tags use up the pages.

use crate::{fill, Shuffled, MOST_RECORDS};
use model::bounds::most_entries;
use model::longest::{Longest, Parting};
use model::random::Random;
use std::rc::Rc;

/// Tags of the largest herd.
const MOST_TAGS: usize = 4_096;

/// Tags of the herds that are put in until an on is declined.
const SIZES: [usize; 9] = [320, 384, 448, 512, 576, 640, 704, 768, 832];

/// The keys of a herd: what they are called, and their longest lists.
pub type Kind = (&'static str, Rc<Longest>);

/// Any 64 bits, tags of 15 digits of any country, and those of country 826.
pub fn kinds() -> [Kind; 3] {
    [
        ("any 64 bits", Longest::any(64, MOST_TAGS)),
        ("15 digits", Longest::tags(MOST_TAGS)),
        ("country 826", Longest::tags_of(826, MOST_TAGS)),
    ]
}

/// Prints, for herds of so many tags, the bound that holds for every herd and the
/// most that is computed for each kind.
pub fn longest_lists(kinds: &[Kind]) {
    println!("## W 64: the most leaf entries");
    print!("| tags | bound | a tag |");
    for (name, _) in kinds {
        print!(" {name} | a tag |");
    }
    println!("\n|---:|---:|---:|{}", "---:|---:|".repeat(kinds.len()));
    for tags in [1, 2, 3, 4, 10, 100, 1_000, MOST_TAGS] {
        print!("| {tags} |");
        let most = kinds.iter().map(|(_, longest)| longest.most()[tags]);
        for entries in [most_entries(64, tags)].into_iter().chain(most) {
            print!(" {entries} | {:.2} |", entries as f64 / tags as f64);
        }
        println!();
    }
    println!();
}

/// The herds of so many tags with the longest list: those that part unevenly, and
/// those that part evenly if they are others.
fn herds(longest: &Longest, tags: usize) -> Vec<Vec<u64>> {
    let partings = [Parting::FewZeros, Parting::Even];
    let mut herds = partings.map(|parting| longest.herd(tags, parting)).to_vec();
    herds.dedup();
    herds
}

/// Orders in which the tags of a herd come, and what they are called.
fn orders(keys: &[u64]) -> [(&'static str, Vec<u64>); 3] {
    let random = |seed| keys.to_vec().shuffled(&mut Random::new(seed));
    [
        ("in key order", keys.to_vec()),
        ("in random order", random(0)),
        ("in random order", random(1)),
    ]
}

/// The same orders, and the reverse of key order.
fn more_orders(keys: &[u64]) -> Vec<(&'static str, Vec<u64>)> {
    let backwards = keys.iter().rev().copied().collect();
    let mut orders = orders(keys).to_vec();
    orders.push(("in reverse key order", backwards));
    orders
}

/// The fewest and the most pages that the herd takes, by the order of its tags.
fn pages(e: usize, keys: &[u64]) -> (usize, usize) {
    let pages = orders(keys).map(|(_, keys)| {
        let (index, _, row) = fill(e, MOST_RECORDS, MOST_RECORDS, &keys);
        assert_eq!(row, None, "pages enough");
        index.root.pages().len()
    });
    let [fewest, most] =
        [pages.iter().min(), pages.iter().max()].map(|pages| *pages.expect("an order"));
    (fewest, most)
}

/// Prints the most pages that herds with the longest list take with pages enough,
/// and the most by which the order of the tags alone changes them.
pub fn pages_of_longest(kinds: &[Kind]) {
    println!("## Herds with the longest lists: most pages in use, and for each 1,000 tags");
    print!("| keys | tags | entries |");
    let lengths = [60, 120, 255];
    for e in lengths {
        print!(" E {e} | for each 1,000 |");
    }
    println!("\n|---|---:|---:|{}", "---:|---:|".repeat(lengths.len()));
    let mut by_order = 0;
    for (name, longest) in kinds {
        for tags in [64, 96, 256, 384, 512, 768, 1_000] {
            print!("| {name} | {tags} | {} |", longest.most()[tags]);
            for e in lengths {
                let herds = herds(longest, tags).into_iter();
                let pages: Vec<(usize, usize)> = herds.map(|keys| pages(e, &keys)).collect();
                let most = pages.iter().map(|pages| pages.1).max().expect("a herd");
                print!(" {most} | {} |", (most * 1_000).div_ceil(tags));
                let differ = pages.iter().map(|(fewest, most)| most - fewest).max();
                by_order = by_order.max(differ.expect("a herd"));
            }
            println!();
        }
    }
    println!("The most by which the order of a herd's tags changes its pages: {by_order}\n");
}

/// An on that was declined: tags held then, tags of the whole herd, their order
/// and the row.
type Declined = (usize, usize, &'static str, u32);

/// The first on that was declined of each herd with the longest list and each
/// order of its tags, where one was.
fn declined(longest: &Longest, (e, p): (usize, usize)) -> Vec<Declined> {
    let mut declined = Vec::new();
    for tags in SIZES {
        let herds = herds(longest, tags);
        for (order, keys) in herds.iter().flat_map(|keys| more_orders(keys)) {
            if let (_, held, Some(row)) = fill(e, p, MOST_TAGS, &keys) {
                declined.push((held, tags, order, row));
            }
        }
    }
    declined
}

/// Prints the fewest tags held when an on was first declined, and the largest of
/// the herds of which none was.
pub fn fewest_of_longest(kinds: &[Kind]) {
    println!("## W 64, 4,096 records, herds with the longest lists: fewest tags held when an on was first declined");
    println!("| keys | E | P | tags held | row | of a herd of | that comes | held whole up to |");
    println!("|---|---:|---:|---:|---:|---:|---|---:|");
    for (e, p) in [(60, 250), (120, 125)] {
        for (name, longest) in kinds {
            let declined = declined(longest, (e, p));
            let (held, tags, order, row) = declined.iter().min().expect("one was declined");
            let all_held = |size: &&usize| declined.iter().all(|(_, tags, ..)| tags > *size);
            let whole = SIZES.iter().filter(all_held).max().expect("a small herd");
            println!("| {name} | {e} | {p} | {held} | {row} | {tags} | {order} | {whole} |");
        }
    }
    println!();
}
