//! Sound tables that no history makes.
//!
//! Soundness does not ask how pages arose: any borders that keep the last
//! depth of each page below all others will do, pages of one entry too.

use super::keys::{herd, SPREADS};
use super::Random;
use crate::index::{Index, HIGHEST_ROOT_LEVEL};
use crate::leaf_list::{leaf_list, Entry, Herd};
use crate::pages::{Page, Row};

/// Which borders may be drawn between pages.
#[derive(Clone, Copy, Debug, PartialEq, Eq)]
pub enum Borders {
    /// Those that keep the last depth of each page below all others.
    Sound,
    /// Any.
    Any,
}

/// E to pick from. From 5 on a page of one entry has fewer than a quarter.
pub const ENTRIES: [usize; 16] = [2, 2, 2, 3, 4, 5, 5, 6, 7, 8, 9, 9, 10, 11, 12, 20];

/// A sound index of any width with random borders, page numbers and E, and a
/// few records.
pub fn any_sound_index(random: &mut Random, entries: &[usize]) -> Index {
    let width = random.between(1, 64);
    let entries = *random.pick(entries);
    let records = random.between(1, 24);
    sound_index(random, width, entries, records)
}

/// A sound index with random borders and page numbers.
pub fn sound_index(
    random: &mut Random,
    width: usize,
    most_entries: usize,
    records: usize,
) -> Index {
    let spread = *random.pick(&SPREADS);
    let mut size = random.below(records + 1);
    loop {
        let herd = herd(random, width, spread, size, records);
        let leaves = leaf_list(width, &herd);
        if let Some(mut root) = tree(random, leaves, most_entries, Borders::Sound) {
            let spare = *random.pick(&[0, 1, 2, 60]);
            let most_pages = root.pages().len() + spare;
            number_pages(random, &mut root, most_pages);
            let register = register(&herd, records);
            return Index {
                width,
                most_entries,
                most_pages,
                root,
                register,
            };
        }
        // The tree rose above level 15. One entry alone never does.
        size /= 2;
    }
}

fn register(herd: &Herd, records: usize) -> Vec<Option<u64>> {
    let mut register = vec![None; records];
    for (&key, &record) in herd {
        register[record as usize] = Some(key);
    }
    register
}

/// Pages over the leaf list, or nothing if the root would stand too high.
pub fn tree(
    random: &mut Random,
    leaves: Vec<Entry>,
    most: usize,
    borders: Borders,
) -> Option<Page> {
    let rows = draw(random, leaves, |entry| entry.depth, most, borders);
    let mut pages: Vec<Page> = rows
        .into_iter()
        .map(|row| Page::new(None, Row::Leaves(row)))
        .collect();
    let mut level = 0;
    while pages.len() > 1 {
        level += 1;
        if level > HIGHEST_ROOT_LEVEL {
            return None;
        }
        let rows = draw(random, pages, Page::last_depth, most, borders);
        pages = rows
            .into_iter()
            .map(|row| Page::new(None, Row::Children(row)))
            .collect();
    }
    pages.pop()
}

/// Parts the row into pages of 1 to `most` entries.
fn draw<T>(
    random: &mut Random,
    row: Vec<T>,
    depth: fn(&T) -> usize,
    most: usize,
    borders: Borders,
) -> Vec<Vec<T>> {
    let mut rest = row;
    let mut parts = Vec::new();
    while !rest.is_empty() {
        let depths: Vec<usize> = rest.iter().take(most).map(depth).collect();
        let below = |end: usize| depths[..end].iter().all(|&before| depths[end] < before);
        let may_end = |&end: &usize| borders == Borders::Any || below(end);
        let ends: Vec<usize> = (0..depths.len()).filter(may_end).collect();
        let longest = ends[ends.len() - 1];
        let end = if random.percent(40) {
            longest
        } else {
            *random.pick(&ends)
        };
        let after = rest.split_off(end + 1);
        parts.push(std::mem::replace(&mut rest, after));
    }
    parts
}

/// Gives the pages random numbers below P.
pub fn number_pages(random: &mut Random, root: &mut Page, most_pages: usize) {
    let mut numbers: Vec<u32> = (0..most_pages as u32).collect();
    random.shuffle(&mut numbers);
    root.number_new(&mut numbers.into_iter());
}
