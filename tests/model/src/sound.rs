//! Soundness of the tables, each rule tested on its own.
//!
//! Every function here answers on any bytes of any length. A broken rule is
//! named by its sentence in the specification.

use crate::bits::fits;
use crate::index::HIGHEST_ROOT_LEVEL;
use crate::leaf_list::{leaf_list, Entry, Herd};
use crate::table::{
    header, held_end, leaf, page_bytes, stored_page, Header, Lent, StoredPage, HEADER_BYTES, LAYOUT,
};
use std::collections::{BTreeMap, BTreeSet};

/// Whether a rule holds; if not, its sentence.
type Rule = Result<(), &'static str>;

/// A page that the walk reached, with its number.
type Reached = (u32, StoredPage);

/// Whether the tables are sound; if not, the first broken rule.
pub fn sound(lent: Lent) -> Rule {
    header_rule(lent.index)?;
    register_rule(lent)?;
    let header = header(lent.index);
    held_rule(&header, lent)?;
    let pages = reached(lent.index, &header)?;
    pages.iter().try_for_each(|(_, page)| page_rule(page))?;
    root_rule(&pages[0].1)?;
    parent_rule(&pages)?;
    free_rule(lent.index, &header, &pages)?;
    leaf_list_rule(lent, &header, &pages)
}

fn require(holds: bool, rule: &'static str) -> Rule {
    if holds {
        Ok(())
    } else {
        Err(rule)
    }
}

fn header_rule(index: &[u8]) -> Rule {
    require(index.len() >= HEADER_BYTES, "a 16-byte header")?;
    let header = header(index);
    require((1..=64).contains(&header.width), "W from 1 to 64")?;
    require((2..=255).contains(&header.entries), "E is at least 2")?;
    require((1..=65_534).contains(&header.pages), "P from 1 to 65,534")?;
    require(
        (header.root as usize) < header.pages,
        "pages are numbered from 0",
    )?;
    let rest = &index[held_end()..HEADER_BYTES];
    require(rest.iter().all(|&byte| byte == 0), "the rest zero")?;
    let length = LAYOUT.index_bytes(header.entries, header.pages);
    require(index.len() == length, "then P pages of 2 + 3E bytes")
}

fn register_rule(lent: Lent) -> Rule {
    let width = header(lent.index).width;
    let length = lent.keys.len();
    require(lent.used.len() == length, "an equally long slice of bytes")?;
    require(
        (1..=LAYOUT.most_records()).contains(&length),
        "the register at least one record",
    )?;
    for (&key, &used) in lent.keys.iter().zip(lent.used) {
        require(used <= 1, "1 in use, 0 free")?;
        require(used == 1 || key == 0, "free (key 0)")?;
        require(fits(key, width), "none a key of more than W bits")?;
    }
    let mut keys = used_keys(lent);
    keys.sort_unstable();
    let distinct = keys.windows(2).all(|pair| pair[0] != pair[1]);
    require(distinct, "no two records in use have one key")
}

fn held_rule(header: &Header, lent: Lent) -> Rule {
    require(header.held == used_keys(lent).len(), "records held")
}

fn used_keys(lent: Lent) -> Vec<u64> {
    let records = lent.keys.iter().zip(lent.used);
    records
        .filter(|(_, &used)| used == 1)
        .map(|(&key, _)| key)
        .collect()
}

/// The pages that a walk reaches, each before its children. "A walk goes from
/// the root down, one level lower at each step"; a page met twice ends it.
fn reached(index: &[u8], header: &Header) -> Result<Vec<Reached>, &'static str> {
    let mut numbers = BTreeSet::new();
    let mut pages = Vec::new();
    let level = stored_page(index, header.root).level;
    require(
        level <= HIGHEST_ROOT_LEVEL,
        "the root's level is at most 15",
    )?;
    let mut to_reach = vec![(header.root, level)];
    while let Some((number, level)) = to_reach.pop() {
        require(
            (number as usize) < header.pages,
            "a pointer means a page above level 0",
        )?;
        let page = stored_page(index, number);
        require(page.level == level, "a sound page one level lower")?;
        require((1..=header.entries).contains(&page.count), "1 to E entries")?;
        require(numbers.insert(number), "pointed at by exactly one entry")?;
        if level > 0 {
            let children = page.entries[..page.count].iter().rev();
            to_reach.extend(children.map(|&(_, child)| (child, level - 1)));
        }
        pages.push((number, page));
    }
    Ok(pages)
}

fn page_rule(page: &StoredPage) -> Rule {
    let (used, unused) = page.entries.split_at(page.count);
    let (last, others) = used.split_last().expect("a page in use has an entry");
    let below = others.iter().all(|other| last.0 < other.0);
    require(below, "the last depth is below all others")?;
    require(
        unused.iter().all(|&entry| entry == (0, 0)),
        "unused entries are all zero",
    )
}

fn root_rule(root: &StoredPage) -> Rule {
    let enough = root.level == 0 || root.count >= 2;
    require(enough, "a root above level 0 has at least two entries")
}

fn parent_rule(pages: &[Reached]) -> Rule {
    let last_depth = |(number, page): &Reached| (*number, page.entries[page.count - 1].0);
    let last_depths: BTreeMap<u32, usize> = pages.iter().map(last_depth).collect();
    let parents = pages.iter().filter(|(_, page)| page.level > 0);
    let mut entries = parents.flat_map(|(_, page)| &page.entries[..page.count]);
    let equal = entries.all(|(depth, child)| last_depths[child] == *depth);
    require(equal, "the depth equals the last depth of its child")
}

fn free_rule(index: &[u8], header: &Header, pages: &[Reached]) -> Rule {
    let mut reached = vec![false; header.pages];
    for (number, _) in pages {
        reached[*number as usize] = true;
    }
    let mut unreached = (0..header.pages).filter(|&number| !reached[number]);
    let zero = |number| {
        page_bytes(index, number as u32)
            .iter()
            .all(|&byte| byte == 0)
    };
    require(unreached.all(zero), "unreached pages are free")
}

fn leaf_list_rule(lent: Lent, header: &Header, pages: &[Reached]) -> Rule {
    let records = (0..).zip(lent.keys.iter().zip(lent.used));
    let in_use = records.filter(|(_, (_, &used))| used == 1);
    let herd: Herd = in_use.map(|(record, (&key, _))| (key, record)).collect();
    let level_0 = pages.iter().filter(|(_, page)| page.level == 0);
    let stored = level_0.flat_map(|(_, page)| &page.entries[..page.count]);
    let leaves: Vec<Entry> = stored
        .map(|&(depth, pointer)| leaf(depth, pointer))
        .collect();
    let equal = leaves == leaf_list(header.width, &herd);
    require(equal, "on level 0 stands the leaf list of the register")
}
