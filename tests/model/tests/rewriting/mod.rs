//! Soundness decided in another way: keep only the register, the page numbers,
//! the counts and the root's level, write the one sound table that can have
//! them, and see whether it is the table at hand.

use model::bits::fits;
use model::calls::format;
use model::index::Index;
use model::leaf_list::{leaf_list, Entry, Herd};
use model::pages::{Page, Row};
use model::table::{header, read, stored_page, Header, Tables};
use std::collections::BTreeSet;
use std::vec::IntoIter;

/// Whether the tables are their own rewriting.
pub fn is_its_rewriting(tables: &Tables) -> bool {
    rewriting(tables).as_ref() == Some(tables)
}

/// The sound tables with this register and these borders, if there are any.
fn rewriting(tables: &Tables) -> Option<Tables> {
    let mut index = formatted(tables)?;
    let herd = herd(tables, index.width)?;
    for (&key, &record) in &herd {
        index.register[record as usize] = Some(key);
    }
    let header = header(&tables.index);
    let level = stored_page(&tables.index, header.root).level;
    let mut dealer = Dealer {
        tables,
        header,
        leaves: leaf_list(index.width, &herd).into_iter(),
        dealt: BTreeSet::new(),
    };
    index.root = dealer.page(header.root, level)?;
    let all_dealt = dealer.leaves.next().is_none();
    let good_root = level == 0 || level <= 15 && index.root.depths().len() >= 2;
    let good_pages = index.root.pages().into_iter().all(last_is_lowest);
    (all_dealt && good_root && good_pages).then(|| Tables::of(&index))
}

/// The index after a format of tables of these lengths with the header's
/// numbers, if that would be done.
fn formatted(tables: &Tables) -> Option<Index> {
    let mut blank = tables.clone();
    let header = tables.index.get(..16).map(header)?;
    let Header {
        width,
        entries,
        pages,
        root,
        ..
    } = header;
    let Tables { index, keys, used } = &mut blank;
    let answer = format(
        index,
        keys,
        used,
        width as u64,
        entries as u64,
        pages as u64,
    );
    let done = answer.number == 0 && (root as usize) < pages;
    done.then(|| read(blank.lent()))
}

fn herd(tables: &Tables, width: usize) -> Option<Herd> {
    let mut herd = Herd::new();
    for (record, &key) in tables.keys.iter().enumerate() {
        let held = tables.used[record] == 1;
        if held && (!fits(key, width) || herd.insert(key, record as u32).is_some()) {
            return None;
        }
    }
    Some(herd)
}

fn last_is_lowest(page: &Page) -> bool {
    let mut depths = page.depths();
    let last = depths.pop();
    depths
        .into_iter()
        .min()
        .is_none_or(|lowest| last < Some(lowest))
}

/// Deals the leaf list out over the pages that the tables point at.
struct Dealer<'a> {
    tables: &'a Tables,
    header: Header,
    leaves: IntoIter<Entry>,
    dealt: BTreeSet<u32>,
}

impl Dealer<'_> {
    fn page(&mut self, number: u32, level: usize) -> Option<Page> {
        if number as usize >= self.header.pages || level > 15 || !self.dealt.insert(number) {
            return None;
        }
        let stored = stored_page(&self.tables.index, number);
        if stored.count == 0 || stored.count > self.header.entries {
            return None;
        }
        let row = if level == 0 {
            if self.leaves.len() < stored.count {
                return None;
            }
            Row::Leaves(self.leaves.by_ref().take(stored.count).collect())
        } else {
            let children = stored.entries[..stored.count].iter();
            let pages = children.map(|&(_, child)| self.page(child, level - 1));
            Row::Children(pages.collect::<Option<Vec<Page>>>()?)
        };
        Some(Page {
            number: Some(number),
            row,
        })
    }
}
