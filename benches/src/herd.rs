//! A herd of ear tags and its sound tables, made at once: putting so many keys
//! on one by one would take the model too long.

use model::index::Index;
use model::leaf_list::Entry;
use model::pages::{changed, Page, Row};
use model::random::tags::{lots, tag};
use model::random::Random;
use model::search::Change;
use model::table::{read, Tables, LAYOUT};
use std::collections::BTreeSet;

/// W: the whole tag code.
pub const WIDTH: usize = 64;

const COUNTRIES: [u64; 5] = [56, 250, 276, 528, 826];

/// How the tags of a herd lie.
#[derive(Clone, Copy)]
pub enum Tags {
    /// Random national numbers of a few countries.
    Scattered,
    /// Runs of national numbers, lot after lot of holdings of one country.
    Lots,
}

impl Tags {
    /// What is said of them.
    pub fn name(self) -> &'static str {
        match self {
            Tags::Scattered => "Scattered tags: random national numbers of five countries",
            Tags::Lots => "Lots of holdings: runs of national numbers, as docs/SIZING.md tells",
        }
    }
}

/// A herd to be measured.
#[derive(Clone, Copy)]
pub struct Herd {
    pub tags: Tags,
    /// E.
    pub entries: usize,
    /// How many records are held.
    pub records: usize,
}

impl Herd {
    /// So many different tags, in the order in which they come.
    pub fn tags(self, random: &mut Random, count: usize) -> Vec<u64> {
        match self.tags {
            Tags::Scattered => scattered(random, count),
            Tags::Lots => {
                let mut tags = lots(random, count);
                tags.truncate(count);
                tags
            }
        }
    }

    /// Sound tables where key i of the slice is on record i and `free` records
    /// more are free, with a quarter more pages than are in use.
    pub fn tables(self, keys: &[u64], free: usize) -> Tables {
        self.tables_with(keys, free, 0)
    }

    /// The same, with at least so many free pages.
    pub fn tables_with(self, keys: &[u64], free: usize, free_pages: usize) -> Tables {
        let mut herd: Vec<(u64, u32)> = keys.iter().copied().zip(0..).collect();
        herd.sort_unstable();
        let mut leaves = Vec::new();
        add_leaves(&herd, 1, 0, &mut leaves);
        let row = Page::new(None, Row::Leaves(leaves));
        let mut root = changed(row, &Change::new(), self.entries);
        root.number_new(&mut (0..));
        let mut register: Vec<Option<u64>> = keys.iter().copied().map(Some).collect();
        register.resize(keys.len() + free, None);
        let pages = root.pages().len();
        let index = Index {
            width: WIDTH,
            most_entries: self.entries,
            most_pages: (pages * 5 / 4 + 1).max(pages + free_pages),
            root,
            register,
        };
        Tables::of(&index)
    }
}

fn scattered(random: &mut Random, count: usize) -> Vec<u64> {
    let mut tags = Vec::with_capacity(count);
    let mut seen = BTreeSet::new();
    while tags.len() < count {
        let country = *random.pick(&COUNTRIES);
        let tag = tag(country, random.number() % (1 << 38));
        if seen.insert(tag) {
            tags.push(tag);
        }
    }
    tags
}

/// What a herd takes.
pub struct Size {
    /// Records of the register.
    pub records: usize,
    /// E.
    pub most_entries: usize,
    /// P.
    pub most_pages: usize,
    /// Entries of level 0, dummies too.
    pub leaves: usize,
    /// Pages in use.
    pub pages: usize,
    /// The root's level.
    pub level: usize,
}

impl Size {
    /// The size of sound tables.
    pub fn of(tables: &Tables) -> Size {
        let index = read(tables.lent());
        Size {
            records: index.register.len(),
            most_entries: index.most_entries,
            most_pages: index.most_pages,
            leaves: index.root.leaves().len(),
            pages: index.root.pages().len(),
            level: index.root.level(),
        }
    }

    /// Bytes of the pages in use.
    pub fn page_bytes(&self) -> usize {
        self.pages * LAYOUT.page_bytes(self.most_entries)
    }

    /// Bytes of the index table.
    pub fn index_bytes(&self) -> usize {
        LAYOUT.index_bytes(self.most_entries, self.most_pages)
    }

    /// Bytes of the three tables.
    pub fn bytes(&self) -> usize {
        self.index_bytes() + 9 * self.records
    }
}

/// The leaves of sorted keys that are alike before this bit; the last leaf gets
/// the depth `close`.
fn add_leaves(herd: &[(u64, u32)], bit: usize, close: usize, leaves: &mut Vec<Entry>) {
    if herd.len() <= 1 {
        let record = herd.first().map(|&(_, record)| record);
        leaves.push(Entry::new(close, record));
        return;
    }
    let is_zero = |&(key, _): &(u64, u32)| key >> (WIDTH - bit) & 1 == 0;
    let (zeros, ones) = herd.split_at(herd.partition_point(is_zero));
    if ones.is_empty() {
        add_leaves(zeros, bit + 1, close, leaves);
    } else {
        add_leaves(zeros, bit + 1, bit, leaves);
        add_leaves(ones, bit + 1, close, leaves);
    }
}
