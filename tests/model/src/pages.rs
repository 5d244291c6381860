//! The pages as a tree: the leaf list with the borders drawn in it.
//!
//! A parent entry has no depth of its own here: "for every parent entry the
//! depth equals the last depth of its child". Nor has a page a level: it
//! stands one above its children.

use crate::leaf_list::Entry;
use crate::search::{figure_6, Change};

/// A page in use.
#[derive(Clone, Debug, PartialEq, Eq, Hash)]
pub struct Page {
    /// The page's number; a page made by the present call has none yet.
    pub number: Option<u32>,
    /// Its entries.
    pub row: Row,
}

/// The entries of a page: leaves on level 0, child pages above it.
#[derive(Clone, Debug, PartialEq, Eq, Hash)]
pub enum Row {
    /// Entries of level 0.
    Leaves(Vec<Entry>),
    /// Entries above level 0.
    Children(Vec<Page>),
}

impl Page {
    /// The page of this number and these entries.
    pub fn new(number: Option<u32>, row: Row) -> Page {
        Page { number, row }
    }

    /// The level of the page, 0 for leaves.
    pub fn level(&self) -> usize {
        match &self.row {
            Row::Leaves(_) => 0,
            Row::Children(children) => 1 + children[0].level(),
        }
    }

    /// The depths of the page's entries.
    pub fn depths(&self) -> Vec<usize> {
        match &self.row {
            Row::Leaves(leaves) => leaves.iter().map(|entry| entry.depth).collect(),
            Row::Children(children) => children.iter().map(Page::last_depth).collect(),
        }
    }

    /// The depth of the page's last entry.
    pub fn last_depth(&self) -> usize {
        match &self.row {
            Row::Leaves(leaves) => leaves[leaves.len() - 1].depth,
            Row::Children(children) => children[children.len() - 1].last_depth(),
        }
    }

    /// This page and all below it, each before its children.
    pub fn pages(&self) -> Vec<&Page> {
        let mut pages = vec![self];
        if let Row::Children(children) = &self.row {
            pages.extend(children.iter().flat_map(Page::pages));
        }
        pages
    }

    /// Level 0, read left to right.
    pub fn leaves(&self) -> Vec<Entry> {
        match &self.row {
            Row::Leaves(leaves) => leaves.clone(),
            Row::Children(children) => children.iter().flat_map(Page::leaves).collect(),
        }
    }

    /// The page of level 0 that holds the leaf at this place, counted from the
    /// first under this page, and all pages above it up to this one.
    pub fn over(&self, place: usize) -> Vec<&Page> {
        let mut pages = match &self.row {
            Row::Leaves(_) => vec![],
            Row::Children(children) => {
                let (at, place) = child_over(children, place);
                children[at].over(place)
            }
        };
        pages.push(self);
        pages
    }

    /// How many leaves stand under the page.
    fn leaf_count(&self) -> usize {
        match &self.row {
            Row::Leaves(leaves) => leaves.len(),
            Row::Children(children) => children.iter().map(Page::leaf_count).sum(),
        }
    }

    /// The walk from this page down to a leaf. The position list goes on in
    /// the child from the place `first` that it has come to in the parent.
    pub fn walk(&self, positions: &[usize], first: usize) -> Entry {
        let (j, k) = figure_6(&self.depths(), positions, first);
        match &self.row {
            Row::Leaves(leaves) => leaves[j],
            Row::Children(children) => children[j].walk(positions, k),
        }
    }

    /// The same pages, their numbers aside.
    pub fn without_numbers(&self) -> Page {
        let row = match &self.row {
            Row::Leaves(leaves) => Row::Leaves(leaves.clone()),
            Row::Children(children) => {
                Row::Children(children.iter().map(Page::without_numbers).collect())
            }
        };
        Page::new(None, row)
    }

    /// Gives each page that has no number the next one.
    pub fn number_new(&mut self, free: &mut impl Iterator<Item = u32>) {
        if self.number.is_none() {
            self.number = free.next();
        }
        if let Row::Children(children) = &mut self.row {
            for child in children {
                child.number_new(free);
            }
        }
    }
}

/// Which of these pages, side by side, holds the leaf at this place, counted
/// from the first under the first page, and the leaf's place counted from the
/// first under that page.
pub fn child_over(children: &[Page], place: usize) -> (usize, usize) {
    let (mut at, mut place) = (0, place);
    while place >= children[at].leaf_count() {
        place -= children[at].leaf_count();
        at += 1;
    }
    (at, place)
}

/// What a row is that is cut.
#[derive(Clone, Copy, Debug, PartialEq, Eq, PartialOrd, Ord)]
pub enum Cutting {
    /// A page with its new entries.
    Page,
    /// A part of a cut row, which is cut again.
    Part,
    /// The row of a new root.
    NewRoot,
}

/// A cut of one row in two.
#[derive(Clone, Debug, PartialEq, Eq)]
pub struct Cut {
    /// What the row is.
    pub of: Cutting,
    /// Its depths.
    pub depths: Vec<usize>,
    /// How many entries the left part gets.
    pub place: usize,
}

/// The tree under `root` after a change of its leaf list, where a page may
/// hold `most` entries. The root rule of a deletion is left to [`lowered`].
pub fn changed(root: Page, change: &Change, most: usize) -> Page {
    changed_seeing(root, change, most, &mut |_| {})
}

/// The same tree; `see` is shown every cut, in the order in which they are made.
pub fn changed_seeing(root: Page, change: &Change, most: usize, see: &mut dyn FnMut(Cut)) -> Page {
    let mut tops = parts(root, change, &mut 0, most, see);
    while tops.len() > 1 {
        // "Above a cut root comes a new root, itself cut while too long."
        let root = Page::new(None, Row::Children(tops));
        tops = cut(root, most, Cutting::NewRoot, see);
    }
    tops.pop().expect("the leaf list is never empty")
}

/// What becomes of a page: none if it is emptied, several if it is cut. `next`
/// is the place in the leaf list of the next leaf to come.
fn parts(
    page: Page,
    change: &Change,
    next: &mut usize,
    most: usize,
    see: &mut dyn FnMut(Cut),
) -> Vec<Page> {
    let mut leaf = |entry: Entry| {
        *next += 1;
        change.get(&(*next - 1)).cloned().unwrap_or(vec![entry])
    };
    let row = match page.row {
        Row::Leaves(leaves) => Row::Leaves(leaves.into_iter().flat_map(&mut leaf).collect()),
        Row::Children(children) => {
            let parts = |child| parts(child, change, next, most, see);
            Row::Children(children.into_iter().flat_map(parts).collect())
        }
    };
    cut(Page::new(page.number, row), most, Cutting::Page, see)
}

/// The pages that a page is cut into; the first keeps its number.
fn cut(page: Page, most: usize, of: Cutting, see: &mut dyn FnMut(Cut)) -> Vec<Page> {
    let rows: Vec<Row> = match page.row {
        Row::Leaves(row) => {
            let rows = cut_row(row, |entry| entry.depth, most, of, see).into_iter();
            rows.map(Row::Leaves).collect()
        }
        Row::Children(row) => {
            let rows = cut_row(row, Page::last_depth, most, of, see).into_iter();
            rows.map(Row::Children).collect()
        }
    };
    let numbers = std::iter::once(page.number).chain(std::iter::repeat(None));
    let pages = numbers.zip(rows);
    pages.map(|(number, row)| Page::new(number, row)).collect()
}

/// "A page with more than E entries is cut after its shallowest entry, the
/// last left out of the choice; the left part first, then the right, are cut
/// again while too long." An emptied row leaves no part.
fn cut_row<T>(
    mut row: Vec<T>,
    depth: fn(&T) -> usize,
    most: usize,
    of: Cutting,
    see: &mut dyn FnMut(Cut),
) -> Vec<Vec<T>> {
    if row.is_empty() {
        return vec![];
    }
    if row.len() <= most {
        return vec![row];
    }
    let choice = 0..row.len() - 1;
    let shallowest = choice
        .min_by_key(|&i| depth(&row[i]))
        .expect("E is at least 2");
    see(Cut {
        of,
        depths: row.iter().map(depth).collect(),
        place: shallowest + 1,
    });
    let right = row.split_off(shallowest + 1);
    let mut parts = cut_row(row, depth, most, Cutting::Part, see);
    parts.extend(cut_row(right, depth, most, Cutting::Part, see));
    parts
}

/// The root rule: "while the root is above level 0 with one entry, its child
/// becomes root and the old root is freed."
pub fn lowered(root: Page) -> Page {
    match root.row {
        Row::Children(mut children) if children.len() == 1 => lowered(children.remove(0)),
        row => Page::new(root.number, row),
    }
}
