//! The index in memory, and the calls on it from row 2 on.

use crate::bits::fits;
use crate::leaf_list::{Entry, Herd};
use crate::merging::merged;
use crate::pages::{changed, changed_seeing, lowered, Cut, Page, Row};
use crate::search::{deletion, insertion, position_list, search};

/// "15 as the highest root level."
pub const HIGHEST_ROOT_LEVEL: usize = 15;

/// An index and its register.
#[derive(Clone, Debug, PartialEq, Eq)]
pub struct Index {
    /// W, the bits of a key.
    pub width: usize,
    /// E, the entries a page may hold.
    pub most_entries: usize,
    /// P, the pages there are.
    pub most_pages: usize,
    /// The root page.
    pub root: Page,
    /// The key of each record in use.
    pub register: Vec<Option<u64>>,
}

/// Whether rows 8 and 7 apply to an on that rows 1 to 5 let pass.
#[derive(Clone, Copy, Debug, PartialEq, Eq)]
pub struct Room {
    /// The root would stand above level 15.
    pub row_8: bool,
    /// More than P pages would be in use.
    pub row_7: bool,
}

impl Index {
    /// The empty herd, "in page 0 as root on level 0".
    pub fn empty(width: usize, most_entries: usize, most_pages: usize, records: usize) -> Index {
        let empty = Entry::new(0, None);
        Index {
            width,
            most_entries,
            most_pages,
            root: Page::new(Some(0), Row::Leaves(vec![empty])),
            register: vec![None; records],
        }
    }

    /// The keys held, each with its record.
    pub fn herd(&self) -> Herd {
        let records = (0..).zip(&self.register);
        records
            .filter_map(|(record, key)| Some(((*key)?, record)))
            .collect()
    }

    /// Puts the key on the record, or gives the row that declines it.
    pub fn on(&mut self, key: u64, record: u64) -> Result<(), u32> {
        let root = self.root_after_on(key, record)?;
        let room = self.room_for(&root);
        if room.row_8 {
            return Err(8);
        }
        if room.row_7 {
            return Err(7);
        }
        self.root = root;
        self.number_new_pages();
        self.register[record as usize] = Some(key);
        Ok(())
    }

    /// Whether rows 8 and 7 apply to an on, or the row from 2 to 5 before them.
    pub fn room(&self, key: u64, record: u64) -> Result<Room, u32> {
        let root = self.root_after_on(key, record)?;
        Ok(self.room_for(&root))
    }

    fn room_for(&self, root: &Page) -> Room {
        Room {
            row_8: root.level() > HIGHEST_ROOT_LEVEL,
            row_7: root.pages().len() > self.most_pages,
        }
    }

    /// The cuts of an on, in the order in which they are made, or the row from 2
    /// to 5 that declines it.
    pub fn cuts(&self, key: u64, record: u64) -> Result<Vec<Cut>, u32> {
        let mut cuts = Vec::new();
        self.root_seeing(key, record, &mut |cut| cuts.push(cut))?;
        Ok(cuts)
    }

    /// The tree that an on would leave, or the row from 2 to 5 that declines.
    fn root_after_on(&self, key: u64, record: u64) -> Result<Page, u32> {
        self.root_seeing(key, record, &mut |_| {})
    }

    /// The same; `see` is shown every cut.
    fn root_seeing(&self, key: u64, record: u64, see: &mut dyn FnMut(Cut)) -> Result<Page, u32> {
        if !fits(key, self.width) {
            return Err(2);
        }
        if record >= self.register.len() as u64 {
            return Err(3);
        }
        if self.register[record as usize].is_some() {
            return Err(4);
        }
        if self.find(key).is_ok() {
            return Err(5);
        }
        let leaves = self.root.leaves();
        let change = insertion(&leaves, self.width, |old| self.key(old), key, record as u32);
        let root = self.root.clone();
        Ok(changed_seeing(root, &change, self.most_entries, see))
    }

    /// Takes the key off, or gives the row that declines it. First its entries
    /// are taken out, then pages are merged; "the root rule of 01 comes last".
    pub fn off(&mut self, key: u64) -> Result<(), u32> {
        let record = self.find(key)?;
        let left = merged(self.taken_out(key), key, self.width, self.most_entries);
        self.root = lowered(left);
        self.register[record as usize] = None;
        Ok(())
    }

    /// The tree that an off of a held key leaves before pages are merged.
    pub fn taken_out(&self, key: u64) -> Page {
        let leaves = self.root.leaves();
        let change = deletion(&leaves, search(&leaves, key, self.width));
        changed(self.root.clone(), &change, self.most_entries)
    }

    /// The record of the key, or the row that declines it. "Only a live leaf
    /// yields a record, and its key is then compared whole."
    pub fn find(&self, key: u64) -> Result<u32, u32> {
        if !fits(key, self.width) {
            return Err(2);
        }
        let leaf = self.root.walk(&position_list(key, self.width), 0);
        leaf.record
            .filter(|&record| self.key(record) == key)
            .ok_or(6)
    }

    /// The records of all keys from a to b in key order, or the row that
    /// declines the list.
    pub fn list(&self, a: u64, b: u64) -> Result<Vec<u32>, u32> {
        if !fits(a, self.width) || !fits(b, self.width) {
            return Err(2);
        }
        let records = self
            .root
            .leaves()
            .into_iter()
            .filter_map(|leaf| leaf.record);
        Ok(records
            .filter(|&record| a <= self.key(record) && self.key(record) <= b)
            .collect())
    }

    /// The key of a record that the leaf list points at.
    fn key(&self, record: u32) -> u64 {
        self.register[record as usize].expect("a live leaf's record is in use")
    }

    /// Takes the lowest free pages for those the present call has made.
    fn number_new_pages(&mut self) {
        let used: Vec<Option<u32>> = self.root.pages().iter().map(|page| page.number).collect();
        let mut free = (0..self.most_pages as u32).filter(|&number| !used.contains(&Some(number)));
        self.root.number_new(&mut free);
    }
}
