//! Two libraries that are compared, this one and an earlier one, both without their
//! check, and the tables that they work on.

use crate::library::{before, check, unchecked, Answer};
use crate::rounds::time;
use model::random::Random;
use model::table::Tables;
use std::hint::black_box;

/// A key and its record.
pub type Tag = (u64, u32);

/// One of the two libraries.
#[derive(Clone, Copy)]
pub enum Library {
    Before,
    Now,
}

/// Both, the earlier one first.
pub const LIBRARIES: [Library; 2] = [Library::Before, Library::Now];

impl Library {
    /// On.
    pub fn on(self, tables: &mut Tables, (key, record): Tag) -> Answer {
        let tables = black_box(tables);
        match self {
            Library::Before => before::on(tables, key, record),
            Library::Now => unchecked::on(tables, key, record),
        }
    }
}

/// A library and the tables that are its own for now.
pub struct Side {
    library: Library,
    pub tables: Tables,
    /// Whether a change was declined since the tables were those of the start.
    pub declined: bool,
}

impl Side {
    pub fn find(&self, key: u64) -> Answer {
        let tables = black_box(&self.tables);
        match self.library {
            Library::Before => before::find(tables, key),
            Library::Now => unchecked::find(tables, key),
        }
    }

    /// List from a key to the largest.
    pub fn list(&self, key: u64, out: &mut [u32]) -> Answer {
        let tables = black_box(&self.tables);
        match self.library {
            Library::Before => before::list(tables, key, u64::MAX, out),
            Library::Now => unchecked::list(tables, key, u64::MAX, out),
        }
    }

    fn on(&mut self, tag: Tag) {
        let answer = self.library.on(&mut self.tables, tag);
        self.declined |= answer.number != 0;
    }

    fn off(&mut self, (key, _): Tag) {
        let tables = black_box(&mut self.tables);
        let answer = match self.library {
            Library::Before => before::off(tables, key),
            Library::Now => unchecked::off(tables, key),
        };
        self.declined |= answer.number != 0;
    }

    /// Nanoseconds of one of these ons.
    pub fn put_on(&mut self, tags: &[Tag]) -> f64 {
        time(0, tags.len(), |number| self.on(black_box(tags[number])))
    }

    /// Nanoseconds of one of these offs.
    pub fn take_off(&mut self, tags: &[Tag]) -> f64 {
        time(0, tags.len(), |number| self.off(black_box(tags[number])))
    }

    /// The tables are those of the start again.
    pub fn restore(&mut self, start: &Tables) {
        self.tables.index.copy_from_slice(&start.index);
        self.tables.keys.copy_from_slice(&start.keys);
        self.tables.used.copy_from_slice(&start.used);
        self.declined = false;
    }
}

/// Both libraries, the earlier one first, on equal tables.
pub fn sides(tables: &Tables) -> [Side; 2] {
    assert!(check(tables), "the tables are sound");
    LIBRARIES.map(|library| Side {
        library,
        tables: tables.clone(),
        declined: false,
    })
}

/// Gives each library the tables of the other, so that it makes no difference where
/// they stand.
pub fn exchange([one, other]: &mut [Side; 2]) {
    std::mem::swap(&mut one.tables, &mut other.tables);
}

/// The places of the two libraries, in random order.
pub fn order(random: &mut Random) -> [usize; 2] {
    let mut places = [0, 1];
    random.shuffle(&mut places);
    places
}
