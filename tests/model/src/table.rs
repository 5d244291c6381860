//! The lent tables: an index table of bytes and a register.

use crate::index::Index;
use crate::leaf_list::Entry;
use crate::pages::{Page, Row};

/// "A 16-byte header, then P pages."
pub const HEADER_BYTES: usize = 16;

/// How pages and pointers are laid out in bytes.
#[derive(Clone, Copy, Debug)]
pub struct Layout {
    /// Bytes of a pointer and of the records held.
    pub pointer_bytes: usize,
    /// Bytes of a page before its entries: level and count.
    pub head_bytes: usize,
}

/// "Level, count, then entries of depth byte and two pointer bytes."
pub const LAYOUT: Layout = Layout {
    pointer_bytes: 2,
    head_bytes: 2,
};

impl Layout {
    /// The pointer that points at nothing.
    pub fn nil(self) -> u32 {
        256u32.pow(self.pointer_bytes as u32) - 1
    }

    /// The most records a register may have.
    pub fn most_records(self) -> usize {
        self.nil() as usize - 1
    }

    /// Bytes of an entry: its depth and its pointer.
    pub fn entry_bytes(self) -> usize {
        1 + self.pointer_bytes
    }

    /// Bytes of a page that may hold `entries`.
    pub fn page_bytes(self, entries: usize) -> usize {
        self.head_bytes + self.entry_bytes() * entries
    }

    /// Bytes of an index table.
    pub fn index_bytes(self, entries: usize, pages: usize) -> usize {
        HEADER_BYTES + pages * self.page_bytes(entries)
    }
}

/// The lent tables, owned.
#[derive(Clone, Debug, PartialEq, Eq)]
pub struct Tables {
    /// The index table.
    pub index: Vec<u8>,
    /// The register's keys.
    pub keys: Vec<u64>,
    /// The register's bytes, 1 in use, 0 free.
    pub used: Vec<u8>,
}

impl Tables {
    /// Tables for pages of E entries, P pages and so many records, all zero.
    pub fn zero(entries: usize, pages: usize, records: usize) -> Tables {
        Tables {
            index: vec![0; LAYOUT.index_bytes(entries, pages)],
            keys: vec![0; records],
            used: vec![0; records],
        }
    }

    /// The tables that hold this index.
    pub fn of(index: &Index) -> Tables {
        let records = index.register.len();
        let mut tables = Tables::zero(index.most_entries, index.most_pages, records);
        write(index, &mut tables.index, &mut tables.keys, &mut tables.used);
        tables
    }

    /// The tables as lent for reading.
    pub fn lent(&self) -> Lent<'_> {
        Lent {
            index: &self.index,
            keys: &self.keys,
            used: &self.used,
        }
    }
}

/// The lent tables, for reading.
#[derive(Clone, Copy, Debug)]
pub struct Lent<'a> {
    /// The index table.
    pub index: &'a [u8],
    /// The register's keys.
    pub keys: &'a [u64],
    /// The register's bytes.
    pub used: &'a [u8],
}

/// The numbers in the header.
#[derive(Clone, Copy, Debug, PartialEq, Eq)]
pub struct Header {
    /// W.
    pub width: usize,
    /// E.
    pub entries: usize,
    /// P.
    pub pages: usize,
    /// The root page.
    pub root: u32,
    /// Records held.
    pub held: usize,
}

/// A page as it is stored.
#[derive(Clone, Debug, PartialEq, Eq)]
pub struct StoredPage {
    /// The level byte.
    pub level: usize,
    /// The count byte.
    pub count: usize,
    /// All E entries, each a depth and a pointer.
    pub entries: Vec<(usize, u32)>,
}

/// "Numbers are stored high byte first."
pub fn number(bytes: &[u8]) -> u32 {
    bytes
        .iter()
        .fold(0, |sum, &byte| 256 * sum + u32::from(byte))
}

/// Stores a number, high byte first.
pub fn store(value: u32, bytes: &mut [u8]) {
    let low_first = bytes.iter_mut().rev();
    low_first.fold(value, |rest, byte| {
        *byte = (rest % 256) as u8;
        rest / 256
    });
}

/// Reads the header of an index table of at least 16 bytes.
pub fn header(index: &[u8]) -> Header {
    Header {
        width: usize::from(index[0]),
        entries: usize::from(index[1]),
        pages: number(&index[2..4]) as usize,
        root: number(&index[4..6]),
        held: number(&index[6..held_end()]) as usize,
    }
}

/// Where the header's records held ends and "the rest zero" begins.
pub fn held_end() -> usize {
    6 + LAYOUT.pointer_bytes
}

/// The bytes of a page.
pub fn page_bytes(index: &[u8], page: u32) -> &[u8] {
    let bytes = LAYOUT.page_bytes(header(index).entries);
    let start = HEADER_BYTES + page as usize * bytes;
    &index[start..start + bytes]
}

/// Reads a page.
pub fn stored_page(index: &[u8], page: u32) -> StoredPage {
    let bytes = page_bytes(index, page);
    let entries = bytes[LAYOUT.head_bytes..].chunks(LAYOUT.entry_bytes());
    StoredPage {
        level: usize::from(bytes[0]),
        count: usize::from(bytes[1]),
        entries: entries
            .map(|entry| (usize::from(entry[0]), number(&entry[1..])))
            .collect(),
    }
}

/// Reads sound tables.
pub fn read(lent: Lent) -> Index {
    let header = header(lent.index);
    let records = lent.keys.iter().zip(lent.used);
    Index {
        width: header.width,
        most_entries: header.entries,
        most_pages: header.pages,
        root: read_page(lent.index, header.root),
        register: records
            .map(|(&key, &used)| (used == 1).then_some(key))
            .collect(),
    }
}

/// "A pointer means a record on level 0 and a page above it."
fn read_page(index: &[u8], number: u32) -> Page {
    let stored = stored_page(index, number);
    let entries = stored.entries[..stored.count].iter();
    let row = if stored.level == 0 {
        Row::Leaves(
            entries
                .map(|&(depth, pointer)| leaf(depth, pointer))
                .collect(),
        )
    } else {
        Row::Children(entries.map(|&(_, child)| read_page(index, child)).collect())
    };
    Page::new(Some(number), row)
}

/// A stored entry of level 0.
pub fn leaf(depth: usize, pointer: u32) -> Entry {
    let record = (pointer != LAYOUT.nil()).then_some(pointer);
    Entry::new(depth, record)
}

/// Writes an index, whose pages all have numbers, into tables of its size.
pub fn write(index: &Index, bytes: &mut [u8], keys: &mut [u64], used: &mut [u8]) {
    let held = index.register.iter().flatten().count();
    bytes.fill(0);
    bytes[0] = index.width as u8;
    bytes[1] = index.most_entries as u8;
    store(index.most_pages as u32, &mut bytes[2..4]);
    store(page_number(&index.root), &mut bytes[4..6]);
    store(held as u32, &mut bytes[6..held_end()]);
    let size = LAYOUT.page_bytes(index.most_entries);
    for page in index.root.pages() {
        let start = HEADER_BYTES + page_number(page) as usize * size;
        write_page(page, &mut bytes[start..start + size]);
    }
    for (record, key) in index.register.iter().enumerate() {
        keys[record] = key.unwrap_or(0);
        used[record] = u8::from(key.is_some());
    }
}

fn write_page(page: &Page, bytes: &mut [u8]) {
    let pointers: Vec<u32> = match &page.row {
        Row::Leaves(leaves) => {
            let records = leaves.iter().map(|leaf| leaf.record);
            records
                .map(|record| record.unwrap_or(LAYOUT.nil()))
                .collect()
        }
        Row::Children(children) => children.iter().map(page_number).collect(),
    };
    bytes[0] = page.level() as u8;
    bytes[1] = pointers.len() as u8;
    let entries = bytes[LAYOUT.head_bytes..].chunks_mut(LAYOUT.entry_bytes());
    for ((entry, depth), pointer) in entries.zip(page.depths()).zip(pointers) {
        entry[0] = depth as u8;
        store(pointer, &mut entry[1..]);
    }
}

fn page_number(page: &Page) -> u32 {
    page.number.expect("every page has a number")
}
