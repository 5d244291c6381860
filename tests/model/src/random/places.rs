//! Single places in the tables, to read and to alter.

use crate::table::{
    header, number, page_bytes, store, stored_page, StoredPage, Tables, HEADER_BYTES, LAYOUT,
};

/// An entry of a page: the page's number and the entry's place in it.
pub type Place = (u32, usize);

/// Where a page begins in the index table.
pub fn page_start(tables: &Tables, page: u32) -> usize {
    HEADER_BYTES + page as usize * LAYOUT.page_bytes(header(&tables.index).entries)
}

/// Where an entry begins in the index table.
pub fn entry_start(tables: &Tables, (page, entry): Place) -> usize {
    page_start(tables, page) + LAYOUT.head_bytes + entry * LAYOUT.entry_bytes()
}

/// The page as it is stored.
pub fn page_at(tables: &Tables, page: u32) -> StoredPage {
    stored_page(&tables.index, page)
}

/// The depth of an entry.
pub fn depth_at(tables: &Tables, place: Place) -> u8 {
    tables.index[entry_start(tables, place)]
}

/// Alters the depth of an entry.
pub fn set_depth(tables: &mut Tables, place: Place, depth: u8) {
    let start = entry_start(tables, place);
    tables.index[start] = depth;
}

/// The pointer of an entry.
pub fn pointer(tables: &Tables, place: Place) -> u32 {
    let start = entry_start(tables, place);
    number(&tables.index[start + 1..start + LAYOUT.entry_bytes()])
}

/// Alters the pointer of an entry.
pub fn set_pointer(tables: &mut Tables, place: Place, pointer: u32) {
    let start = entry_start(tables, place);
    store(
        pointer,
        &mut tables.index[start + 1..start + LAYOUT.entry_bytes()],
    );
}

/// The pages whose count is not 0.
pub fn pages_in_use(tables: &Tables) -> Vec<u32> {
    let pages = header(&tables.index).pages as u32;
    (0..pages)
        .filter(|&page| page_bytes(&tables.index, page)[1] != 0)
        .collect()
}

/// The entries in use of the pages asked for.
pub fn places(tables: &Tables, wanted: impl Fn(&StoredPage) -> bool) -> Vec<Place> {
    let pages = pages_in_use(tables)
        .into_iter()
        .map(|page| (page, page_at(tables, page)));
    let wanted = pages.filter(|(_, stored)| wanted(stored));
    wanted
        .flat_map(|(page, stored)| (0..stored.count).map(move |entry| (page, entry)))
        .collect()
}

/// The records with this byte.
pub fn records(tables: &Tables, byte: u8) -> Vec<usize> {
    (0..tables.used.len())
        .filter(|&record| tables.used[record] == byte)
        .collect()
}
