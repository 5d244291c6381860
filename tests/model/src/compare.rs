//! Comparison of two tables up to the numbers of their pages.

use crate::table::{header, page_bytes, stored_page, Header, Lent, HEADER_BYTES, LAYOUT};
use std::collections::BTreeSet;

/// Whether two tables are the same up to page numbers: "what is read from the
/// root down, page numbers aside". If not, the first difference.
pub fn compare(left: Lent, right: Lent) -> Result<(), String> {
    if left.keys != right.keys || left.used != right.used {
        return Err(register_difference(left, right));
    }
    compare_headers(left.index, right.index)?;
    let mut sides = [Side::new(left.index)?, Side::new(right.index)?];
    let roots = [left, right].map(|lent| header(lent.index).root);
    let level = sides[0].level(roots[0]);
    compare_pages(&mut sides, roots, level, "root")?;
    sides.iter().try_for_each(Side::rest_is_zero)
}

fn register_difference(left: Lent, right: Lent) -> String {
    let records = left.keys.len().min(right.keys.len());
    let records = records.min(left.used.len()).min(right.used.len());
    let at = |lent: Lent, record: usize| (lent.keys[record], lent.used[record]);
    match (0..records).find(|&record| at(left, record) != at(right, record)) {
        Some(record) => {
            let (left, right) = (at(left, record), at(right, record));
            format!("record {record}: key and byte {left:?} against {right:?}")
        }
        None => "registers of different length".to_string(),
    }
}

/// The root page's number, bytes 4 and 5, may differ.
fn compare_headers(left: &[u8], right: &[u8]) -> Result<(), String> {
    if left.len() != right.len() || left.len() < HEADER_BYTES {
        let (left, right) = (left.len(), right.len());
        return Err(format!("index tables of {left} and {right} bytes"));
    }
    let mut places = (0..4).chain(6..HEADER_BYTES);
    match places.find(|&place| left[place] != right[place]) {
        Some(place) => {
            let (left, right) = (left[place], right[place]);
            Err(format!("header byte {place}: {left} against {right}"))
        }
        None => Ok(()),
    }
}

/// One of the two index tables, with the pages reached in it so far.
struct Side<'a> {
    index: &'a [u8],
    pages: usize,
    reached: BTreeSet<u32>,
}

impl Side<'_> {
    fn new(index: &[u8]) -> Result<Side<'_>, String> {
        let Header { entries, pages, .. } = header(index);
        let bytes = index.len();
        if bytes != LAYOUT.index_bytes(entries, pages) {
            return Err(format!("{bytes} bytes for E {entries} and P {pages}"));
        }
        let reached = BTreeSet::new();
        Ok(Side {
            index,
            pages,
            reached,
        })
    }

    /// The level of a page, 0 if it does not exist.
    fn level(&self, number: u32) -> usize {
        if (number as usize) < self.pages {
            stored_page(self.index, number).level
        } else {
            0
        }
    }

    /// Reaches a page, which must exist and be new.
    fn reach(&mut self, number: u32, place: &str) -> Result<(), String> {
        if number as usize >= self.pages || !self.reached.insert(number) {
            return Err(format!(
                "{place}: page {number} does not exist or is reached twice"
            ));
        }
        Ok(())
    }

    /// Every page that is not reached is all zero.
    fn rest_is_zero(&self) -> Result<(), String> {
        let numbers = 0..self.pages as u32;
        let mut unreached = numbers.filter(|number| !self.reached.contains(number));
        let stray = |&number: &u32| page_bytes(self.index, number).iter().any(|&byte| byte != 0);
        match unreached.find(stray) {
            Some(number) => Err(format!("page {number} is not reached and not zero")),
            None => Ok(()),
        }
    }
}

/// Compares two pages, which stand on this level, and all below them. `place`
/// names them by the entries that lead there from the root.
fn compare_pages(
    sides: &mut [Side; 2],
    numbers: [u32; 2],
    level: usize,
    place: &str,
) -> Result<(), String> {
    sides[0].reach(numbers[0], place)?;
    sides[1].reach(numbers[1], place)?;
    let left = stored_page(sides[0].index, numbers[0]);
    let right = stored_page(sides[1].index, numbers[1]);
    if [left.level, right.level] != [level, level] || left.count != right.count {
        let heads = [&left, &right].map(|page| (page.level, page.count));
        return Err(format!(
            "{place}, on level {level}: level and count {heads:?}"
        ));
    }
    for (i, (one, other)) in left.entries.iter().zip(&right.entries).enumerate() {
        let parent = level > 0 && i < left.count;
        if one.0 != other.0 || !parent && one.1 != other.1 {
            return Err(format!("{place}/{i}: entry {one:?} against {other:?}"));
        }
        if parent {
            compare_pages(sides, [one.1, other.1], level - 1, &format!("{place}/{i}"))?;
        }
    }
    Ok(())
}
