//! What is claimed of the tables after every history.

use crate::bounds::bounds;
use crate::leaf_list::{leaf_list, show, Entry, Herd};
use crate::table::{header, leaf, page_bytes, stored_page, Lent};
use std::collections::BTreeSet;

/// Tests the claims for the held keys; describes the first that fails.
pub fn claims(lent: Lent, width: usize, held: &Herd) -> Result<(), String> {
    let header = header(lent.index);
    let (reached, leaves) = reached(lent.index)?;
    let expected = leaf_list(width, held);
    if leaves != expected {
        let (stored, literal) = (show(&leaves), show(&expected));
        return Err(format!(
            "level 0 holds {stored}, the leaf list is {literal}"
        ));
    }
    if header.held != held.len() {
        return Err(format!("the header says {} records held", header.held));
    }
    // By W and the records held that the header says.
    bounds(header.width, header.held, &leaves)?;
    let unreached = (0..header.pages as u32).filter(|number| !reached.contains(number));
    for number in unreached {
        if page_bytes(lent.index, number).iter().any(|&byte| byte != 0) {
            return Err(format!("page {number} is not reached and not zero"));
        }
    }
    register_claim(lent, held)
}

/// "A page is reached if it is the root or if an entry of a reached page above
/// level 0 points at it." Gives their numbers and the entries of level 0, read
/// left to right.
fn reached(index: &[u8]) -> Result<(BTreeSet<u32>, Vec<Entry>), String> {
    let header = header(index);
    let mut reached = BTreeSet::new();
    let mut leaves = Vec::new();
    let mut to_reach = vec![header.root];
    while let Some(number) = to_reach.pop() {
        if number as usize >= header.pages || !reached.insert(number) {
            return Err(format!("page {number} does not exist or is reached twice"));
        }
        let page = stored_page(index, number);
        if page.count == 0 || page.count > header.entries {
            return Err(format!("page {number} has {} entries", page.count));
        }
        let entries = &page.entries[..page.count];
        if page.level == 0 {
            leaves.extend(entries.iter().map(|&(depth, pointer)| leaf(depth, pointer)));
        } else {
            to_reach.extend(entries.iter().rev().map(|&(_, child)| child));
        }
    }
    Ok((reached, leaves))
}

/// "The register has byte 1 and the key at each of these records, and byte 0
/// and key 0 elsewhere."
fn register_claim(lent: Lent, held: &Herd) -> Result<(), String> {
    let mut keys = vec![0; lent.keys.len()];
    let mut used = vec![0; lent.used.len()];
    for (&key, &record) in held {
        keys[record as usize] = key;
        used[record as usize] = 1;
    }
    if lent.keys != keys || lent.used != used {
        return Err("the register is not that of the held keys".to_string());
    }
    Ok(())
}
