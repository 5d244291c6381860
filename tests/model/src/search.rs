//! Search, insertion and deletion on a flat leaf list.

use crate::bits::{first_difference, one_bits};
use crate::leaf_list::Entry;
use std::collections::BTreeMap;

/// What stands in the place of an entry after a change. Entries that are not
/// named stay as they are.
pub type Change = BTreeMap<usize, Vec<Entry>>;

/// "The position list is the key's one-bits, then W + 1."
pub fn position_list(key: u64, width: usize) -> Vec<usize> {
    let mut positions = one_bits(key, width);
    positions.push(width + 1);
    positions
}

/// Figure 6: the entry at which the search stops, and the place in the
/// position list it has come to; it begins at the place `first`.
pub fn figure_6(depths: &[usize], positions: &[usize], first: usize) -> (usize, usize) {
    let (mut j, mut k) = (0, first);
    while positions[k] <= depths[j] {
        if positions[k] == depths[j] {
            k += 1;
        }
        j += 1;
    }
    (j, k)
}

/// The entry of the whole list whose interval the key lies in.
pub fn search(list: &[Entry], key: u64, width: usize) -> usize {
    let depths: Vec<usize> = list.iter().map(|entry| entry.depth).collect();
    figure_6(&depths, &position_list(key, width), 0).0
}

/// Insertion (5.1) of a key that is not held. `keys` gives the key of each
/// record that the list points at.
pub fn insertion(
    list: &[Entry],
    width: usize,
    keys: impl Fn(u32) -> u64,
    key: u64,
    record: u32,
) -> Change {
    let i = search(list, key, width);
    let depth = list[i].depth;
    let new = Some(record);
    let Some(old_record) = list[i].record else {
        // "A dummy that is met takes the record."
        return Change::from([(i, vec![Entry::new(depth, new)])]);
    };
    let old_key = keys(old_record);
    let old = Some(old_record);
    let l = leaf_depth(list, i);
    let b = first_difference(key, old_key, width).expect("the key is not held");
    assert_ne!(b, l, "b = l cannot occur");
    let mut row = Vec::new();
    if b > l {
        let between = |p: &usize| l < *p && *p < b;
        let dummies = one_bits(key, width).into_iter().filter(between);
        row.extend(dummies.map(|depth| Entry::new(depth, None)));
    }
    let new_first = b > l && key < old_key;
    let (smaller, larger) = if new_first { (new, old) } else { (old, new) };
    row.extend([(b, smaller), (depth, larger)].map(|(depth, record)| Entry::new(depth, record)));
    Change::from([(i, row)])
}

/// "d(i) if entry i is first in the whole list or d(i) > d(i-1), else d(i-1)."
fn leaf_depth(list: &[Entry], i: usize) -> usize {
    if i == 0 || list[i].depth > list[i - 1].depth {
        list[i].depth
    } else {
        list[i - 1].depth
    }
}

/// Deletion (figure 11) of the live entry i. "Before the first entry stands no
/// entry, and the last has no next."
pub fn deletion(list: &[Entry], i: usize) -> Change {
    let depth = list[i].depth;
    let mut change = Change::new();
    if i > 0 && list[i - 1].depth > depth {
        let record = list[i - 1].record;
        change.insert(i, vec![]);
        change.insert(i - 1, vec![Entry::new(depth, record)]);
        take_out_dummies(list, i - 1, depth, &mut change);
    } else if i + 1 < list.len() && depth > list[i + 1].depth {
        change.insert(i, vec![]);
        take_out_dummies(list, i, list[i + 1].depth, &mut change);
    } else {
        change.insert(i, vec![Entry::new(depth, None)]);
    }
    change
}

/// "Remove all dummy entries immediately preceding" the place `end` that are
/// deeper than `depth`.
fn take_out_dummies(list: &[Entry], end: usize, depth: usize, change: &mut Change) {
    for j in (0..end).rev() {
        if list[j].record.is_some() || list[j].depth <= depth {
            break;
        }
        change.insert(j, vec![]);
    }
}

/// The list after a change.
pub fn changed(list: &[Entry], change: &Change) -> Vec<Entry> {
    let place = |(i, entry): (usize, &Entry)| change.get(&i).cloned().unwrap_or(vec![*entry]);
    list.iter().enumerate().flat_map(place).collect()
}
