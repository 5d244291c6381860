//! The leaf list of a herd, by its definition over bit strings.

use crate::bits::{bits, number};
use std::collections::BTreeMap;

/// The keys held, each with its record.
pub type Herd = BTreeMap<u64, u32>;

/// A leaf: the depth of its bounding node, and its record or NIL (a dummy).
#[derive(Clone, Copy, Debug, PartialEq, Eq, Hash)]
pub struct Entry {
    /// Length of the bounding node's bit string, 0 for the closing bound.
    pub depth: usize,
    /// The record, or nothing in a dummy.
    pub record: Option<u32>,
}

impl Entry {
    /// The entry of this depth and record.
    pub fn new(depth: usize, record: Option<u32>) -> Entry {
        Entry { depth, record }
    }
}

/// The leaf list of the herd at this key width.
pub fn leaf_list(width: usize, herd: &Herd) -> Vec<Entry> {
    let keys: Vec<Vec<bool>> = herd.keys().map(|&key| bits(key, width)).collect();
    let mut depths: Vec<usize> = bounding_nodes(&keys).iter().map(|v| v.len()).collect();
    depths.push(0);
    let mut bound = vec![false; width];
    let mut list = Vec::new();
    for depth in depths {
        let low = bound.clone();
        let record = if depth > 0 {
            bound = next_discriminator(&low, depth);
            only_record(herd.range(number(&low)..number(&bound)))
        } else {
            // "The last interval includes the key of all ones."
            only_record(herd.range(number(&low)..))
        };
        list.push(Entry::new(depth, record));
    }
    list
}

/// The bounding nodes of the keys, which stand in ascending order.
///
/// At least one key begins with every bounding node, so the prefixes of keys
/// are the only candidates.
fn bounding_nodes(keys: &[Vec<bool>]) -> Vec<&[bool]> {
    let prefixes = keys
        .iter()
        .flat_map(|key| (1..=key.len()).map(move |length| &key[..length]));
    let mut nodes: Vec<&[bool]> = prefixes
        .filter(|v| v.ends_with(&[true]) && is_bounding_node(v, keys))
        .collect();
    nodes.sort_by_key(|v| discriminator(v, keys[0].len()));
    nodes.dedup();
    nodes
}

/// "At least two keys begin with v, or at least one key begins with v and at
/// least one begins with v's sibling (v with last bit 0)."
fn is_bounding_node(v: &[bool], keys: &[Vec<bool>]) -> bool {
    let mut sibling = v.to_vec();
    *sibling.last_mut().expect("v ends in 1") = false;
    let beginning = begin_with(v, keys);
    beginning >= 2 || beginning >= 1 && begin_with(&sibling, keys) >= 1
}

/// How many keys begin with v; a third one is not looked for. Keys that begin
/// alike stand together in ascending order.
fn begin_with(v: &[bool], keys: &[Vec<bool>]) -> usize {
    let first = keys.partition_point(|key| key[..v.len()] < *v);
    let rest = keys[first..].iter();
    rest.take_while(|key| key.starts_with(v)).take(2).count()
}

/// "Its discriminator is v followed by zeros to W bits."
fn discriminator(v: &[bool], width: usize) -> u64 {
    let mut padded = v.to_vec();
    padded.resize(width, false);
    number(&padded)
}

/// "D(i) sets bit d(i) of D(i-1) and clears all later bits."
pub fn next_discriminator(bound: &[bool], depth: usize) -> Vec<bool> {
    let mut next = bound.to_vec();
    next[depth - 1] = true;
    next[depth..].fill(false);
    next
}

/// The record of the one key in an interval, or nothing if there is none.
fn only_record<'a>(mut interval: impl Iterator<Item = (&'a u64, &'a u32)>) -> Option<u32> {
    let record = interval.next().map(|(_, &record)| record);
    assert!(interval.next().is_none(), "an interval holds two keys");
    record
}

/// The list as the specification prints it: `(1,-)(0,2)`.
pub fn show(list: &[Entry]) -> String {
    let entry = |entry: &Entry| match entry.record {
        Some(record) => format!("({},{record})", entry.depth),
        None => format!("({},-)", entry.depth),
    };
    list.iter().map(entry).collect()
}
