//! How long the leaf list may get, and what stands after a dummy.

use crate::leaf_list::{show, Entry};

/// "A herd of n animals, n at least 1, has at most 1 + W × (n − 1) leaf entries":
/// gives that number. Nothing is claimed of no animals, for which it gives 1.
pub fn most_entries(width: usize, held: usize) -> usize {
    1 + width * held.saturating_sub(1)
}

/// Tests both claims of the list of so many held keys; describes the first that
/// fails.
pub fn bounds(width: usize, held: usize, list: &[Entry]) -> Result<(), String> {
    if held == 0 {
        return sole_entry(list);
    }
    let (entries, most) = (list.len(), most_entries(width, held));
    if entries > most {
        return Err(format!(
            "{entries} entries, {held} keys have at most {most}"
        ));
    }
    deeper_after_dummies(list)
}

/// "Save the sole entry of an empty herd": tests that there is no other.
fn sole_entry(list: &[Entry]) -> Result<(), String> {
    match list == [Entry::new(0, None)] {
        true => Ok(()),
        false => Err(format!("the empty herd has {}", show(list))),
    }
}

/// "Every dummy is followed by a deeper entry": tests it of the entries, and
/// shows the first dummy that is last or followed by another.
fn deeper_after_dummies(list: &[Entry]) -> Result<(), String> {
    let followed = |at: usize| match list.get(at + 1) {
        Some(next) => next.depth > list[at].depth,
        None => false,
    };
    let mut dummies = (0..list.len()).filter(|&at| list[at].record.is_none());
    match dummies.find(|&at| !followed(at)) {
        None => Ok(()),
        Some(at) => {
            let from = show(&list[at..list.len().min(at + 2)]);
            Err(format!("no deeper entry follows the dummy at {at}: {from}"))
        }
    }
}
