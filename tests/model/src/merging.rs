//! Merging: what an accepted off does between taking its entries out and the
//! root rule. Quoted words are those of "Pages that never fill again".

use crate::bits::bits;
use crate::leaf_list::{next_discriminator, Entry};
use crate::pages::{child_over, Page, Row};

/// The tree under `root`, where a page may hold `most` entries, after merging.
/// "After an accepted off, take the level 0 page that now covers the removed
/// key." `root` is the tree that the off of this key leaves, whose emptied
/// pages are gone, before the root rule: "the root rule of 01 comes last".
pub fn merged(mut root: Page, key: u64, width: usize, most: usize) -> Page {
    let place = covering(&root.leaves(), &bits(key, width));
    merge_below(&mut root, place, most);
    root
}

/// The place in the leaf list of the entry whose interval, "from D(i-1) up to
/// but not including D(i)", has the key in it. The page that covers the key is
/// the one where this entry stands.
fn covering(leaves: &[Entry], key: &[bool]) -> usize {
    let mut bound = vec![false; key.len()];
    for (place, leaf) in leaves.iter().enumerate() {
        // "The closing depth 0 stands for a bound above every key."
        if leaf.depth == 0 {
            return place;
        }
        bound = next_discriminator(&bound, leaf.depth);
        // Strings of one length stand in order as their numbers do.
        if *key < bound[..] {
            return place;
        }
    }
    unreachable!("a last depth 0 closes the list")
}

/// Merges on every level below this page, where the leaf at `place`, counted
/// from the first under this page, is the one that covers the key. "Then do
/// the same with the parent, level by level": a child is looked at after all
/// that is done below it, whether or not anything was joined there.
fn merge_below(page: &mut Page, place: usize, most: usize) {
    let Row::Children(children) = &mut page.row else {
        return;
    };
    let (at, place) = child_over(children, place);
    merge_below(&mut children[at], place, most);
    merge(children, at, most);
}

/// Joins the child at `at` of one parent with a neighbour, if that is due and
/// can be.
fn merge(children: &mut Vec<Page>, at: usize, most: usize) {
    // "If it holds fewer than a quarter of E entries":
    if 4 * children[at].depths().len() >= most {
        return;
    }
    // "Join it with its left neighbour under the same parent when that
    // neighbour's parent depth is greater than its own and both fit in one
    // page."
    let left_joins = at > 0 && can_be_joined(&children[at - 1], &children[at], most);
    // "Where such a page can't be so joined, join it with its right neighbour
    // under the same parent, when the page's own parent depth is greater than
    // that neighbour's and both fit."
    let last = at + 1 == children.len();
    let right_joins = !last && can_be_joined(&children[at], &children[at + 1], most);
    if left_joins {
        join(children, at - 1);
    } else if right_joins {
        join(children, at);
    }
}

/// Whether the left one of two neighbours has the greater parent depth and both
/// fit in one page. "For every parent entry the depth equals the last depth of
/// its child."
fn can_be_joined(left: &Page, right: &Page, most: usize) -> bool {
    let deeper = left.last_depth() > right.last_depth();
    let fit = left.depths().len() + right.depths().len() <= most;
    deeper && fit
}

/// Joins the child at `left` with the next. "Which of the two joined pages
/// keeps its number is free": here the left one does.
fn join(children: &mut Vec<Page>, left: usize) {
    let right = children.remove(left + 1);
    match (&mut children[left].row, right.row) {
        (Row::Leaves(row), Row::Leaves(more)) => row.extend(more),
        (Row::Children(row), Row::Children(more)) => row.extend(more),
        _ => unreachable!("children of one parent stand on one level"),
    }
}
