//! What done offs met of merging. The model is asked: its tables are the same.

use crate::met::Met;
use model::index::Index;
use model::merging::merged;
use model::pages::{lowered, Page, Row};
use model::search::search;

/// What `add_merges` can find.
pub const MERGES: [&str; 20] = [
    "no page sparse",
    "only child",
    "first child, not first of its level",
    "left neighbour shallower",
    "left neighbour one over E",
    "left neighbour fits",
    "right neighbour deeper",
    "right neighbour one over E",
    "right neighbour fits",
    "neighbour further over E",
    "joined left",
    "joined right",
    "joined above level 0 alone",
    "joined on two levels",
    "joined to E entries",
    "joined and still sparse",
    "joined after a dummy",
    "covered by another page",
    "covered under another parent",
    "root lowered by a join",
];

/// Why a left neighbour is not joined, and that it is.
const LEFT: [&str; 4] = [MERGES[3], MERGES[4], MERGES[9], MERGES[5]];

/// Why a right neighbour is not joined, and that it is.
const RIGHT: [&str; 4] = [MERGES[6], MERGES[7], MERGES[9], MERGES[8]];

impl Met {
    /// What merging did in a done off of a key held in `before`.
    pub fn add_merges(&mut self, before: &Index, key: u64) {
        let most = before.most_entries;
        let left = before.taken_out(key);
        let with = merged(left.clone(), key, before.width, most);
        let [held, covers] =
            [&before.root, &left].map(|root| root.over(search(&root.leaves(), key, before.width)));
        let joined = self.add_levels(&covers, &with, most);
        match joined.as_slice() {
            [] | [0] => {}
            [_] => self.add("joined above level 0 alone"),
            _ => self.add("joined on two levels"),
        }
        let kept = before.root.leaves().len() == left.leaves().len();
        if kept && !joined.is_empty() {
            self.add("joined after a dummy");
        }
        let other = |level: usize| held[level].number != covers[level].number;
        if other(0) {
            self.add("covered by another page");
        }
        if held.len() > 1 && other(1) {
            self.add("covered under another parent");
        }
        if lowered(with).level() < lowered(left.clone()).level() {
            self.add("root lowered by a join");
        }
    }

    /// What the pages that were looked at met, level by level; above the last
    /// stands none. Gives the levels where they were joined in the tree `with`
    /// merging.
    fn add_levels(&mut self, pages: &[&Page], with: &Page, most: usize) -> Vec<usize> {
        let mut joined = Vec::new();
        let mut sparse = false;
        for (level, pair) in pages.windows(2).enumerate() {
            let below = level > 0 && joined.last() == Some(&(level - 1));
            let look = Look::new(pair[0], pair[1], below, most);
            if 4 * look.count >= most {
                continue;
            }
            sparse = true;
            look.words().into_iter().for_each(|word| self.add(word));
            if look.at == 0 && !first_of_level(&pages[level..]) {
                self.add("first child, not first of its level");
            }
            if let Some(number) = look.joined_number(with, level) {
                let page = with.pages().into_iter().find(|page| page.number == number);
                self.add_joined(page.expect("it is in use").depths().len(), most);
                self.add(match number == pair[0].number {
                    true => "joined right",
                    false => "joined left",
                });
                joined.push(level);
            }
        }
        if !sparse {
            self.add("no page sparse");
        }
        joined
    }

    /// A joined page of so many entries.
    fn add_joined(&mut self, count: usize, most: usize) {
        if count == most {
            self.add("joined to E entries");
        }
        if 4 * count < most {
            self.add("joined and still sparse");
        }
    }
}

/// Whether the first of these pages, each the parent of the one before and the
/// last the root, is the first on its level.
fn first_of_level(pages: &[&Page]) -> bool {
    let mut pairs = pages.windows(2);
    pairs.all(|pair| Look::new(pair[0], pair[1], false, 0).at == 0)
}

/// A page that is looked at, among the children of its parent.
struct Look<'a> {
    children: &'a [Page],
    at: usize,
    /// Its entries, less one if two of its children were joined.
    count: usize,
    most: usize,
}

impl Look<'_> {
    fn new<'a>(page: &Page, parent: &'a Page, joined_below: bool, most: usize) -> Look<'a> {
        let Row::Children(children) = &parent.row else {
            panic!("a parent stands above level 0")
        };
        let mut numbers = children.iter().map(|child| child.number);
        Look {
            children,
            at: numbers
                .position(|number| number == page.number)
                .expect("a child"),
            count: page.depths().len() - usize::from(joined_below),
            most,
        }
    }

    /// How its neighbours stand to a page that is to be joined.
    fn words(&self) -> Vec<&'static str> {
        let page = &self.children[self.at];
        let left = self.at.checked_sub(1).map(|left| &self.children[left]);
        let right = self.children.get(self.at + 1);
        if left.is_none() && right.is_none() {
            return vec!["only child"];
        }
        let mut words = Vec::new();
        words.extend(left.map(|left| self.word(left, page, left, LEFT)));
        if words != [LEFT[3]] {
            words.extend(right.map(|right| self.word(page, right, right, RIGHT)));
        }
        words
    }

    /// Which of the words holds of a neighbour, the one of `left` and `right`
    /// that is not this page.
    fn word(
        &self,
        left: &Page,
        right: &Page,
        neighbour: &Page,
        words: [&'static str; 4],
    ) -> &'static str {
        let together = neighbour.depths().len() + self.count;
        match together.checked_sub(self.most) {
            _ if left.last_depth() <= right.last_depth() => words[0],
            Some(1) => words[1],
            Some(2..) => words[2],
            _ => words[3],
        }
    }

    /// The number of the page that it and a neighbour stand in now, if they
    /// were joined: the left one's, and the right one's is gone.
    fn joined_number(&self, with: &Page, level: usize) -> Option<Option<u32>> {
        let pages = with.pages();
        let gone = |page: &Page| {
            let mut level = pages.iter().filter(|page| page.level() == level);
            level.all(|other| other.number != page.number)
        };
        let from = self.at.saturating_sub(1);
        let to = self.children.len().min(self.at + 2);
        let mut pairs = self.children[from..to].windows(2);
        pairs.find(|pair| gone(&pair[1])).map(|pair| pair[0].number)
    }
}
