//! Merging decided in another way, on the borders alone: a tree of pages is its
//! leaf list and how many entries each page has. The rule is given in parts, so
//! that wrong ones can be tried.

use model::pages::Page;
use std::collections::BTreeSet;

/// How many entries each page has, left to right, level by level from 0. The
/// root's level is the last.
pub type Borders = Vec<Vec<usize>>;

/// The borders of a tree.
pub fn borders(root: &Page) -> Borders {
    let pages = root.pages();
    let counts = |level| {
        let pages = pages.iter().filter(|page| page.level() == level);
        pages.map(|page| page.depths().len()).collect()
    };
    (0..=root.level()).map(counts).collect()
}

/// A neighbour of the page that is looked at.
#[derive(Clone, Copy, Debug, PartialEq, Eq)]
pub enum Side {
    /// The page before it on its level.
    Left,
    /// The page after it on its level.
    Right,
}

/// On which levels pages are looked at, and in which order.
#[derive(Clone, Copy, Debug, PartialEq, Eq)]
pub enum Order {
    /// On each, from level 0 up.
    Up,
    /// On level 0 alone.
    LowestOnly,
    /// From level 0 up to the first where nothing was joined.
    UpWhileJoined,
    /// On each, from the root down.
    Down,
}

/// A rule of merging.
#[derive(Clone, Copy)]
pub struct Rule {
    /// Whether so many entries, of at most E, are few enough to be joined.
    pub sparse: fn(usize, usize) -> bool,
    /// The neighbours tried, in this order.
    pub sides: &'static [Side],
    /// Whether the left one of two joined pages has the greater depth.
    pub deeper: bool,
    /// Whether so many entries, of at most E, fit in one page.
    pub fits: fn(usize, usize) -> bool,
    /// Whether both stand under one parent.
    pub one_parent: bool,
    /// The levels looked at.
    pub order: Order,
    /// Whether a page that is still sparse is joined again.
    pub again: bool,
}

/// The rule of the request.
pub const REQUESTED: Rule = Rule {
    sparse: |count, most| 4 * count < most,
    sides: &[Side::Left, Side::Right],
    deeper: true,
    fits: |together, most| together <= most,
    one_parent: true,
    order: Order::Up,
    again: false,
};

/// What an off met while its pages were looked at.
pub type Seen = BTreeSet<&'static str>;

/// The borders after merging by this rule and the root rule, and what was met.
/// The leaf at `place` covers the removed key.
pub fn merged(root: &Page, place: usize, most: usize, rule: &Rule) -> (Borders, Seen) {
    let leaves = root.leaves();
    let mut tree = Tree {
        depths: leaves.iter().map(|leaf| leaf.depth).collect(),
        borders: borders(root),
        most,
        seen: Seen::new(),
    };
    tree.merge(place, rule);
    let Tree {
        mut borders, seen, ..
    } = tree;
    while borders.len() > 1 && borders[borders.len() - 1] == [1] {
        borders.pop();
    }
    (borders, seen)
}

/// Why a left neighbour is not joined.
const LEFT: [&str; 3] = [
    "left neighbour shallower",
    "left neighbour one over E",
    "neighbour further over E",
];

/// Why a right neighbour is not joined.
const RIGHT: [&str; 3] = [
    "right neighbour deeper",
    "right neighbour one over E",
    "neighbour further over E",
];

/// Two neighbours of one level.
struct Pair {
    one_parent: bool,
    deeper: bool,
    together: usize,
}

struct Tree {
    depths: Vec<usize>,
    borders: Borders,
    most: usize,
    seen: Seen,
}

impl Tree {
    fn merge(&mut self, place: usize, rule: &Rule) {
        // The root has no neighbours.
        let mut levels: Vec<usize> = (0..self.borders.len() - 1).collect();
        match rule.order {
            Order::LowestOnly => levels.truncate(1),
            Order::Down => levels.reverse(),
            Order::Up | Order::UpWhileJoined => {}
        }
        let mut joined = Vec::new();
        for level in levels {
            let page = self.page(level, place);
            if self.look(level, page, rule) {
                joined.push(level);
            } else if rule.order == Order::UpWhileJoined {
                break;
            }
        }
        if joined.first() > Some(&0) {
            self.seen.insert("joined above level 0 alone");
        }
        if joined.len() > 1 {
            self.seen.insert("joined on two or more levels");
        }
        if self.seen.is_empty() {
            self.seen.insert("nothing to do");
        }
    }

    /// Looks at a page; says whether it was joined.
    fn look(&mut self, level: usize, page: usize, rule: &Rule) -> bool {
        if !(rule.sparse)(self.borders[level][page], self.most) {
            return false;
        }
        self.seen.extend(self.beside(level, page));
        let left_of = |side| match side {
            Side::Left => page.checked_sub(1),
            Side::Right => Some(page),
        };
        let joins = |&left: &usize| {
            self.pair(level, left).is_some_and(|pair| {
                let fits = (rule.fits)(pair.together, self.most);
                fits && pair.deeper >= rule.deeper && pair.one_parent >= rule.one_parent
            })
        };
        let mut lefts = rule.sides.iter().copied().filter_map(left_of);
        let Some(left) = lefts.find(joins) else {
            return false;
        };
        self.join(level, left);
        self.see_joined(level, page, left);
        if rule.again {
            self.look(level, left, rule);
        }
        true
    }

    /// Joins two neighbours. A parent that is emptied is taken out of its own.
    fn join(&mut self, level: usize, left: usize) {
        let mut gone = left + 1;
        let right = self.borders[level].remove(gone);
        self.borders[level][left] += right;
        for above in level + 1..self.borders.len() {
            let parent = self.holder(above, gone);
            self.borders[above][parent] -= 1;
            if self.borders[above][parent] > 0 {
                return;
            }
            self.borders[above].remove(parent);
            gone = parent;
        }
    }

    /// The page of `level` that holds the entry of this place on the level.
    fn holder(&self, level: usize, entry: usize) -> usize {
        let mut end = 0;
        let ends = self.borders[level].iter().map(|count| {
            end += count;
            end
        });
        ends.take_while(|&end| end <= entry).count()
    }

    /// The page of `level` over the leaf at `place`.
    fn page(&self, level: usize, place: usize) -> usize {
        (0..=level).fold(place, |entry, level| self.holder(level, entry))
    }

    /// The depth of a page's last leaf.
    fn depth(&self, level: usize, page: usize) -> usize {
        let last = (0..=level).rev().fold(page, |page, level| {
            let entries: usize = self.borders[level][..=page].iter().sum();
            entries - 1
        });
        self.depths[last]
    }

    /// The page at `left` and the next, if there is one.
    fn pair(&self, level: usize, left: usize) -> Option<Pair> {
        let counts = self.borders[level].get(left..left + 2)?;
        let parents = [left, left + 1].map(|page| self.holder(level + 1, page));
        let depths = [left, left + 1].map(|page| self.depth(level, page));
        Some(Pair {
            one_parent: parents[0] == parents[1],
            deeper: depths[0] > depths[1],
            together: counts.iter().sum(),
        })
    }

    /// What stands beside a page that is to be joined.
    fn beside(&self, level: usize, page: usize) -> Vec<&'static str> {
        let left = page.checked_sub(1).and_then(|left| self.pair(level, left));
        let pairs = [left, self.pair(level, page)];
        let mut seen = Vec::new();
        if pairs[0].as_ref().is_some_and(|pair| !pair.one_parent) {
            seen.push("no left neighbour under its parent");
        }
        let [left, right] = pairs.map(|pair| pair.filter(|pair| pair.one_parent));
        let [by_left, by_right] = [(&left, LEFT), (&right, RIGHT)]
            .map(|(pair, words)| pair.as_ref().and_then(|pair| self.refused(pair, words)));
        seen.extend(by_left);
        if left.is_none() && right.is_none() {
            seen.push("only child");
        } else if left.is_none() || by_left.is_some() {
            seen.extend(by_right);
            if right.is_none() || by_right.is_some() {
                seen.push("no neighbour that it can be joined with");
            }
        }
        seen
    }

    /// Why two neighbours cannot be joined, if so, in these words.
    fn refused(&self, pair: &Pair, words: [&'static str; 3]) -> Option<&'static str> {
        let [depths, one_over, over] = words;
        match pair.together {
            _ if !pair.deeper => Some(depths),
            together if together == self.most + 1 => Some(one_over),
            together if together > self.most => Some(over),
            _ => None,
        }
    }

    /// What became of a page that was joined.
    fn see_joined(&mut self, level: usize, page: usize, left: usize) {
        self.seen.insert(match left < page {
            true => "joined on the left",
            false => "joined on the right",
        });
        let together = self.borders[level][left];
        if together == self.most {
            self.seen.insert("exactly E entries after a join");
        }
        if 4 * together < self.most {
            self.seen.insert("still sparse after its join");
        }
    }
}
