//! What the calls of a test met.

use model::answer::Answer;
use model::calls::Movement;
use model::history::{Call, Outcome};
use model::index::Index;
use model::pages::Page;
use model::table::{header, page_bytes, read, Tables};
use std::collections::BTreeMap;

/// How often each thing was met.
#[derive(Clone, Debug, Default)]
pub struct Met(BTreeMap<String, usize>);

/// How many pages are in use on each level, the root's last.
pub type Levels = Vec<usize>;

/// The pages in use on each level, up to the root's. It answers for tables that
/// are not sound too.
pub fn levels(tables: &Tables) -> Levels {
    let header = header(&tables.index);
    let page = |number| page_bytes(&tables.index, number);
    let root = header.root.min(header.pages as u32 - 1);
    let mut levels = vec![0; usize::from(page(root)[0]) + 1];
    for head in (0..header.pages as u32).map(page) {
        if let Some(level) = levels.get_mut(usize::from(head[0])) {
            *level += usize::from(head[1] != 0);
        }
    }
    levels
}

/// What `add_cuts` can find.
pub const CUTS: [&str; 6] = [
    "no cut",
    "one page taken",
    "pages taken",
    "parent cut",
    "new root",
    "new root cut",
];

/// What `add_off` can find besides `MERGES`.
pub const EMPTIED: [&str; 6] = [
    "no page emptied",
    "page emptied",
    "pages emptied",
    "parent emptied",
    "root lowered",
    "root lowered further",
];

/// What `add_moved` can find: the numbers beside the movements of done loads,
/// and what was done after which.
pub const MOVED: [&str; 12] = [
    "moved on 0",
    "moved on 2",
    "moved on 3",
    "moved on 4",
    "moved on 5",
    "moved on 7",
    "moved on 8",
    "moved off 0",
    "moved off 2",
    "moved off 6",
    "moved after a refusal",
    "moved on after a 7",
];

impl Met {
    /// One more of these.
    pub fn add(&mut self, what: impl Into<String>) {
        *self.0.entry(what.into()).or_default() += 1;
    }

    /// The call and its answer, "on 0" or "check true", and what a load moved.
    pub fn add_answer(&mut self, made: &Call, outcome: &Outcome) {
        let name = match made {
            Call::Format(..) => "format",
            Call::On(..) => "on",
            Call::Off(..) => "off",
            Call::Find(..) => "find",
            Call::List(..) => "list",
            Call::Check => "check",
            Call::Load(..) => "load",
        };
        self.add(match outcome {
            Outcome::Answered(answer) | Outcome::Listed(answer, _) | Outcome::Loaded(answer, _) => {
                format!("{name} {}", answer.number)
            }
            Outcome::Checked(sound) => format!("check {sound}"),
        });
        if let (Call::Load(movements, _), Outcome::Loaded(Answer { number: 0, .. }, answers)) =
            (made, outcome)
        {
            self.add_moved(movements, answers);
        }
    }

    /// The movements of a done load, each with the number beside it.
    fn add_moved(&mut self, movements: &[Movement], numbers: &[u32]) {
        let (mut refused, mut full) = (false, false);
        for (movement, &number) in movements.iter().zip(numbers) {
            let name = if movement.on == 0 { "off" } else { "on" };
            self.add(format!("moved {name} {number}"));
            if number == 0 && refused {
                self.add("moved after a refusal");
            }
            if number == 0 && full && movement.on != 0 {
                self.add("moved on after a 7");
            }
            refused |= number != 0;
            full |= number == 7;
        }
    }

    /// The call and its answer and, of a done on or off, what became of pages.
    pub fn add_call(&mut self, before: &Tables, after: &Tables, made: &Call, outcome: &Outcome) {
        self.add_answer(made, outcome);
        if *outcome != Outcome::Answered(Answer::done()) {
            return;
        }
        match made {
            Call::On(..) => self.add_cuts(&levels(before), &levels(after)),
            Call::Off(key) => self.add_off(&read(before.lent()), *key),
            _ => {}
        }
    }

    /// What became of the pages by a done on.
    pub fn add_cuts(&mut self, before: &Levels, after: &Levels) {
        self.add(match pages(after).saturating_sub(pages(before)) {
            0 => "no cut",
            1 => "one page taken",
            _ => "pages taken",
        });
        if parents(after, before.len()) > parents(before, before.len()) {
            self.add("parent cut");
        }
        match after.len().saturating_sub(before.len()) {
            0 => {}
            1 => self.add("new root"),
            _ => self.add("new root cut"),
        }
    }

    /// What became of the pages by a done off of a key held in `before`: the
    /// emptied ones are those that are gone before any are merged.
    pub fn add_off(&mut self, before: &Index, key: u64) {
        let left = before.taken_out(key);
        let count = |root: &Page, level| {
            let pages = root.pages().into_iter();
            pages.filter(|page| page.level() == level).count()
        };
        self.add(match count(&before.root, 0) - count(&left, 0) {
            0 => "no page emptied",
            1 => "page emptied",
            _ => "pages emptied",
        });
        if (1..=left.level()).any(|level| count(&left, level) < count(&before.root, level)) {
            self.add("parent emptied");
        }
        let mut after = before.clone();
        after.off(key).expect("a held key");
        match before.root.level() - after.root.level() {
            0 => {}
            1 => self.add("root lowered"),
            _ => self.add("root lowered further"),
        }
        self.add_merges(before, key);
    }

    /// Each of these was met so many times at least.
    pub fn assert(&self, least: usize, whats: &[&str]) {
        for what in whats {
            let times = self.0.get(*what).copied().unwrap_or(0);
            assert!(times >= least, "{what}: {times} times. {self:?}");
        }
    }

    /// These are all that was met.
    pub fn assert_only(&self, whats: &[&str]) {
        let other = self.0.keys().find(|what| !whats.contains(&what.as_str()));
        assert_eq!(other, None, "{self:?}");
    }
}

fn pages(levels: &Levels) -> usize {
    levels.iter().sum()
}

/// The pages above level 0 and below level `end`.
fn parents(levels: &Levels, end: usize) -> usize {
    levels.iter().take(end).skip(1).sum()
}
