//! The page numbers that on leaves: any free ones may be taken, and any part of
//! a cut page may keep its number.

use model::pages::{Page, Row};
use model::table::{read, Tables};
use std::collections::BTreeSet;

/// The numbers of the pages of each level, left to right, the root's last.
pub type Numbers = Vec<Vec<u32>>;

/// The numbers of the pages of sound tables.
pub fn numbers(tables: &Tables) -> Numbers {
    let root = read(tables.lent()).root;
    let mut numbers = vec![vec![]; root.level() + 1];
    add(&root, root.level(), &mut numbers);
    numbers
}

fn add(page: &Page, level: usize, numbers: &mut Numbers) {
    numbers[level].push(page.number.expect("a stored page has a number"));
    if let Row::Children(children) = &page.row {
        let children = children.iter();
        children.for_each(|child| add(child, level - 1, numbers));
    }
}

/// "One part keeps it, every other part and every new root stands in a page
/// that was free before the call." Given are the numbers before and after, and
/// those after the model's on, of which the first part of a page keeps the old
/// one; its parts end where the next number stands that was in use before.
pub fn numbers_after_on([before, after, model]: [Numbers; 3]) -> Result<(), String> {
    let in_use: BTreeSet<u32> = before.into_iter().flatten().collect();
    let old = |numbers: &[u32]| -> Vec<u32> {
        let old = numbers.iter().filter(|number| in_use.contains(number));
        old.copied().collect()
    };
    for (level, (after, model)) in after.iter().zip(&model).enumerate() {
        let mut first = 0;
        while first < model.len() {
            let later = model[first + 1..].iter();
            let others = later.take_while(|number| !in_use.contains(number));
            let end = first + 1 + others.count();
            let (kept, had) = (old(&after[first..end]), old(&model[first..end]));
            if kept != had {
                let parts = &after[first..end];
                return Err(format!(
                    "level {level}: parts in pages {parts:?}, old ones {kept:?}, not {had:?}"
                ));
            }
            first = end;
        }
    }
    Ok(())
}
