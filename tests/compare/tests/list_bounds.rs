//! The longest list of two keys, at every W: put on in either order and taken off
//! in either, with all that is claimed of histories after every call.

use compare::calls::call;
use model::answer::Answer;
use model::bounds::most_entries;
use model::history::{follow, Call, History, Outcome, Shape};
use model::leaf_list::Entry;
use model::random::keys::largest_key;
use model::table::{read, Tables};

/// Makes the calls after a format; all must be done. Gives the entries of level
/// 0, read from the root, after the format and after each call.
fn lists(history: &History) -> Vec<Vec<Entry>> {
    let mut lists = Vec::new();
    let run = |tables: &mut Tables, made: &Call| {
        let outcome = call(tables, made);
        lists.push(read(tables.lent()).root.leaves());
        match outcome == Outcome::Answered(Answer::done()) {
            true => Ok(outcome),
            false => Err(format!("{made:?}: {outcome:?}")),
        }
    };
    if let Err(failure) = follow(history, run) {
        panic!("{history:?}: {failure:?}");
    }
    lists
}

/// The list of the two largest keys: a dummy at each depth but the last.
fn reaching(width: usize, [smaller, larger]: [u32; 2]) -> Vec<Entry> {
    let dummies = (1..width).map(|depth| Entry::new(depth, None));
    let live = [
        Entry::new(width, Some(smaller)),
        Entry::new(0, Some(larger)),
    ];
    dummies.chain(live).collect()
}

/// Puts the two largest keys on these records, and takes them off: the place
/// among the two of the first on and of the first off is given.
fn two_largest(shape: Shape, records: [u32; 2], [first_on, first_off]: [usize; 2]) {
    let largest = largest_key(shape.width);
    let keys = [largest - 1, largest];
    let on = |place: usize| Call::On(keys[place], records[place].into());
    let off = |place: usize| Call::Off(keys[place]);
    let calls = vec![
        on(first_on),
        on(1 - first_on),
        off(first_off),
        off(1 - first_off),
    ];
    let lists = lists(&History { shape, calls });
    assert_eq!(lists[2].len(), most_entries(shape.width, 2), "{shape:?}");
    let sole = |record| vec![Entry::new(0, record)];
    let expected = [
        sole(None),
        sole(Some(records[first_on])),
        reaching(shape.width, records),
        sole(Some(records[1 - first_off])),
        sole(None),
    ];
    assert_eq!(lists, expected, "{shape:?}");
}

#[test]
fn the_two_largest_keys_reach_the_bound_at_every_width() {
    // At W 64 and E 5 all of the pages are used, and the root stands on level 15.
    for (entries, pages) in [(5, 496), (20, 100), (60, 20), (255, 1)] {
        for width in 1..=64 {
            let shape = Shape {
                width,
                entries,
                pages,
                records: 9,
            };
            two_largest(shape, [0, 1], [0, 0]);
            two_largest(shape, [8, 3], [1, 0]);
            two_largest(shape, [1, 0], [0, 1]);
            two_largest(shape, [4, 8], [1, 1]);
        }
    }
}
