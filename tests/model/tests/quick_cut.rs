//! Cutting a page more quickly: rows of depths, every short one and others by
//! hand. Where the last depth is below all others, the place found is 01's.

mod cut_rows;

use cut_rows::{check, closed};
use model::leaf_list::Entry;
use model::pages::{changed_seeing, Cut, Cutting, Page, Row};
use model::quick_cut::{quick_search, Found};
use model::search::Change;

/// The cuts of a row of level 0, where a page may hold `most` entries.
fn cuts(depths: &[usize], most: usize) -> Vec<Cut> {
    let leaves = depths.iter().map(|&depth| Entry::new(depth, None));
    let page = Page::new(None, Row::Leaves(leaves.collect()));
    let mut cuts = Vec::new();
    changed_seeing(page, &Change::new(), most, &mut |cut| cuts.push(cut));
    cuts
}

/// 01's place in a row of three entries or more, of which a page holds one less.
fn place_of_01(depths: &[usize]) -> usize {
    let cut = cuts(depths, depths.len() - 1).swap_remove(0);
    assert_eq!((cut.of, &cut.depths[..]), (Cutting::Page, depths));
    cut.place
}

/// Every row of so many depths up to 4.
fn rows(length: usize) -> impl Iterator<Item = Vec<usize>> {
    let row = move |number| (0..length as u32).map(move |at| number / 5usize.pow(at) % 5);
    (0..5usize.pow(length as u32)).map(move |number| row(number).collect())
}

#[test]
fn every_closed_row_of_up_to_7_entries_has_the_place_of_01() {
    for row in rows(2).filter(|row| closed(row)) {
        assert_eq!(quick_search(&row), Found { place: 1, tried: 1 }, "{row:?}");
    }
    let mut met = [0, 0];
    for row in (3..=7).flat_map(rows).filter(|row| closed(row)) {
        let stopped = check(&row, place_of_01(&row));
        met[usize::from(stopped)] += 1;
    }
    // With k depths above the last there are k to the power of the others, and
    // those that do not stop have one depth less to choose from.
    let power_sum = |k: usize| (2..=6).map(|others| k.pow(others)).sum::<usize>();
    let all: usize = (1..=4).map(power_sum).sum();
    let not_stopped: usize = (1..=3).map(power_sum).sum();
    assert_eq!(met, [not_stopped, all - not_stopped]);
}

#[test]
fn rows_that_are_not_closed_may_have_another_place() {
    // The row, 01's place, the quick one.
    let apart = [
        (vec![0, 1, 0], 1, 2),
        (vec![0, 2, 1], 1, 2),
        (vec![1, 0, 0], 2, 1),
    ];
    for (row, place, quick) in apart {
        assert!(!closed(&row), "{row:?}");
        assert_eq!(place_of_01(&row), place, "{row:?}");
        assert_eq!(quick_search(&row).place, quick, "{row:?}");
    }
    for length in 3..=7 {
        let (apart, same): (Vec<_>, Vec<_>) = rows(length)
            .filter(|row| !closed(row))
            .partition(|row| quick_search(row).place != place_of_01(row));
        let counts = [apart.len(), same.len()];
        println!("{length} entries, apart and the same: {counts:?}");
        assert!(!apart.is_empty() && !same.is_empty(), "{length} entries");
    }
}

/// Rows with the place and how many were tried.
const BY_HAND: [(&[usize], usize, usize); 16] = [
    // It stops at the first entry, in the middle, at the last that it may try.
    (&[1, 2, 3, 0], 1, 1),
    (&[3, 2, 1, 2, 3, 0], 3, 3),
    (&[4, 3, 2, 1, 0], 4, 4),
    // None is met: the shallowest is first, in the middle, the last tried.
    (&[2, 3, 4, 3, 0], 1, 4),
    (&[4, 2, 3, 5, 0], 2, 4),
    (&[5, 4, 3, 2, 0], 4, 4),
    // None is met, and two or more are as shallow: the first of them.
    (&[3, 2, 4, 2, 0], 2, 4),
    (&[5, 5, 5, 3], 1, 3),
    // Two are one above the last: the first of them.
    (&[2, 1, 3, 1, 0], 2, 2),
    // The last is not 0: one above it, and not 1, is looked for.
    (&[5, 4, 6, 5, 3], 2, 2),
    (&[64, 63, 62], 2, 2),
    // Depth 1 is the last one's alone.
    (&[3, 4, 1], 1, 2),
    (&[3, 2, 4, 1], 2, 2),
    // Two entries.
    (&[1, 0], 1, 1),
    (&[64, 0], 1, 1),
    (&[64, 63], 1, 1),
];

#[test]
fn rows_by_hand() {
    for (row, place, tried) in BY_HAND {
        assert_eq!(quick_search(row), Found { place, tried }, "{row:?}");
        check(row, place);
        if row.len() > 2 {
            assert_eq!(place_of_01(row), place, "{row:?}");
        }
    }
}

#[test]
fn a_part_and_a_new_root_have_their_own_last() {
    let row = vec![4, 3, 5, 2, 6, 0];
    let all = [
        (Cutting::Page, row.clone(), 4, 5),
        (Cutting::Part, vec![4, 3, 5, 2], 2, 2),
        (Cutting::NewRoot, vec![3, 2, 0], 2, 2),
    ];
    let searched = |most| {
        let search = |cut: Cut| {
            let Found { place, tried } = quick_search(&cut.depths);
            assert_eq!(cut.place, place, "{cut:?}");
            (cut.of, cut.depths, place, tried)
        };
        let cuts = cuts(&row, most).into_iter();
        cuts.map(search).collect::<Vec<_>>()
    };
    assert_eq!(searched(6), []);
    assert_eq!(searched(5), all[..1]);
    assert_eq!(searched(3), all[..2]);
    assert_eq!(searched(2), all);
}
