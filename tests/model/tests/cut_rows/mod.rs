//! What is asked of the quick search in a row whose last depth is below all
//! others, in other words than its own.

use model::quick_cut::quick_search;

/// Whether the last depth is below all others.
pub fn closed(depths: &[usize]) -> bool {
    let (last, others) = depths.split_last().expect("a row");
    others.iter().all(|depth| depth > last)
}

/// Checks the count, and that the place is this one, which is 01's; says whether
/// the search stopped at a depth one above the last.
pub fn check(depths: &[usize], place: usize) -> bool {
    assert!(closed(depths), "{depths:?}");
    let found = quick_search(depths);
    assert_eq!(found.place, place, "{depths:?}");
    let (last, others) = depths.split_last().expect("a row");
    let one_above = others.iter().position(|depth| depth - last == 1);
    let tried = one_above.map_or(others.len(), |at| at + 1);
    assert_eq!(found.tried, tried, "{depths:?}");
    assert!(1 <= place && place <= tried && tried <= others.len());
    // Where none is met, the place may still be the last one tried.
    let same = one_above.is_some() || place == others.len();
    assert_eq!(place == tried, same, "{depths:?}");
    one_above.is_some()
}
