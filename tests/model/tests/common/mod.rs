//! What several test files share.

use std::ops::Range;

/// So many seeds. MODEL_SEED in the environment, if set, gives other ones.
pub fn seeds(count: u64) -> Range<u64> {
    let set = std::env::var("MODEL_SEED").ok();
    let first = set.map_or(0, |seed| seed.parse().expect("MODEL_SEED is a number"));
    first..first + count
}
