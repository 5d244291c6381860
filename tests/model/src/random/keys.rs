//! Random keys and herds.

use super::Random;
use crate::leaf_list::Herd;

/// How keys are spread.
#[derive(Clone, Copy, Debug, PartialEq, Eq)]
pub enum Spread {
    /// Small numbers, close together.
    Dense,
    /// The largest keys: all ones but for a few low bits.
    Ones,
    /// A few stems that differ in some bits anywhere.
    Clustered,
    /// Any keys.
    Even,
}

/// All spreads.
pub const SPREADS: [Spread; 4] = [Spread::Dense, Spread::Ones, Spread::Clustered, Spread::Even];

/// The key of all ones.
pub fn largest_key(width: usize) -> u64 {
    u64::MAX >> (64 - width)
}

/// A key of `width` bits.
pub fn key(random: &mut Random, width: usize, spread: Spread) -> u64 {
    let largest = largest_key(width);
    let small = random.number() % 24;
    match spread {
        Spread::Dense => small & largest,
        Spread::Ones => largest - (small & largest),
        Spread::Clustered => {
            let stem = Random::new(random.number() % 3).number();
            let flips = (0..random.below(3)).fold(0, |bits, _| bits | 1 << random.below(width));
            (stem ^ flips) & largest
        }
        Spread::Even => random.number() & largest,
    }
}

/// A herd of at most `size` keys on a register of `records`.
pub fn herd(
    random: &mut Random,
    width: usize,
    spread: Spread,
    size: usize,
    records: usize,
) -> Herd {
    let mut numbers: Vec<u32> = (0..records as u32).collect();
    random.shuffle(&mut numbers);
    let numbers = numbers.into_iter().take(size);
    // A key drawn twice keeps the record drawn last.
    numbers
        .map(|record| (key(random, width, spread), record))
        .collect()
}
