//! Tags as a market has them.

use super::Random;
use crate::tag_code::{pack, Fields};
use std::collections::BTreeSet;

/// The tag of a country and a national number, both within their bits; flag 1,
/// other fields 0.
pub fn tag(country: u64, national_number: u64) -> u64 {
    let fields = Fields {
        animal_flag: 1,
        country,
        national_number,
        ..Fields::default()
    };
    let (number, code) = pack(fields);
    assert_eq!(number, 0, "the fields make a code");
    code
}

/// A lot: the tags of 5 to 60 animals of one holding, in random order. The
/// holding's mark has six digits and the animal's own number five. Seven of
/// ten numbers follow the one before; the others leave 1 to 9 out.
pub fn lot(random: &mut Random) -> Vec<u64> {
    let mark = random.below(1_000_000) as u64;
    let mut own = random.below(99_000) as u64;
    let mut tags = Vec::new();
    for _ in 0..random.between(5, 60) {
        tags.push(tag(826, mark * 100_000 + own));
        own += if random.percent(70) {
            1
        } else {
            random.between(2, 10) as u64
        };
    }
    random.shuffle(&mut tags);
    tags
}

/// Lots one after the other, at least `count` tags, none twice.
pub fn lots(random: &mut Random, count: usize) -> Vec<u64> {
    let mut seen = BTreeSet::new();
    let mut tags = Vec::new();
    while tags.len() < count {
        tags.extend(lot(random).into_iter().filter(|&key| seen.insert(key)));
    }
    tags
}
