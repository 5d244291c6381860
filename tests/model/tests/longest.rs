//! The longest leaf lists: every small herd keeps what is computed, and the
//! herds that are built have as many entries.

use model::bits::bits;
use model::bounds::most_entries;
use model::leaf_list::{leaf_list, Herd};
use model::longest::{Longest, Parting};
use model::random::keys::largest_key;
use model::tag_code::{unpack, Fields};
use std::ops::RangeInclusive;

const PARTINGS: [Parting; 2] = [Parting::FewZeros, Parting::Even];

/// The entries of the list of these keys.
fn entries(width: usize, keys: &[u64]) -> usize {
    let herd: Herd = keys.iter().copied().zip(0..).collect();
    leaf_list(width, &herd).len()
}

/// Every herd of keys of at most 4 bits, as its keys and the entries of its list.
fn every_herd(width: usize) -> Vec<(Vec<u64>, usize)> {
    let keys_of = |set: u32| (0..16).filter(move |key| set >> key & 1 == 1);
    let herds = (0..1 << (1 << width)).map(|set| keys_of(set).collect());
    let listed = |keys: Vec<u64>| {
        let entries = entries(width, &keys);
        (keys, entries)
    };
    herds.map(listed).collect()
}

/// The most entries that herds of keys between these ends have, by their number
/// of keys.
fn most_met(herds: &[(Vec<u64>, usize)], first: u64, last: u64) -> Vec<usize> {
    let mut most = vec![0; (last - first + 2) as usize];
    for (keys, entries) in herds {
        if keys.iter().all(|key| (first..=last).contains(key)) {
            let met = &mut most[keys.len()];
            *met = (*met).max(*entries);
        }
    }
    most
}

/// Checks that each herd built of so many keys has them between these ends, in
/// ascending order, and has the longest list computed.
fn check_herds(longest: &Longest, width: usize, held: usize, ends: [u64; 2], what: &str) {
    for parting in PARTINGS {
        let keys = longest.herd(held, parting);
        let what = format!("{what}, {held} keys, {parting:?}");
        assert_eq!(keys.len(), held, "{what}");
        assert!(keys.windows(2).all(|pair| pair[0] < pair[1]), "{what}");
        assert!(
            keys.iter().all(|key| (ends[0]..=ends[1]).contains(key)),
            "{what}"
        );
        assert_eq!(entries(width, &keys), longest.most()[held], "{what}");
    }
}

/// Checks what is computed for keys between these ends, and the herds built of
/// them, against every herd.
fn check_all(longest: &Longest, width: usize, herds: &[(Vec<u64>, usize)], ends: [u64; 2]) {
    let what = format!("W {width}, {} to {}", ends[0], ends[1]);
    let met = most_met(herds, ends[0], ends[1]);
    assert_eq!(longest.most(), met, "{what}");
    for held in 0..met.len() {
        check_herds(longest, width, held, ends, &what);
    }
}

#[test]
fn the_longest_lists_of_up_to_4_bits_are_as_computed() {
    for width in 1..=4 {
        let herds = every_herd(width);
        let all = [0, largest_key(width)];
        check_all(&Longest::any(width, 16), width, &herds, all);
        for length in 1..=width {
            let free = width - length;
            for stem in 0..=largest_key(length) {
                let [first, last] = [stem << free, ((stem + 1) << free) - 1];
                let stem = bits(stem, length);
                let after = Longest::after(&stem, Longest::any(free, 16));
                check_all(&after, width, &herds, [first, last]);
                let up_to = Longest::up_to(&stem, free, 16);
                check_all(&up_to, width, &herds, [0, last]);
            }
        }
    }
}

#[test]
fn a_herd_at_every_width_has_the_longest_list_computed() {
    for width in 1..=64 {
        let longest = Longest::any(width, 100);
        let asked = [0, 1, 2, 3, 4, 7, 10, 31, 100];
        for held in asked
            .into_iter()
            .filter(|&held| held < longest.most().len())
        {
            let ends = [0, largest_key(width)];
            check_herds(&longest, width, held, ends, &format!("W {width}"));
        }
    }
}

/// Checks that the herds built have tags of 15 digits alone, of these countries.
fn check_tags(longest: &Longest, held: usize, countries: RangeInclusive<u64>) {
    for key in PARTINGS.map(|parting| longest.herd(held, parting)).concat() {
        let (number, fields) = unpack(key);
        let tag = Fields {
            animal_flag: 1,
            country: fields.country,
            national_number: fields.national_number,
            ..Fields::default()
        };
        assert_eq!((number, fields), (0, tag), "{held} tags");
        assert!(countries.contains(&fields.country), "{held} tags");
    }
}

#[test]
fn herds_of_tags_have_the_longest_list_computed() {
    let (any, tags) = (Longest::any(64, 400), Longest::tags(400));
    let tags_of = Longest::tags_of(826, 400);
    for held in [0, 1, 2, 3, 4, 7, 64, 96, 101, 400] {
        check_herds(&any, 64, held, [0, u64::MAX], "any keys");
        check_herds(&tags, 64, held, [0, u64::MAX], "tags");
        check_herds(&tags_of, 64, held, [0, u64::MAX], "tags of 826");
        check_tags(&tags, held, 0..=999);
        check_tags(&tags_of, held, 826..=826);
        let most = [&tags_of, &tags, &any].map(|kind| kind.most()[held]);
        assert!(most.is_sorted(), "{held} keys: {most:?}");
    }
}

#[test]
fn twelve_keys_part_unevenly_or_evenly() {
    let longest = Longest::any(64, 12);
    let zeros = PARTINGS.map(|parting| {
        let keys = longest.herd(12, parting);
        keys.iter().filter(|&&key| key >> 63 == 0).count()
    });
    assert_eq!(zeros, [4, 6]);
}

#[test]
fn the_longest_lists_computed_keep_the_bound_and_reach_it_up_to_two_keys() {
    for width in 1..=64 {
        let longest = Longest::any(width, 300);
        for (held, &most) in longest.most().iter().enumerate().skip(1) {
            let bound = most_entries(width, held);
            assert!(most <= bound, "W {width}, {held} keys");
            assert_eq!(most == bound, held <= 2, "W {width}, {held} keys");
        }
    }
}
