//! The longest leaf lists that herds can have, and herds that have them: computed
//! over the paper's tree, bit by bit from the last.

use crate::bits::bits;
use crate::random::tags::tag;
use crate::tag_code::HIGHEST_COUNTRY;
use std::rc::Rc;

/// Bits of the national number, the last of a code.
const NATIONAL_BITS: usize = 38;

/// Which of the herds with the longest list: how many keys go on with 0 where
/// several numbers of them give as many entries.
#[derive(Clone, Copy, Debug, PartialEq, Eq)]
pub enum Parting {
    /// As few as can be.
    FewZeros,
    /// As near to half of the keys as can be.
    Even,
}

/// Keys that may be held, or what may follow the first bits of a key: how long
/// the lists of herds of them get.
#[derive(Debug)]
pub struct Longest {
    /// The most leaf entries of 0 keys, of 1, and so on.
    most: Vec<usize>,
    /// What may follow a 0 and what a 1; nothing after the last bit.
    next: Option<[Rc<Longest>; 2]>,
}

impl Longest {
    /// Any keys of `width` bits, in herds of up to `held`.
    pub fn any(width: usize, held: usize) -> Rc<Longest> {
        let no_bits = Longest::last(held.min(1));
        (0..width).fold(no_bits, |rest, _| Longest::joined(&rest, &rest, held))
    }

    /// Keys that all begin with these bits; `rest` is what may follow.
    pub fn after(stem: &[bool], rest: Rc<Longest>) -> Rc<Longest> {
        let (none, held) = (Longest::last(0), rest.most.len() - 1);
        stem.iter().rev().fold(rest, |rest, &bit| match bit {
            true => Longest::joined(&none, &rest, held),
            false => Longest::joined(&rest, &none, held),
        })
    }

    /// Keys whose first bits are at most this limit; so many bits, which may be
    /// any, follow.
    pub fn up_to(limit: &[bool], free: usize, held: usize) -> Rc<Longest> {
        let none = Longest::last(0);
        let mut any = Longest::any(free, held);
        let mut limited = any.clone();
        for &bit in limit.iter().rev() {
            limited = match bit {
                // What follows a 0 here may be any bits.
                true => Longest::joined(&any, &limited, held),
                false => Longest::joined(&limited, &none, held),
            };
            any = Longest::joined(&any, &any, held);
        }
        limited
    }

    /// Tags of 15 digits of any country, in herds of up to `held`: flag 1 and
    /// 15 bits 0 stand before the country.
    pub fn tags(held: usize) -> Rc<Longest> {
        let countries = Longest::up_to(&bits(HIGHEST_COUNTRY, 10), NATIONAL_BITS, held);
        Longest::after(&bits(tag(0, 0) >> 48, 16), countries)
    }

    /// Tags of 15 digits of this country, in herds of up to `held`.
    pub fn tags_of(country: u64, held: usize) -> Rc<Longest> {
        let stem = bits(tag(country, 0) >> NATIONAL_BITS, 64 - NATIONAL_BITS);
        Longest::after(&stem, Longest::any(NATIONAL_BITS, held))
    }

    /// The most leaf entries of any herd of 0 keys, of 1, and so on up to as many
    /// as were asked for, or as there are.
    pub fn most(&self) -> &[usize] {
        &self.most
    }

    /// The keys of a herd of so many that has the longest list, in ascending order.
    pub fn herd(&self, held: usize, parting: Parting) -> Vec<u64> {
        let mut keys = Vec::new();
        self.add_keys(0, held, parting, &mut keys);
        keys
    }

    /// Adds so many keys that begin with the bits of `stem`.
    fn add_keys(&self, stem: u64, held: usize, parting: Parting, keys: &mut Vec<u64>) {
        if held == 0 {
            return;
        }
        let Some([low, high]) = &self.next else {
            keys.push(stem);
            return;
        };
        let longest = |zeros: &usize| entries(low, high, *zeros, held) == self.most[held];
        let mut choices = zeros(low, high, held).filter(longest);
        let choice = match parting {
            Parting::FewZeros => choices.next(),
            Parting::Even => choices.min_by_key(|zeros| zeros.abs_diff(held - zeros)),
        };
        let zeros = choice.expect("a choice");
        low.add_keys(stem << 1, zeros, parting, keys);
        high.add_keys((stem << 1) | 1, held - zeros, parting, keys);
    }

    /// Nothing more of a key, and at most so many such: 1, or 0 where no key may
    /// stand.
    fn last(held: usize) -> Rc<Longest> {
        Rc::new(Longest {
            most: vec![1; 1 + held],
            next: None,
        })
    }

    /// Keys of one bit more, if `low` may follow a 0 and `high` a 1.
    fn joined(low: &Rc<Longest>, high: &Rc<Longest>, held: usize) -> Rc<Longest> {
        let all = low.most.len() - 1 + high.most.len() - 1;
        let most = |keys| {
            let lists = zeros(low, high, keys).map(|zeros| entries(low, high, zeros, keys));
            lists.max().expect("so many keys")
        };
        Rc::new(Longest {
            most: (0..=held.min(all)).map(most).collect(),
            next: Some([low.clone(), high.clone()]),
        })
    }
}

/// How many of so many keys may go on with 0.
fn zeros(low: &Longest, high: &Longest, held: usize) -> impl Iterator<Item = usize> {
    let (lows, highs) = (low.most.len() - 1, high.most.len() - 1);
    held.saturating_sub(highs)..=held.min(lows)
}

/// The most entries if so many of the keys go on with 0: those of both sides, and
/// before two keys or more that all go on with 1 the dummy that is the list of no
/// keys.
fn entries(low: &Longest, high: &Longest, zeros: usize, held: usize) -> usize {
    match (zeros, held - zeros) {
        (_, 0) => low.most[zeros],
        (0, 1) => high.most[1],
        (_, ones) => low.most[zeros] + high.most[ones],
    }
}
