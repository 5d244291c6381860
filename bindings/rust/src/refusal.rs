//! Why a call was declined.

use std::error::Error;
use std::fmt;

/// Why a call, or a movement of a load, was declined. It has changed nothing.
///
/// Where more than one reason applies, a call answers the first in the order 9,
/// 11, 1, 2, 3, 4, 5, 6, 8, 7.
///
/// ```
/// use rulgovaz::Refusal;
///
/// assert_eq!(Refusal::KeyNotHeld.number(), 6);
/// assert_eq!(Refusal::from_number(6), Some(Refusal::KeyNotHeld));
/// assert_eq!(Refusal::KeyNotHeld.to_string(), "this tag is not in the index");
/// ```
#[derive(Clone, Copy, Debug, PartialEq, Eq, Hash)]
pub enum Refusal {
    /// 1: the tables are not sound.
    NotSound = 1,
    /// 2: a key has more bits than the index was made for.
    KeyTooWide = 2,
    /// 3: the record is at or past the register's length.
    NoSuchRecord = 3,
    /// 4: the record is in use.
    RecordInUse = 4,
    /// 5: the key is held, on another record.
    KeyHeld = 5,
    /// 6: the key is not held.
    KeyNotHeld = 6,
    /// 7: more pages would be in use than there are.
    OutOfPages = 7,
    /// 8: the root would stand above level 15.
    RootTooHigh = 8,
    /// 9: a size of the index is outside its limits, or a table's length does
    /// not fit.
    OutsideLimits = 9,
    /// 11: the country is above 999, or another field of a tag is too large.
    BadTag = 11,
}

impl Refusal {
    /// Every refusal, in the order of the numbers.
    pub const ALL: [Refusal; 10] = [
        Refusal::NotSound,
        Refusal::KeyTooWide,
        Refusal::NoSuchRecord,
        Refusal::RecordInUse,
        Refusal::KeyHeld,
        Refusal::KeyNotHeld,
        Refusal::OutOfPages,
        Refusal::RootTooHigh,
        Refusal::OutsideLimits,
        Refusal::BadTag,
    ];

    /// The number that the library answers.
    pub fn number(self) -> u32 {
        self as u32
    }

    /// The refusal with this number, if there is one.
    pub fn from_number(number: u32) -> Option<Refusal> {
        Refusal::ALL
            .into_iter()
            .find(|refusal| refusal.number() == number)
    }

    /// An answer number of the library: done, or why not.
    pub(crate) fn done(number: u32) -> Result<(), Refusal> {
        if number == 0 {
            return Ok(());
        }
        match Refusal::from_number(number) {
            Some(refusal) => Err(refusal),
            None => unreachable!("the library answered {number}, which no call may"),
        }
    }
}

impl fmt::Display for Refusal {
    fn fmt(&self, to: &mut fmt::Formatter<'_>) -> fmt::Result {
        to.write_str(match self {
            Refusal::NotSound => "the index is damaged; nothing was looked up or changed",
            Refusal::KeyTooWide => "this tag has more bits than the index was made for",
            Refusal::NoSuchRecord => "there is no record with this number",
            Refusal::RecordInUse => "this record already belongs to a tag",
            Refusal::KeyHeld => "this tag is already in the index, on another record",
            Refusal::KeyNotHeld => "this tag is not in the index",
            Refusal::OutOfPages => "the index is too full to take this tag",
            Refusal::RootTooHigh => {
                "the index cannot grow high enough for this tag; it needs larger pages"
            }
            Refusal::OutsideLimits => "an index of this size cannot be made in these tables",
            Refusal::BadTag => {
                "this is not a tag: its country is above 999, or another part is too large"
            }
        })
    }
}

impl Error for Refusal {}
