//! What a call answers.

use crate::table::LAYOUT;

/// The answer of format, on, off, find, list and load.
#[derive(Clone, Copy, Debug, PartialEq, Eq)]
pub struct Answer {
    /// 0 if the call is done, else the number of the row that declines it.
    pub number: u32,
    /// The record of a find that is done.
    pub record: u32,
    /// How many records a list wrote.
    pub count: u64,
    /// Whether more remain to be listed.
    pub more: bool,
}

impl Answer {
    /// "A refusal returns its number with count 0, nothing remaining and record
    /// 65,535."
    pub fn refusal(number: u32) -> Answer {
        Answer {
            number,
            record: LAYOUT.nil(),
            count: 0,
            more: false,
        }
    }

    /// "A done call returns 0, and parts of the answer that it doesn't set
    /// stand as in a refusal."
    pub fn done() -> Answer {
        Answer::refusal(0)
    }

    /// The answer of a find that is done.
    pub fn found(record: u32) -> Answer {
        Answer {
            record,
            ..Answer::done()
        }
    }

    /// The answer of a list that wrote `count` of `all` records.
    pub fn listed(count: usize, all: usize) -> Answer {
        Answer {
            count: count as u64,
            more: all > count,
            ..Answer::done()
        }
    }
}
