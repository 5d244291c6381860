//! Prints how long the calls take on two kinds of herds, beside a memcmp or memset
//! of the same bytes and `BTreeMap`'s get, range, insert and remove; then how long a
//! load of forty takes, beside forty calls. The arguments, if given, are the seconds
//! for reading each herd, and as many for changing it, and for loads, and E. If an
//! earlier library is linked too, prints how long find, list, on and off of both
//! take, and ons that cut a page, in place of the first.

mod aligned;
mod both;
mod change;
mod comparison;
mod cuts;
mod empty;
mod herd;
mod least;
mod library;
mod load;
mod lorry;
mod measure;
mod report;
mod rounds;
mod side;
mod turns;

use comparison::Comparison;
use herd::Tags;
use report::Report;
use std::ops::RangeInclusive;
use std::time::Duration;

const RECORDS: [usize; 4] = [100, 1_000, 4_096, 60_000];

/// Those of the herds to which lorries come: forty are few beside them.
const LOADED: [usize; 3] = [1_000, 4_096, 60_000];

/// Seconds, if none are given.
const SECONDS: u64 = 3;

/// E, if none is given: that of the day book.
const ENTRIES: u64 = 60;

/// The argument, or else what is usual.
fn number(argument: Option<String>, usual: u64, allowed: RangeInclusive<u64>) -> u64 {
    let number = argument.map_or(Ok(usual), |given| given.parse());
    let number = number.expect("a number");
    assert!(allowed.contains(&number), "a number in {allowed:?}");
    number
}

fn main() {
    let mut arguments = std::env::args().skip(1);
    let seconds = number(arguments.next(), SECONDS, 1..=3_600);
    let entries = number(arguments.next(), ENTRIES, 2..=255) as usize;
    let each = Duration::from_secs(seconds);
    if cfg!(feature = "before") {
        comparison::print_method(entries);
    } else {
        report::print_method(entries);
    }
    for tags in [Tags::Scattered, Tags::Lots] {
        if cfg!(feature = "before") {
            Comparison::new(tags, entries, &RECORDS, each).print();
        } else {
            Report::new(tags, entries, &RECORDS, each).print();
        }
    }
    load::print_method();
    for tags in [Tags::Scattered, Tags::Lots] {
        load::print(tags, entries, &LOADED, each);
    }
}
