//! The table that is printed of a kind of herds if this library is compared with an
//! earlier one.

use crate::both::{changes, reads, Both, Change};
use crate::cuts::{cuts, Cuts};
use crate::herd::{Herd, Tags, WIDTH};
use crate::measure::{Read, LISTED, READS};
use crate::report::{nanos, row};
use crate::rounds::Median;
use std::time::Duration;

const METHOD: &str = "\
This library beside an earlier one, both as copies whose check answers at once that the tables are sound. Tables are
made at once, as if one long row were cut into pages, not by a history of on and off. Other keys are tags made the same
way (of lots: of other lots). Within a round the two libraries take turns, in random order, with the same keys on
tables of their own: 256 finds or lists in a row; or 16 keys are put on in a row and then taken off; or 16 held keys
are taken off in a row and then put on. These three have rounds of their own, the first for as long as the others
together. Tables are equal at the start, and those that are changed are so again after 64 rounds; then, or before a
round of reading, the libraries exchange them. A round in which an on finds no page (7) is left out. Times are medians
over the quarter of the rounds that took least, and a ratio is the median of the ratios within them; brackets show the
interval of the median (95 in 100). With on and off these are rounds whose keys cut and merge few pages. So the mean of
all rows of 16 follows: each comes again and again on the same tables, and the least of its times counts. Ons that cut
a page, which are those that take a free one, have rounds of their own too, for a third as long as reading, with as
many ons that cut none: up to 16 keys in a row, each put on another herd of the kind and size, by both libraries on the
same tables. A library does each row twice, and the second time counts; each time what the row changed is written back.
Functions stand at multiples of 64 bytes, but where else the linker puts them may still count: what a library compared
with itself shows tells how much.";

/// Prints what was done, with pages of E entries.
pub fn print_method(entries: usize) {
    println!("W {WIDTH}, E {entries}, P a quarter above the pages in use.\n{METHOD}");
}

/// What was measured of herds with such tags, each herd in its place.
pub struct Comparison<'a> {
    tags: Tags,
    records: &'a [usize],
    read: Vec<[Both; READS.len()]>,
    changed: Vec<[[Change; 2]; 2]>,
    /// None where no key was found whose on cuts a page.
    cut: Vec<Option<Cuts>>,
}

impl Comparison<'_> {
    /// Measures herds of so many records, each for so long, and changed as long, and
    /// a third of it ons that cut.
    pub fn new(tags: Tags, entries: usize, records: &[usize], each: Duration) -> Comparison<'_> {
        let herd = |&records: &usize| Herd {
            tags,
            entries,
            records,
        };
        let read = |records| reads(herd(records), each);
        let change = |records| changes(herd(records), each);
        let cut = |records| cuts(herd(records), each / 3);
        Comparison {
            tags,
            records,
            read: records.iter().map(read).collect(),
            changed: records.iter().map(change).collect(),
            cut: records.iter().map(cut).collect(),
        }
    }

    /// Prints the table.
    pub fn print(&self) {
        println!("\n{}\n", self.tags.name());
        row("records, all held", self.records, usize::to_string);
        let list = format!("list, at most {LISTED} records from a held key on");
        self.print_read("find of a held key", Read::Held);
        self.print_read("find of another key", Read::Other);
        self.print_read(&list, Read::List);
        self.print_change("on of a key not held at the start", [0, 0]);
        self.print_change("off of the same key, taken off again", [0, 1]);
        self.print_change("off of a key held at the start", [1, 0]);
        self.print_change("on of the same key, put on again", [1, 1]);
        self.print_cut("on that cuts a page, on other herds of the kind", 0);
        self.print_cut("on that cuts none, on the same", 1);
        println!();
        row("keys that cut, of those tried", &self.cut, |m| {
            or_dash(m, |m| format!("{} of {}", m.keys, m.tried))
        });
    }

    fn print_read(&self, what: &str, read: Read) {
        let herds = self.read.iter().map(|reads| Some(&reads[read as usize]));
        print_both(what, herds.collect());
    }

    fn print_change(&self, what: &str, [keys, which]: [usize; 2]) {
        let herds = self.changed.iter();
        print_with_means(what, herds.map(|m| Some(&m[keys][which])).collect());
    }

    fn print_cut(&self, what: &str, kind: usize) {
        let herds = self.cut.iter().map(Option::as_ref);
        print_with_means(what, herds.map(|m| m.map(|m| &m.ons[kind])).collect());
    }
}

/// What is said of a measure, if there is one.
fn or_dash<T>(measure: &Option<T>, cell: impl Fn(&T) -> String) -> String {
    measure.as_ref().map_or("-".to_string(), cell)
}

/// Prints an on or an off of both libraries, with a measure of each herd.
fn print_with_means(what: &str, herds: Vec<Option<&Change>>) {
    print_both(what, herds.iter().map(|m| m.map(|m| &m.quiet)).collect());
    let [before, now] = [0, 1];
    let mean = |m: &Option<&Change>, place: usize| or_dash(m, |m| format!("{:.0}", m.means[place]));
    row("mean of the earlier library, ns", &herds, |m| {
        mean(m, before)
    });
    row("mean of this library, ns", &herds, |m| mean(m, now));
    row("ratio of the means", &herds, |m| {
        or_dash(m, |m| format!("{:.2}", m.means[now] / m.means[before]))
    });
}

/// A ratio with the interval of the median.
pub fn ratio(median: Median) -> String {
    let Median { value, low, high } = median;
    format!("{value:.2} [{low:.2}, {high:.2}]")
}

/// Prints a call of both libraries, with a measure of each herd.
fn print_both(what: &str, herds: Vec<Option<&Both>>) {
    println!("\n{what}");
    row("earlier library, ns", &herds, |m| {
        or_dash(m, |m| nanos(m.before))
    });
    row("this library, ns", &herds, |m| or_dash(m, |m| nanos(m.now)));
    row("this / earlier", &herds, |m| or_dash(m, |m| ratio(m.ratio)));
}
