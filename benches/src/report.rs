//! The table that is printed of a kind of herds.

use crate::change::changes;
use crate::empty::{formats, Formats};
use crate::herd::{Herd, Tags, WIDTH};
use crate::measure::{measure, Measures, Read, LISTED};
use crate::rounds::{Beside, Median};
use crate::turns::{in_turn, HERDS};
use std::time::Duration;

const METHOD: &str = "\
Tables are made at once, as if one long row were cut into pages, not by a history of on and off. Other keys are tags
made the same way (of lots: of other lots). Times are medians over the quarter of the rounds that took least. A round
times every measure once, close together, about 20 us of calls each (one call where it takes longer), check, find and
list in random order. A ratio to memcmp or memset is the median of the ratios within rounds, and a row that is less
check that of the differences; brackets show the interval of the median (95 in 100). Such a row is a small difference
of large numbers: where the interval is wider than half its value, no ratio is shown. A row without check is measured
with a copy of the library whose check answers at once that the tables are sound, many calls in a row, as gets and
ranges are: both have caches and branch prediction to themselves. Behind a check, gets and ranges find them as a find
or a list does. A list goes from a held key to the largest, with room for 32 records; the range takes as many. On and
off have rounds of their own, on tables with 16 free records: a key is put on and taken off again, each call timed
alone, and less a check of the same tables. Checks and what is compared with them come in random order. Ons without
check, inserts, and then offs and removes, run 16 in a row, and such rows are rounds of their own too, for a third of
the time. A round in which an on finds no page (7) is left out. Format has rounds of its own, for a sixth of the time,
on tables of the same size, in turn with zeros over the same bytes; it is the whole call, which has no check. The
check of the tables that it leaves, as many bytes with one entry, is measured there too. The check of eight herds in
turn has rounds of its own as well, as long: the others check one herd again and again, and we take it that the
processor learns it.";

/// Prints what was done, with pages of E entries.
pub fn print_method(entries: usize) {
    println!("W {WIDTH}, E {entries}, P a quarter above the pages in use.\n{METHOD}");
}

/// What was measured of herds with such tags, each herd in its place.
pub struct Report {
    tags: Tags,
    herds: Vec<Measures>,
    in_turn: Vec<Median>,
    changed: Vec<[Beside; 2]>,
    formatted: Vec<Formats>,
}

impl Report {
    /// Measures herds of so many records, each for so long.
    pub fn new(tags: Tags, entries: usize, records: &[usize], each: Duration) -> Report {
        let herd = |&records: &usize| Herd {
            tags,
            entries,
            records,
        };
        let read = |records| measure(herd(records), each);
        let herds: Vec<Measures> = records.iter().map(read).collect();
        let turn = |records| in_turn(herd(records), each / 6);
        let in_turn = records.iter().map(turn).collect();
        let change = |records| changes(herd(records), each);
        let changed = records.iter().map(change).collect();
        let format = |herd: &Measures| formats(&herd.size, each / 6);
        Report {
            tags,
            in_turn,
            changed,
            formatted: herds.iter().map(format).collect(),
            herds,
        }
    }

    /// Prints the table.
    pub fn print(&self) {
        println!("\n{}\n", self.tags.name());
        print_sizes(&self.herds);
        println!();
        print_check(&self.herds);
        let name = format!("check of {HERDS} herds in turn, us");
        row(&name, &self.in_turn, |&median| micros(median));
        let reads = |what| self.herds.iter().map(|herd| herd.read(what)).collect();
        print_call("held key", "find", "get", reads(Read::Held));
        print_call("other key", "find", "get", reads(Read::Other));
        let what = format!("at most {LISTED} records from a held key on");
        print_call(&what, "list", "range", reads(Read::List));
        let changes = |which: usize| self.changed.iter().map(|both| &both[which]).collect();
        print_call("other key put on", "on", "insert", changes(0));
        print_call("and taken off", "off", "remove", changes(1));
        println!();
        print_format(&self.formatted);
    }
}

/// Prints a row: its name, and a cell for each herd.
pub fn row<T>(name: &str, herds: &[T], cell: impl Fn(&T) -> String) {
    let cells = herds.iter().map(|herd| format!(" {:>22}", cell(herd)));
    println!("{name:<38}{}", cells.collect::<String>());
}

/// So many for each held record.
fn each(total: usize, herd: &Measures) -> String {
    format!("{:.2}", total as f64 / herd.records as f64)
}

/// Nanoseconds as microseconds.
pub fn micros(median: Median) -> String {
    format!("{:.3}", median.value / 1e3)
}

/// Nanoseconds with the interval of the median.
pub fn nanos(median: Median) -> String {
    let Median { value, low, high } = median;
    format!("{value:.0} [{low:.0}, {high:.0}]")
}

/// The ratio, where both are known well enough.
fn ratio(one: Median, other: Median) -> String {
    if one.is_known() && other.is_known() {
        format!("{:.2}", one.value / other.value)
    } else {
        "-".to_string()
    }
}

fn print_sizes(herds: &[Measures]) {
    row("records, all held", herds, |m| m.records.to_string());
    row("entries of level 0 for each", herds, |m| {
        each(m.size.leaves, m)
    });
    row("pages in use", herds, |m| m.size.pages.to_string());
    row("root level", herds, |m| m.size.level.to_string());
    row("bytes of pages in use for each", herds, |m| {
        each(m.size.page_bytes(), m)
    });
    row("bytes of the index table for each", herds, |m| {
        each(m.size.index_bytes(), m)
    });
    row("bytes of the three tables for each", herds, |m| {
        each(m.size.bytes(), m)
    });
    row("bytes of the three tables", herds, |m| {
        m.size.bytes().to_string()
    });
}

fn print_check(herds: &[Measures]) {
    row("rounds kept", herds, |m| m.rounds.to_string());
    row("memcmp of these bytes, us", herds, |m| micros(m.memcmp));
    row("check, us", herds, |m| micros(m.check));
    row("check / memcmp", herds, |m| {
        format!("{:.2}", m.over_memcmp.value)
    });
    row("check for each held record, ns", herds, |m| {
        format!("{:.2}", m.check.value / m.records as f64)
    });
    row("check for each entry of level 0, ns", herds, |m| {
        format!("{:.2}", m.check.value / m.size.leaves as f64)
    });
}

/// Prints a call beside that of the map, with a measure of each herd.
fn print_call(what: &str, call: &str, of_map: &str, herds: Vec<&Beside>) {
    println!("\n{what}");
    let name = |name: &str| name.replace("CALL", call).replace("MAP", of_map);
    row(&name("CALL, us"), &herds, |m| micros(m.call));
    row(&name("CALL less check, ns"), &herds, |m| nanos(m.above));
    row(&name("CALL without check, ns"), &herds, |m| nanos(m.alone));
    row(&name("BTreeMap::MAP, ns"), &herds, |m| nanos(m.map));
    row(&name("check and MAP, less check, ns"), &herds, |m| {
        nanos(m.behind)
    });
    row(&name("CALL without check / MAP"), &herds, |m| {
        ratio(m.alone, m.map)
    });
    row(&name("CALL less check / MAP"), &herds, |m| {
        ratio(m.above, m.map)
    });
    row(&name("CALL less check / MAP behind a check"), &herds, |m| {
        ratio(m.above, m.behind)
    });
}

fn print_format(herds: &[Formats]) {
    row("format, us", herds, |m| micros(m.format));
    row("memset of these bytes, us", herds, |m| micros(m.memset));
    row("format / memset", herds, |m| {
        format!("{:.2}", m.over_memset.value)
    });
    row("check of these tables, empty, us", herds, |m| {
        micros(m.check)
    });
}
