//! Ons that cut a page, and ons that cut none, of two libraries, this one and an
//! earlier one. An off does not undo a cut, so what an on changes is written back.

use crate::both::{changed, Change};
use crate::change::IN_A_ROW;
use crate::herd::Herd;
use crate::least::{Least, Times};
use crate::library::check;
use crate::rounds::{quiet_rounds, time};
use crate::side::{order, Library, Tag, LIBRARIES};
use model::random::Random;
use model::table::{header, Tables, HEADER_BYTES, LAYOUT};
use std::hint::black_box;
use std::ops::Range;
use std::time::Duration;

/// How many herds are tried at most: where pages are few, there may be no full one.
const HERDS_TRIED: u64 = 64;

/// How many keys of a herd are tried at most.
const KEYS_TRIED: usize = 1024;

/// How many keys of a herd are put on at most, of either kind, and how many rows
/// there are before the same come again.
const ROWS: usize = 64;

/// How many rows are put on once before the rounds, to see that the ons do what they
/// are measured for.
const ROWS_TESTED: usize = 4;

/// Which ons: those that cut a page, and those that cut none.
const KINDS: [usize; 2] = [0, 1];

/// A key that is not held at the start, with its record.
struct Other {
    tag: Tag,
    /// The bytes of the pages that its on changes.
    pages: Vec<Range<usize>>,
}

impl Other {
    /// Writes back what the on changes.
    fn put_back(&self, tables: &mut Tables, start: &Tables) {
        let header = 0..HEADER_BYTES;
        for bytes in self.pages.iter().chain([&header]) {
            let from = &start.index[bytes.clone()];
            tables.index[bytes.clone()].copy_from_slice(from);
        }
        let record = self.tag.1 as usize;
        tables.keys[record] = start.keys[record];
        tables.used[record] = start.used[record];
    }
}

/// A herd and keys of each kind.
struct Place {
    tables: Tables,
    /// The tables as they are at the start.
    start: Tables,
    keys: [Vec<Other>; KINDS.len()],
}

impl Place {
    /// Another herd of this kind and size, with keys that were tried, and how many.
    fn new(herd: Herd, number: u64) -> (Place, usize) {
        let mut random = Random::new(number << 32 | herd.records as u64);
        let mut held = herd.tags(&mut random, herd.records + KEYS_TRIED);
        let others = held.split_off(herd.records);
        let start = herd.tables(&held, 1);
        assert!(check(&start), "the tables are sound");
        let mut place = Place {
            tables: start.clone(),
            start,
            keys: [vec![], vec![]],
        };
        let mut tried = 0;
        while tried < KEYS_TRIED && place.keys[0].len() < ROWS {
            place.try_on((others[tried], herd.records as u32));
            tried += 1;
        }
        place.keys[1].truncate(ROWS);
        (place, tried)
    }

    /// Tries of which kind the key is; none if it is declined. An on that cuts a page
    /// takes a free one, which has no entry.
    fn try_on(&mut self, tag: Tag) {
        let answer = Library::Now.on(&mut self.tables, tag);
        let pages = self.changed_pages();
        let is_free = |page: &Range<usize>| self.start.index[page.start + 1] == 0;
        let kind = usize::from(!pages.iter().any(is_free));
        let other = Other { tag, pages };
        other.put_back(&mut self.tables, &self.start);
        if answer.number == 0 {
            self.keys[kind].push(other);
        }
    }

    /// The bytes of the pages that are not as at the start.
    fn changed_pages(&self) -> Vec<Range<usize>> {
        let [start, now] = [&self.start.index, &self.tables.index];
        let size = LAYOUT.page_bytes(header(start).entries);
        let pages = (HEADER_BYTES..start.len()).step_by(size);
        let pages = pages.map(|page| page..page + size);
        pages
            .filter(|page| start[page.clone()] != now[page.clone()])
            .collect()
    }

    fn has_both(&self) -> bool {
        self.keys.iter().all(|keys| !keys.is_empty())
    }

    fn key(&self, kind: usize, row: usize) -> &Other {
        let keys = &self.keys[kind];
        &keys[row % keys.len()]
    }

    fn put_back(&mut self, kind: usize, row: usize) {
        let keys = &self.keys[kind];
        keys[row % keys.len()].put_back(&mut self.tables, &self.start);
    }

    /// The tables with the key of a row, which are sound; then it is put back.
    fn test(&mut self, library: Library, kind: usize, row: usize) -> Tables {
        let tag = self.key(kind, row).tag;
        assert_eq!(library.on(&mut self.tables, tag).number, 0);
        assert!(check(&self.tables), "the tables are sound with the key");
        let with = self.tables.clone();
        self.put_back(kind, row);
        assert!(self.tables == self.start, "all is written back");
        with
    }
}

/// Herds of one kind and size, each with tables of its own.
struct Cutting {
    places: Vec<Place>,
    least: Least,
}

impl Cutting {
    /// The keys of a row do what they are measured for.
    fn test(&mut self, row: usize) {
        for place in &mut self.places {
            for kind in KINDS {
                let [before, now] = LIBRARIES.map(|library| place.test(library, kind, row));
                assert!(before == now, "both libraries leave the same tables");
            }
        }
    }

    /// Nanoseconds of one of a row's ons, each on the tables of another herd. What they
    /// change is written back.
    fn once(&mut self, library: Library, kind: usize, row: usize) -> f64 {
        let tags = self.places.iter().map(|place| place.key(kind, row).tag);
        let tags: Vec<Tag> = tags.collect();
        let nanos = time(0, tags.len(), |number| {
            let tables = &mut self.places[number].tables;
            black_box(library.on(tables, black_box(tags[number])));
        });
        for place in &mut self.places {
            place.put_back(kind, row);
        }
        nanos
    }

    /// The same, where the library did the same just before, not timed: else the one
    /// that comes first would find the tables in no near cache.
    fn row(&mut self, library: Library, kind: usize, row: usize) -> f64 {
        self.once(library, kind, row);
        self.once(library, kind, row)
    }

    /// One round, of a row of each kind by each library.
    fn round(&mut self, number: usize) -> [Times; KINDS.len()] {
        let mut random = Random::new(number as u64);
        let times = KINDS.map(|kind| {
            let mut times = [0.0; 2];
            for place in order(&mut random) {
                times[place] = self.row(LIBRARIES[place], kind, number % ROWS);
            }
            times
        });
        self.least.add(number, times);
        times
    }
}

/// What was measured of ons.
pub struct Cuts {
    /// How many keys whose on cuts were put on.
    pub keys: usize,
    /// How many were tried to find them.
    pub tried: usize,
    /// The ons that cut a page, and those that cut none.
    pub ons: [Change; KINDS.len()],
}

/// Herds like this one that have keys of both kinds, and how many keys were tried.
fn places(herd: Herd) -> (Vec<Place>, usize) {
    let mut places: Vec<Place> = Vec::new();
    let mut tried = 0;
    for number in 1..=HERDS_TRIED {
        if places.len() < IN_A_ROW {
            let (place, keys) = Place::new(herd, number);
            tried += keys;
            places.extend(Some(place).filter(Place::has_both));
        }
    }
    (places, tried)
}

/// Measures ons on herds like this one for so long, if any has keys of both kinds.
pub fn cuts(herd: Herd, how_long: Duration) -> Option<Cuts> {
    let (places, tried) = places(herd);
    if places.is_empty() {
        return None;
    }
    let keys = places.iter().map(|place| place.keys[0].len()).sum();
    let least = Least::new(ROWS);
    let mut cutting = Cutting { places, least };
    (0..ROWS_TESTED).for_each(|row| cutting.test(row));
    let rounds = quiet_rounds(how_long, |number| Some(cutting.round(number)));
    let ons = changed(&rounds, &cutting.least);
    Some(Cuts { keys, tried, ons })
}
