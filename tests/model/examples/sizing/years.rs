//! Herds that are sold down year by year, with merging and without it.

use crate::{fill, MOST_RECORDS};
use model::index::Index;
use model::pages::lowered;
use model::random::tags::{lot, tag};
use model::random::Random;

/// Who comes to market next: what it is called, and the tags that come.
type Comers = (&'static str, fn(&mut Random) -> Vec<u64>);

const COMERS: [Comers; 2] = [
    ("lots of holdings, lot by lot", lot),
    ("scattered national numbers of one country", |random| {
        vec![tag(826, random.number() % (1 << 38))]
    }),
];

/// A herd that grows by lots or single tags, and is sold one by one.
struct Market {
    random: Random,
    index: Index,
    /// Each held key with its record.
    held: Vec<(u64, u64)>,
    free: Vec<u64>,
    merging: bool,
    most_pages: usize,
}

impl Market {
    fn new(seed: u64, (e, p): (usize, usize), records: usize, merging: bool) -> Market {
        Market {
            random: Random::new(seed),
            index: Index::empty(64, e, p, records),
            held: Vec::new(),
            free: (0..records as u64).rev().collect(),
            merging,
            most_pages: 1,
        }
    }

    fn pages(&self) -> usize {
        self.index.root.pages().len()
    }

    /// Puts tags on until so many are held; the row if one is declined by 7
    /// before, and tags that are held already are passed over.
    fn grow(&mut self, comers: fn(&mut Random) -> Vec<u64>, peak: usize) -> Option<u32> {
        while self.held.len() < peak {
            for key in comers(&mut self.random) {
                if self.held.len() == peak {
                    break;
                }
                let record = *self.free.last().expect("a free record");
                match self.index.on(key, record) {
                    Ok(()) => self.held.push((key, record)),
                    Err(5) => continue,
                    Err(row) => return Some(row),
                }
                self.free.pop();
            }
            self.most_pages = self.most_pages.max(self.pages());
        }
        None
    }

    /// Sells one by one, at random, until so many are left. Without merging,
    /// an off does all else that it does.
    fn sell(&mut self, left: usize) {
        while self.held.len() > left {
            let at = self.random.below(self.held.len());
            let (key, record) = self.held.swap_remove(at);
            if self.merging {
                self.index.off(key).expect("a held key");
            } else {
                self.index.root = lowered(self.index.taken_out(key));
                self.index.register[record as usize] = None;
            }
            self.free.push(record);
        }
    }
}

/// Four years of a herd that grows to its peak, and of which all but a tenth
/// is sold before it grows again: pages in use with merging and without it.
pub fn years() {
    println!("## Grown to a peak and sold one by one to a tenth, four years running: pages in use");
    println!("| herd | peak | E | at the first peak | after the last sales: with merging | without | rebuilt in key order | most ever: with merging | without |");
    println!("|---|---:|---:|---:|---:|---:|---:|---:|---:|");
    for (name, comers) in COMERS {
        for (peak, e) in [1_000, 2_000, 4_000]
            .map(|peak| [(peak, 60), (peak, 120)])
            .concat()
        {
            let mut first = 0;
            let [with, without] = [true, false].map(|merging| {
                let mut market = Market::new(0, (e, 65_534), peak, merging);
                for year in 0..4 {
                    market.grow(comers, peak);
                    first = if year == 0 { market.pages() } else { first };
                    market.sell(peak / 10);
                }
                market
            });
            let keys: Vec<u64> = with.index.herd().into_keys().collect();
            let (rebuilt, _, _) = fill(e, 65_534, MOST_RECORDS, &keys);
            println!(
                "| {name} | {peak} | {e} | {first} | {} | {} | {} | {} | {} |",
                with.pages(),
                without.pages(),
                rebuilt.root.pages().len(),
                with.most_pages,
                without.most_pages
            );
        }
    }
    println!();
}

/// Four years at 4,096 records of a herd that grows until an on is declined by
/// 7, or no record is free, and of which all but a tenth is sold then; of each
/// year the fewest by seed.
pub fn years_to_the_last_page(seeds: u64) {
    println!("## W 64, 4,096 records, grown until the first on is declined and sold one by one to a tenth: tags held then");
    println!("| herd | E | P | merging | first year | second | third | fourth |");
    println!("|---|---:|---:|---|---:|---:|---:|---:|");
    for (name, comers) in COMERS {
        for (e, p, merging) in [
            (60, 250, true),
            (60, 250, false),
            (120, 125, true),
            (120, 125, false),
        ] {
            let with = if merging { "with" } else { "without" };
            print!("| {name} | {e} | {p} | {with} |");
            let mut least = [(usize::MAX, None); 4];
            for seed in 0..seeds {
                let mut market = Market::new(seed, (e, p), 4_096, merging);
                for least in &mut least {
                    let row = market.grow(comers, 4_096);
                    *least = (*least).min((market.held.len(), row));
                    market.sell(market.held.len() / 10);
                }
            }
            for (held, row) in least {
                let by = row.map_or("the register".to_string(), |row| row.to_string());
                print!(" {held} ({by}) |");
            }
            println!();
        }
    }
    println!();
}
