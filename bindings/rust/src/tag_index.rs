//! The index with the tables that it works in.

use crate::library::{self, Lent, LentMut};
use crate::{Movement, Refusal};

/// The tables of an index, of any content: to save them, and to bring them back.
#[derive(Clone, Debug, Default, PartialEq, Eq)]
pub struct Tables {
    /// The index table: a header of 16 bytes, then the pages.
    pub index: Vec<u8>,
    /// The register's keys, one for each record; 0 on a free record.
    pub keys: Vec<u64>,
    /// The register's bytes, one for each record: 1 in use, 0 free.
    pub used: Vec<u8>,
}

/// How many records a list wrote, and whether more remain.
#[derive(Clone, Copy, Debug, PartialEq, Eq)]
pub struct Listed {
    /// How many records stand at the front of the slice.
    pub count: usize,
    /// Whether keys of the range remain whose records had no room.
    pub more: bool,
}

/// An index from keys to record numbers, with the tables that it works in.
///
/// [`on`](TagIndex::on), [`off`](TagIndex::off), [`find`](TagIndex::find) and
/// [`list`](TagIndex::list) check the whole tables first, so none of them trusts
/// what was brought back; [`load`](TagIndex::load) does so once for all of its
/// movements. A thread that calls these methods needs 512 KiB of stack.
///
/// ```
/// use rulgovaz::{Refusal, TagIndex};
///
/// // Keys of 8 bits, 10 pages of 5 entries, 4 records.
/// let mut index = TagIndex::new(8, 5, 10, 4)?;
/// index.on(0b1010_1010, 1)?;
/// index.on(0b1010_1100, 2)?;
/// index.on(0, 3)?;
/// assert_eq!(index.find(0b1010_1100), Ok(2));
/// assert_eq!(index.list_all(0, 255), Ok(vec![3, 1, 2]));
/// assert_eq!(index.on(256, 0), Err(Refusal::KeyTooWide));
/// # Ok::<(), Refusal>(())
/// ```
#[derive(Clone, Debug, PartialEq, Eq)]
pub struct TagIndex {
    tables: Tables,
}

impl TagIndex {
    /// The most bits of a key.
    pub const MAX_WIDTH: u64 = 64;

    /// The fewest entries of a page.
    pub const MIN_ENTRIES: u64 = 2;

    /// The most entries of a page.
    pub const MAX_ENTRIES: u64 = 255;

    /// The most pages.
    pub const MAX_PAGES: u64 = 65_534;

    /// The most records.
    pub const MAX_RECORDS: usize = 65_534;

    /// The bytes of an index table of so many pages, each of so many entries;
    /// none outside the limits.
    ///
    /// ```
    /// assert_eq!(rulgovaz::TagIndex::index_bytes(60, 250), Some(45_516));
    /// assert_eq!(rulgovaz::TagIndex::index_bytes(1, 250), None);
    /// ```
    pub fn index_bytes(entries: u64, pages: u64) -> Option<usize> {
        let entries_fit = (TagIndex::MIN_ENTRIES..=TagIndex::MAX_ENTRIES).contains(&entries);
        let pages_fit = (1..=TagIndex::MAX_PAGES).contains(&pages);
        (entries_fit && pages_fit).then(|| 16 + pages as usize * (2 + 3 * entries as usize))
    }

    /// An index that holds no key, in new tables: for keys of `width` bits (1 to
    /// 64), in so many pages (1 to 65,534), each of so many entries (2 to 255), and
    /// with records numbered from 0 (1 to 65,534 of them).
    ///
    /// Declined by [`Refusal::OutsideLimits`].
    pub fn new(width: u64, entries: u64, pages: u64, records: usize) -> Result<TagIndex, Refusal> {
        // Tables past the limits are not made, however much memory there is.
        let index_bytes = TagIndex::index_bytes(entries, pages).ok_or(Refusal::OutsideLimits)?;
        if records > TagIndex::MAX_RECORDS {
            return Err(Refusal::OutsideLimits);
        }
        let mut made = TagIndex::from_tables(Tables {
            index: vec![0; index_bytes],
            keys: vec![0; records],
            used: vec![0; records],
        });
        made.format(width, entries, pages)?;
        Ok(made)
    }

    /// An index in tables of any content and any lengths. Whether they are sound
    /// [`check`](TagIndex::check) says; if they are not, every method that needs
    /// them sound is declined by [`Refusal::NotSound`].
    ///
    /// ```
    /// use rulgovaz::{Refusal, TagIndex};
    ///
    /// let mut index = TagIndex::new(64, 60, 250, 4096)?;
    /// index.on(17, 5)?;
    /// let mut saved = index.into_tables();
    ///
    /// let index = TagIndex::from_tables(saved.clone());
    /// assert_eq!(index.find(17), Ok(5));
    ///
    /// saved.used[5] = 0; // damage
    /// let index = TagIndex::from_tables(saved);
    /// assert!(!index.check());
    /// assert_eq!(index.find(17), Err(Refusal::NotSound));
    /// # Ok::<(), Refusal>(())
    /// ```
    pub fn from_tables(tables: Tables) -> TagIndex {
        TagIndex { tables }
    }

    /// The tables as they are now.
    pub fn tables(&self) -> &Tables {
        &self.tables
    }

    /// The tables, to be changed in any way, as by [`from_tables`](TagIndex::from_tables).
    pub fn tables_mut(&mut self) -> &mut Tables {
        &mut self.tables
    }

    /// The tables, and the index is no more.
    pub fn into_tables(self) -> Tables {
        self.tables
    }

    /// The index holds no key, whatever the tables held before.
    ///
    /// Declined by [`Refusal::OutsideLimits`] if a number is outside its limits, or
    /// if the tables are not as long as the numbers say.
    pub fn format(&mut self, width: u64, entries: u64, pages: u64) -> Result<(), Refusal> {
        let answer = library::format(self.lent_mut(), width, entries, pages);
        Refusal::done(answer.number)
    }

    /// The key is held, on this record.
    ///
    /// Declined by [`Refusal::NotSound`], [`Refusal::KeyTooWide`],
    /// [`Refusal::NoSuchRecord`], [`Refusal::RecordInUse`], [`Refusal::KeyHeld`],
    /// [`Refusal::RootTooHigh`] and [`Refusal::OutOfPages`], the first that applies.
    pub fn on(&mut self, key: u64, record: u32) -> Result<(), Refusal> {
        let answer = library::on(self.lent_mut(), key, record);
        Refusal::done(answer.number)
    }

    /// The key is held no more; its record is free, and so are the pages that
    /// are emptied and those whose entries go to a neighbour.
    ///
    /// Declined by [`Refusal::NotSound`], [`Refusal::KeyTooWide`] and
    /// [`Refusal::KeyNotHeld`], the first that applies.
    pub fn off(&mut self, key: u64) -> Result<(), Refusal> {
        let answer = library::off(self.lent_mut(), key);
        Refusal::done(answer.number)
    }

    /// Carries out the movements in their order, and gives the result of each as
    /// [`on`](TagIndex::on) or [`off`](TagIndex::off) would give it in its place. A
    /// movement that is declined is passed over, and the rest go on. The tables are
    /// those that the single calls leave, but they are checked only once.
    ///
    /// `Ok` says only that the tables were sound. Look at each result: a load is
    /// not all or nothing, and `index.load(..)?;` alone drops them without a warning.
    ///
    /// Declined by [`Refusal::NotSound`]; then no movement is made.
    ///
    /// ```
    /// use rulgovaz::{Movement, Refusal, TagIndex};
    ///
    /// let mut index = TagIndex::new(64, 60, 250, 4096)?;
    /// index.on(17, 5)?;
    /// let results = index.load(&[
    ///     Movement::on(18, 5), // the record is in use
    ///     Movement::off(17),
    ///     Movement::on(19, 5), // and here it is free
    /// ])?;
    /// assert_eq!(results, [Err(Refusal::RecordInUse), Ok(()), Ok(())]);
    /// assert_eq!(index.find(19), Ok(5));
    /// # Ok::<(), Refusal>(())
    /// ```
    pub fn load(&mut self, movements: &[Movement]) -> Result<Vec<Result<(), Refusal>>, Refusal> {
        // As many answers as movements, so row 12 is never met.
        let mut answers = vec![0; movements.len()];
        let answer = library::load(self.lent_mut(), movements, &mut answers);
        Refusal::done(answer.number)?;
        Ok(answers.into_iter().map(Refusal::done).collect())
    }

    /// The record of a key.
    ///
    /// Declined as [`off`](TagIndex::off) is.
    pub fn find(&self, key: u64) -> Result<u32, Refusal> {
        let answer = library::find(self.lent(), key);
        Refusal::done(answer.number)?;
        Ok(answer.record)
    }

    /// Writes the records of the keys from `a` to `b` inclusive, in key order, as
    /// many as `out` holds; the rest of `out` is kept. `a` above `b` gives none.
    ///
    /// Declined by [`Refusal::NotSound`] and [`Refusal::KeyTooWide`].
    ///
    /// ```
    /// use rulgovaz::{Listed, Refusal, TagIndex};
    ///
    /// let mut index = TagIndex::new(64, 60, 250, 4096)?;
    /// for key in 1..=3 {
    ///     index.on(key, 10 * key as u32)?;
    /// }
    /// let mut out = [0; 2];
    /// assert_eq!(index.list(1, 9, &mut out), Ok(Listed { count: 2, more: true }));
    /// assert_eq!(out, [10, 20]);
    /// # Ok::<(), Refusal>(())
    /// ```
    pub fn list(&self, a: u64, b: u64, out: &mut [u32]) -> Result<Listed, Refusal> {
        let answer = library::list(self.lent(), a, b, out);
        Refusal::done(answer.number)?;
        Ok(Listed {
            // At most the length of `out`.
            count: answer.count as usize,
            more: answer.more,
        })
    }

    /// The records of all keys from `a` to `b` inclusive, in key order.
    ///
    /// Declined as [`list`](TagIndex::list) is.
    pub fn list_all(&self, a: u64, b: u64) -> Result<Vec<u32>, Refusal> {
        // As many as there are keys held, if the tables are sound.
        let in_use = self.tables.used.iter().filter(|&&used| used == 1).count();
        let mut records = vec![0; in_use];
        let listed = self.list(a, b, &mut records)?;
        records.truncate(listed.count);
        Ok(records)
    }

    /// Whether the tables are sound.
    pub fn check(&self) -> bool {
        library::check(self.lent())
    }

    fn lent(&self) -> Lent<'_> {
        Lent {
            index: &self.tables.index,
            keys: &self.tables.keys,
            used: &self.tables.used,
        }
    }

    fn lent_mut(&mut self) -> LentMut<'_> {
        LentMut {
            index: &mut self.tables.index,
            keys: &mut self.tables.keys,
            used: &mut self.tables.used,
        }
    }
}
