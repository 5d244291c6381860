//! A copy of tables to compare them with, where that takes least.

use model::table::Tables;

/// How many bytes a line of the cache has.
const LINE: usize = 64;

/// A copy of a list that begins in a line of the cache where the list itself does.
struct Aligned<T> {
    buffer: Vec<T>,
    start: usize,
}

impl<T: Copy> Aligned<T> {
    fn new(list: &[T]) -> Aligned<T> {
        let size = size_of::<T>();
        let mut buffer: Vec<T> = Vec::with_capacity(list.len() + LINE / size);
        let place = |pointer: *const T| pointer as usize % LINE;
        let start = (place(list.as_ptr()) + LINE - place(buffer.as_ptr())) % LINE / size;
        buffer.extend(list.iter().cycle().take(start));
        buffer.extend_from_slice(list);
        Aligned { buffer, start }
    }

    fn list(&self) -> &[T] {
        &self.buffer[self.start..]
    }
}

/// A copy of the three tables.
pub struct Compared {
    index: Aligned<u8>,
    keys: Aligned<u64>,
    used: Aligned<u8>,
}

impl Compared {
    pub fn new(tables: &Tables) -> Compared {
        Compared {
            index: Aligned::new(&tables.index),
            keys: Aligned::new(&tables.keys),
            used: Aligned::new(&tables.used),
        }
    }

    /// Whether the tables are the same, byte for byte.
    pub fn same(&self, tables: &Tables) -> bool {
        (self.index.list() == tables.index)
            & (self.keys.list() == tables.keys)
            & (self.used.list() == tables.used)
    }
}
