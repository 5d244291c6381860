//! The movements of a load.

/// One movement of a load: a key that comes on a record, or one that goes.
/// [`TagIndex::load`](crate::TagIndex::load) carries them out.
///
/// ```
/// use rulgovaz::Movement;
///
/// let comes = Movement::on(17, 5);
/// assert_eq!((comes.key(), comes.record()), (17, Some(5)));
/// let goes = Movement::off(17);
/// assert_eq!((goes.key(), goes.record()), (17, None));
/// ```
// The layout is that of `struct tag_index_movement` in include/tag_index.h.
#[repr(C)]
#[derive(Clone, Copy, Debug, PartialEq, Eq, Hash)]
pub struct Movement {
    key: u64,
    record: u32,
    on: u32,
}

impl Movement {
    /// The key is to be held, on this record.
    pub const fn on(key: u64, record: u32) -> Movement {
        Movement { key, record, on: 1 }
    }

    /// The key is to be held no more.
    pub const fn off(key: u64) -> Movement {
        Movement {
            key,
            record: 0,
            on: 0,
        }
    }

    /// The key that comes or goes.
    pub const fn key(self) -> u64 {
        self.key
    }

    /// The record of a key that comes; none of one that goes.
    pub const fn record(self) -> Option<u32> {
        if self.on == 0 {
            None
        } else {
            Some(self.record)
        }
    }
}
