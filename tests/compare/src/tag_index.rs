//! The calls on lent tables.

use model::answer::Answer;
use model::table::Tables;

/// The answer as it comes from C.
#[repr(C)]
pub(crate) struct Answered {
    number: u32,
    record: u32,
    count: u64,
    more: bool,
}

impl Answered {
    /// The same in the model's type.
    pub(crate) fn answer(self) -> Answer {
        Answer {
            number: self.number,
            record: self.record,
            count: self.count,
            more: self.more,
        }
    }
}

extern "C" {
    fn tag_index_format(
        index: *mut u8,
        index_bytes: usize,
        keys: *mut u64,
        keys_length: usize,
        used: *mut u8,
        used_length: usize,
        w: u64,
        e: u64,
        p: u64,
    ) -> Answered;
    fn tag_index_on(
        index: *mut u8,
        index_bytes: usize,
        keys: *mut u64,
        keys_length: usize,
        used: *mut u8,
        used_length: usize,
        key: u64,
        record: u32,
    ) -> Answered;
    fn tag_index_off(
        index: *mut u8,
        index_bytes: usize,
        keys: *mut u64,
        keys_length: usize,
        used: *mut u8,
        used_length: usize,
        key: u64,
    ) -> Answered;
    fn tag_index_find(
        index: *const u8,
        index_bytes: usize,
        keys: *const u64,
        keys_length: usize,
        used: *const u8,
        used_length: usize,
        key: u64,
    ) -> Answered;
    fn tag_index_check(
        index: *const u8,
        index_bytes: usize,
        keys: *const u64,
        keys_length: usize,
        used: *const u8,
        used_length: usize,
    ) -> bool;
}

// All calls take the tables to change, those that only read too: a byte that
// such a call changed would then be seen.

/// Format with W, E and P.
pub fn format(tables: &mut Tables, w: u64, e: u64, p: u64) -> Answer {
    let Tables { index, keys, used } = tables;
    // SAFETY: three slices that do not overlap, each with its own length; the
    // declaration is that of include/tag_index.h.
    let answered = unsafe {
        tag_index_format(
            index.as_mut_ptr(),
            index.len(),
            keys.as_mut_ptr(),
            keys.len(),
            used.as_mut_ptr(),
            used.len(),
            w,
            e,
            p,
        )
    };
    answered.answer()
}

/// On with key and record.
pub fn on(tables: &mut Tables, key: u64, record: u32) -> Answer {
    let Tables { index, keys, used } = tables;
    // SAFETY: as for format.
    let answered = unsafe {
        tag_index_on(
            index.as_mut_ptr(),
            index.len(),
            keys.as_mut_ptr(),
            keys.len(),
            used.as_mut_ptr(),
            used.len(),
            key,
            record,
        )
    };
    answered.answer()
}

/// Off with its key.
pub fn off(tables: &mut Tables, key: u64) -> Answer {
    let Tables { index, keys, used } = tables;
    // SAFETY: as for format.
    let answered = unsafe {
        tag_index_off(
            index.as_mut_ptr(),
            index.len(),
            keys.as_mut_ptr(),
            keys.len(),
            used.as_mut_ptr(),
            used.len(),
            key,
        )
    };
    answered.answer()
}

/// Find with its key.
pub fn find(tables: &mut Tables, key: u64) -> Answer {
    let Tables { index, keys, used } = tables;
    // SAFETY: as for format.
    let answered = unsafe {
        tag_index_find(
            index.as_mut_ptr(),
            index.len(),
            keys.as_mut_ptr(),
            keys.len(),
            used.as_mut_ptr(),
            used.len(),
            key,
        )
    };
    answered.answer()
}

/// Check.
pub fn check(tables: &mut Tables) -> bool {
    let Tables { index, keys, used } = tables;
    // SAFETY: as for format.
    unsafe {
        tag_index_check(
            index.as_mut_ptr(),
            index.len(),
            keys.as_mut_ptr(),
            keys.len(),
            used.as_mut_ptr(),
            used.len(),
        )
    }
}
