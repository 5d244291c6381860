//! The proved libraries: their C declarations, and each call behind a function
//! that lends it slices. All unsafe code of the package stands here.
//!
//! Why every call on tables is sound:
//! - The declarations are those of `include/tag_index.h` and `include/tag_code.h`.
//! - Each pointer and length come from one slice, so the pointer is aligned and
//!   never null, and so many elements may be read there, and written where the
//!   slice is lent to be changed. The library asks nothing of their content.
//! - Slices lent to one call do not overlap: they are distinct borrows, those that
//!   are changed exclusive ones.
//! - The library keeps no pointer after a call and has no memory of its own. So
//!   the borrows end with the call, and calls may run in several threads as far as
//!   the borrows allow.
#![allow(unsafe_code)]

use crate::{Movement, TagFields};

/// The answer of a call on tables.
#[repr(C)]
pub(crate) struct Answer {
    pub(crate) number: u32,
    pub(crate) record: u32,
    pub(crate) count: u64,
    pub(crate) more: bool,
}

/// The answer of pack.
#[repr(C)]
pub(crate) struct Packed {
    pub(crate) number: u32,
    pub(crate) code: u64,
}

/// The answer of unpack, its fields from bit 1 to bit 64.
#[repr(C)]
pub(crate) struct Unpacked {
    pub(crate) number: u32,
    pub(crate) fields: [u64; 7],
}

extern "C" {
    fn tag_code_pack(
        animal: u64,
        retag: u64,
        user: u64,
        reserved: u64,
        block: u64,
        country: u64,
        national: u64,
    ) -> Packed;
    fn tag_code_unpack(code: u64) -> Unpacked;
    fn tag_index_format(
        index: *mut u8,
        index_bytes: usize,
        keys: *mut u64,
        keys_length: usize,
        used: *mut u8,
        used_length: usize,
        w: u64,
        e: u64,
        p: u64,
    ) -> Answer;
    fn tag_index_on(
        index: *mut u8,
        index_bytes: usize,
        keys: *mut u64,
        keys_length: usize,
        used: *mut u8,
        used_length: usize,
        key: u64,
        record: u32,
    ) -> Answer;
    fn tag_index_off(
        index: *mut u8,
        index_bytes: usize,
        keys: *mut u64,
        keys_length: usize,
        used: *mut u8,
        used_length: usize,
        key: u64,
    ) -> Answer;
    fn tag_index_load(
        index: *mut u8,
        index_bytes: usize,
        keys: *mut u64,
        keys_length: usize,
        used: *mut u8,
        used_length: usize,
        movements: *const Movement,
        movements_length: usize,
        answers: *mut u32,
        answers_length: usize,
    ) -> Answer;
    fn tag_index_find(
        index: *const u8,
        index_bytes: usize,
        keys: *const u64,
        keys_length: usize,
        used: *const u8,
        used_length: usize,
        key: u64,
    ) -> Answer;
    fn tag_index_list(
        index: *const u8,
        index_bytes: usize,
        keys: *const u64,
        keys_length: usize,
        used: *const u8,
        used_length: usize,
        a: u64,
        b: u64,
        out: *mut u32,
        out_length: usize,
    ) -> Answer;
    fn tag_index_check(
        index: *const u8,
        index_bytes: usize,
        keys: *const u64,
        keys_length: usize,
        used: *const u8,
        used_length: usize,
    ) -> bool;
}

/// Tables lent to be read.
#[derive(Clone, Copy)]
pub(crate) struct Lent<'a> {
    pub(crate) index: &'a [u8],
    pub(crate) keys: &'a [u64],
    pub(crate) used: &'a [u8],
}

/// Tables lent to be changed.
pub(crate) struct LentMut<'a> {
    pub(crate) index: &'a mut [u8],
    pub(crate) keys: &'a mut [u64],
    pub(crate) used: &'a mut [u8],
}

pub(crate) fn pack(fields: TagFields) -> Packed {
    // SAFETY: numbers by value.
    unsafe {
        tag_code_pack(
            fields.animal,
            fields.retag,
            fields.user,
            fields.reserved,
            fields.block,
            fields.country,
            fields.national,
        )
    }
}

pub(crate) fn unpack(code: u64) -> Unpacked {
    // SAFETY: a number by value.
    unsafe { tag_code_unpack(code) }
}

pub(crate) fn format(tables: LentMut<'_>, w: u64, e: u64, p: u64) -> Answer {
    let LentMut { index, keys, used } = tables;
    // SAFETY: three exclusive slices, each with its own length; not kept.
    unsafe {
        tag_index_format(
            index.as_mut_ptr(),
            index.len(),
            keys.as_mut_ptr(),
            keys.len(),
            used.as_mut_ptr(),
            used.len(),
            w,
            e,
            p,
        )
    }
}

pub(crate) fn on(tables: LentMut<'_>, key: u64, record: u32) -> Answer {
    let LentMut { index, keys, used } = tables;
    // SAFETY: three exclusive slices, each with its own length; not kept.
    unsafe {
        tag_index_on(
            index.as_mut_ptr(),
            index.len(),
            keys.as_mut_ptr(),
            keys.len(),
            used.as_mut_ptr(),
            used.len(),
            key,
            record,
        )
    }
}

pub(crate) fn off(tables: LentMut<'_>, key: u64) -> Answer {
    let LentMut { index, keys, used } = tables;
    // SAFETY: three exclusive slices, each with its own length; not kept.
    unsafe {
        tag_index_off(
            index.as_mut_ptr(),
            index.len(),
            keys.as_mut_ptr(),
            keys.len(),
            used.as_mut_ptr(),
            used.len(),
            key,
        )
    }
}

pub(crate) fn load(tables: LentMut<'_>, movements: &[Movement], answers: &mut [u32]) -> Answer {
    let LentMut { index, keys, used } = tables;
    // SAFETY: four exclusive slices and one that load only reads, which therefore
    // overlaps none of them, each with its own length; not kept.
    unsafe {
        tag_index_load(
            index.as_mut_ptr(),
            index.len(),
            keys.as_mut_ptr(),
            keys.len(),
            used.as_mut_ptr(),
            used.len(),
            movements.as_ptr(),
            movements.len(),
            answers.as_mut_ptr(),
            answers.len(),
        )
    }
}

pub(crate) fn find(tables: Lent<'_>, key: u64) -> Answer {
    let Lent { index, keys, used } = tables;
    // SAFETY: three slices, each with its own length, that find only reads; not
    // kept.
    unsafe {
        tag_index_find(
            index.as_ptr(),
            index.len(),
            keys.as_ptr(),
            keys.len(),
            used.as_ptr(),
            used.len(),
            key,
        )
    }
}

pub(crate) fn list(tables: Lent<'_>, a: u64, b: u64, out: &mut [u32]) -> Answer {
    let Lent { index, keys, used } = tables;
    // SAFETY: three slices, each with its own length, that list only reads, and an
    // exclusive one, which therefore overlaps none of them; not kept.
    unsafe {
        tag_index_list(
            index.as_ptr(),
            index.len(),
            keys.as_ptr(),
            keys.len(),
            used.as_ptr(),
            used.len(),
            a,
            b,
            out.as_mut_ptr(),
            out.len(),
        )
    }
}

pub(crate) fn check(tables: Lent<'_>) -> bool {
    let Lent { index, keys, used } = tables;
    // SAFETY: three slices, each with its own length, that check only reads; not
    // kept.
    unsafe {
        tag_index_check(
            index.as_ptr(),
            index.len(),
            keys.as_ptr(),
            keys.len(),
            used.as_ptr(),
            used.len(),
        )
    }
}
