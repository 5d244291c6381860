//! The calls of include/tag_index.h that are measured, and those of copies of the
//! library, and of an earlier one, that check nothing, which benches/run makes for
//! this program alone.

use model::table::Tables;

/// The answer as it comes from C.
#[repr(C)]
pub struct Answer {
    /// 0, or the number of the refusal.
    pub number: u32,
    /// The record found.
    pub record: u32,
    /// Set by list alone.
    pub count: u64,
    /// Set by list alone.
    pub more: bool,
}

/// A movement of a load as it goes to C.
#[derive(Clone, Copy)]
#[repr(C)]
pub struct Movement {
    pub key: u64,
    pub record: u32,
    /// 0 for an off, else an on.
    pub on: u32,
}

/// Find, list, on and off, of the names that begin so.
macro_rules! calls {
    ($names:literal) => {
        extern "C" {
            #[link_name = concat!($names, "_find")]
            fn c_find(
                index: *const u8,
                index_bytes: usize,
                keys: *const u64,
                keys_length: usize,
                used: *const u8,
                used_length: usize,
                key: u64,
            ) -> Answer;
            #[link_name = concat!($names, "_list")]
            fn c_list(
                index: *const u8,
                index_bytes: usize,
                keys: *const u64,
                keys_length: usize,
                used: *const u8,
                used_length: usize,
                a: u64,
                b: u64,
                out: *mut u32,
                out_length: usize,
            ) -> Answer;
            #[link_name = concat!($names, "_on")]
            fn c_on(
                index: *mut u8,
                index_bytes: usize,
                keys: *mut u64,
                keys_length: usize,
                used: *mut u8,
                used_length: usize,
                key: u64,
                record: u32,
            ) -> Answer;
            #[link_name = concat!($names, "_off")]
            fn c_off(
                index: *mut u8,
                index_bytes: usize,
                keys: *mut u64,
                keys_length: usize,
                used: *mut u8,
                used_length: usize,
                key: u64,
            ) -> Answer;
        }

        /// Find.
        pub fn find(tables: &Tables, key: u64) -> Answer {
            let Tables { index, keys, used } = tables;
            // SAFETY: slices with their own lengths, which the call only reads; the
            // declaration is that of include/tag_index.h.
            unsafe {
                c_find(
                    index.as_ptr(),
                    index.len(),
                    keys.as_ptr(),
                    keys.len(),
                    used.as_ptr(),
                    used.len(),
                    key,
                )
            }
        }

        /// List.
        pub fn list(tables: &Tables, a: u64, b: u64, out: &mut [u32]) -> Answer {
            let Tables { index, keys, used } = tables;
            // SAFETY: as for find; the last slice does not overlap the others.
            unsafe {
                c_list(
                    index.as_ptr(),
                    index.len(),
                    keys.as_ptr(),
                    keys.len(),
                    used.as_ptr(),
                    used.len(),
                    a,
                    b,
                    out.as_mut_ptr(),
                    out.len(),
                )
            }
        }

        /// On.
        pub fn on(tables: &mut Tables, key: u64, record: u32) -> Answer {
            let Tables { index, keys, used } = tables;
            // SAFETY: slices with their own lengths, which do not overlap; the
            // declaration is that of include/tag_index.h.
            unsafe {
                c_on(
                    index.as_mut_ptr(),
                    index.len(),
                    keys.as_mut_ptr(),
                    keys.len(),
                    used.as_mut_ptr(),
                    used.len(),
                    key,
                    record,
                )
            }
        }

        /// Off.
        pub fn off(tables: &mut Tables, key: u64) -> Answer {
            let Tables { index, keys, used } = tables;
            // SAFETY: as for on.
            unsafe {
                c_off(
                    index.as_mut_ptr(),
                    index.len(),
                    keys.as_mut_ptr(),
                    keys.len(),
                    used.as_mut_ptr(),
                    used.len(),
                    key,
                )
            }
        }
    };
}

calls!("tag_index");

/// The same calls without their check, to be made on sound tables alone: on others
/// they may read and write where they should not.
pub mod unchecked {
    use super::{Answer, Tables};

    calls!("unchecked");
}

/// The same calls of the earlier library that benches/run was given, without their
/// check too; if it was given none, nothing makes them, and they are this one's.
pub mod before {
    use super::{Answer, Tables};

    #[cfg(feature = "before")]
    calls!("before");
    #[cfg(not(feature = "before"))]
    calls!("unchecked");
}

extern "C" {
    fn tag_index_format(
        index: *mut u8,
        index_bytes: usize,
        keys: *mut u64,
        keys_length: usize,
        used: *mut u8,
        used_length: usize,
        w: u64,
        e: u64,
        p: u64,
    ) -> Answer;
    fn tag_index_check(
        index: *const u8,
        index_bytes: usize,
        keys: *const u64,
        keys_length: usize,
        used: *const u8,
        used_length: usize,
    ) -> bool;
    fn tag_index_load(
        index: *mut u8,
        index_bytes: usize,
        keys: *mut u64,
        keys_length: usize,
        used: *mut u8,
        used_length: usize,
        movements: *const Movement,
        movements_length: usize,
        answers: *mut u32,
        answers_length: usize,
    ) -> Answer;
}

/// Format, with W, E and P.
pub fn format(tables: &mut Tables, [w, e, p]: [u64; 3]) -> Answer {
    let Tables { index, keys, used } = tables;
    // SAFETY: slices with their own lengths, which do not overlap; the
    // declaration is that of include/tag_index.h.
    unsafe {
        tag_index_format(
            index.as_mut_ptr(),
            index.len(),
            keys.as_mut_ptr(),
            keys.len(),
            used.as_mut_ptr(),
            used.len(),
            w,
            e,
            p,
        )
    }
}

/// Check.
pub fn check(tables: &Tables) -> bool {
    let Tables { index, keys, used } = tables;
    // SAFETY: as for find.
    unsafe {
        tag_index_check(
            index.as_ptr(),
            index.len(),
            keys.as_ptr(),
            keys.len(),
            used.as_ptr(),
            used.len(),
        )
    }
}

/// Load.
pub fn load(tables: &mut Tables, movements: &[Movement], answers: &mut [u32]) -> Answer {
    let Tables { index, keys, used } = tables;
    // SAFETY: slices with their own lengths, which do not overlap; the
    // declarations of the call and of a movement are those of the library.
    unsafe {
        tag_index_load(
            index.as_mut_ptr(),
            index.len(),
            keys.as_mut_ptr(),
            keys.len(),
            used.as_mut_ptr(),
            used.len(),
            movements.as_ptr(),
            movements.len(),
            answers.as_mut_ptr(),
            answers.len(),
        )
    }
}
