//! List.

use crate::tag_index::Answered;
use model::answer::Answer;
use model::calls;
use model::table::Tables;

extern "C" {
    fn tag_index_list(
        index: *const u8,
        index_bytes: usize,
        keys: *const u64,
        keys_length: usize,
        used: *const u8,
        used_length: usize,
        a: u64,
        b: u64,
        out: *mut u32,
        out_length: usize,
    ) -> Answered;
}

/// List from a to b into `out`.
pub fn list(tables: &mut Tables, a: u64, b: u64, out: &mut [u32]) -> Answer {
    let Tables { index, keys, used } = tables;
    // SAFETY: four slices that do not overlap, each with its own length; the
    // declaration is that of include/tag_index.h.
    let answered = unsafe {
        tag_index_list(
            index.as_mut_ptr(),
            index.len(),
            keys.as_mut_ptr(),
            keys.len(),
            used.as_mut_ptr(),
            used.len(),
            a,
            b,
            out.as_mut_ptr(),
            out.len(),
        )
    };
    answered.answer()
}

/// List answers as the model and leaves the slice as the model does, the rest
/// of it kept; no byte of the tables changes.
pub fn same_list(tables: &Tables, [a, b]: [u64; 2], slice: &[u32], what: &str) -> Answer {
    let what = format!("{what}: list {a:#x} {b:#x} of {}", slice.len());
    let mut after = tables.clone();
    let mut out = slice.to_vec();
    let answer = list(&mut after, a, b, &mut out);
    let mut model = slice.to_vec();
    let Tables { index, keys, used } = tables;
    let expected = calls::list(index, keys, used, a, b, &mut model);
    assert_eq!(answer, expected, "{what}");
    assert_eq!(out, model, "{what}: the slice");
    assert!(after == *tables, "{what}: changed a byte of the tables");
    answer
}
