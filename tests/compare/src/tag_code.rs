//! The tag code.

use model::tag_code::Fields;

#[repr(C)]
struct Packed {
    number: u32,
    code: u64,
}

#[repr(C)]
struct Unpacked {
    number: u32,
    fields: [u64; 7],
}

extern "C" {
    fn tag_code_pack(
        animal: u64,
        retag: u64,
        user: u64,
        reserved: u64,
        block: u64,
        country: u64,
        national: u64,
    ) -> Packed;
    fn tag_code_unpack(code: u64) -> Unpacked;
}

/// The answer number and the code.
pub fn pack(fields: Fields) -> (u32, u64) {
    let [animal, retag, user, reserved, block, country, national] = fields.to_array();
    // SAFETY: numbers by value; the declaration is that of include/tag_code.h.
    let answer =
        unsafe { tag_code_pack(animal, retag, user, reserved, block, country, national) };
    (answer.number, answer.code)
}

/// The answer number and the fields.
pub fn unpack(code: u64) -> (u32, Fields) {
    // SAFETY: a number by value; the declaration is that of include/tag_code.h.
    let answer = unsafe { tag_code_unpack(code) };
    (answer.number, Fields::from_array(answer.fields))
}
