//! The tag code of ISO 11784.

use crate::library;
use crate::Refusal;

/// The fields of a tag, from bit 1 of its code, the most significant, to bit 64.
///
/// ```
/// use rulgovaz::{Refusal, TagFields};
///
/// let tag = TagFields::of_animal(826, 17);
/// let code = tag.pack()?;
/// assert_eq!(code, 0x8000_ce80_0000_0011);
/// assert_eq!(TagFields::unpack(code), Ok(tag));
///
/// let nowhere = TagFields { country: 1000, ..tag };
/// assert_eq!(nowhere.pack(), Err(Refusal::BadTag));
/// # Ok::<(), Refusal>(())
/// ```
#[derive(Clone, Copy, Debug, Default, PartialEq, Eq, Hash)]
pub struct TagFields {
    /// Bit 1: 1 for an animal.
    pub animal: u64,
    /// Bits 2 to 4: the retag counter.
    pub retag: u64,
    /// Bits 5 to 9: the user field.
    pub user: u64,
    /// Bits 10 to 15.
    pub reserved: u64,
    /// Bit 16: the data-block flag.
    pub block: u64,
    /// Bits 17 to 26: at most 999.
    pub country: u64,
    /// Bits 27 to 64: at most 274,877,906,943.
    pub national: u64,
}

impl TagFields {
    /// The largest country.
    pub const MAX_COUNTRY: u64 = 999;

    /// The largest national number.
    pub const MAX_NATIONAL: u64 = 274_877_906_943;

    /// The tag of an animal: the flag is 1, and every field that is not given 0.
    pub fn of_animal(country: u64, national: u64) -> TagFields {
        TagFields {
            animal: 1,
            country,
            national,
            ..TagFields::default()
        }
    }

    /// The code of the fields, the tag's key in an index of 64 bits.
    ///
    /// Declined by [`Refusal::BadTag`] if a field is too large.
    pub fn pack(self) -> Result<u64, Refusal> {
        let packed = library::pack(self);
        Refusal::done(packed.number)?;
        Ok(packed.code)
    }

    /// The fields of a code. Packing them gives the code back.
    ///
    /// Declined by [`Refusal::BadTag`] if the country is above 999; no other field
    /// of a code can be too large.
    pub fn unpack(code: u64) -> Result<TagFields, Refusal> {
        let unpacked = library::unpack(code);
        Refusal::done(unpacked.number)?;
        let [animal, retag, user, reserved, block, country, national] = unpacked.fields;
        Ok(TagFields {
            animal,
            retag,
            user,
            reserved,
            block,
            country,
            national,
        })
    }
}
