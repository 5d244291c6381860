//! The tag code of ISO 11784, put together and taken apart by arithmetic.

/// The fields of a tag code, from its most significant bit on.
#[derive(Clone, Copy, Debug, Default, PartialEq, Eq)]
pub struct Fields {
    /// Bit 1.
    pub animal_flag: u64,
    /// Bits 2 to 4.
    pub retag_counter: u64,
    /// Bits 5 to 9.
    pub user_field: u64,
    /// Bits 10 to 15.
    pub reserved: u64,
    /// Bit 16.
    pub data_block_flag: u64,
    /// Bits 17 to 26.
    pub country: u64,
    /// Bits 27 to 64.
    pub national_number: u64,
}

/// The number of bits of each field, in order.
pub const FIELD_BITS: [u32; 7] = [1, 3, 5, 6, 1, 10, 38];

/// "A country above 999 is refused."
pub const HIGHEST_COUNTRY: u64 = 999;

impl Fields {
    /// The fields as an array, in order.
    pub fn to_array(self) -> [u64; 7] {
        [
            self.animal_flag,
            self.retag_counter,
            self.user_field,
            self.reserved,
            self.data_block_flag,
            self.country,
            self.national_number,
        ]
    }

    /// The fields from an array, in order.
    pub fn from_array(fields: [u64; 7]) -> Fields {
        Fields {
            animal_flag: fields[0],
            retag_counter: fields[1],
            user_field: fields[2],
            reserved: fields[3],
            data_block_flag: fields[4],
            country: fields[5],
            national_number: fields[6],
        }
    }
}

/// The answer number and the code; a refusal gives code 0.
pub fn pack(fields: Fields) -> (u32, u64) {
    let sized = || fields.to_array().into_iter().zip(FIELD_BITS);
    let too_large = sized().any(|(field, bits)| field >= 2u64.pow(bits));
    if fields.country > HIGHEST_COUNTRY || too_large {
        return (11, 0);
    }
    let code = sized().fold(0, |code, (field, bits)| code * 2u64.pow(bits) + field);
    (0, code)
}

/// The answer number and the fields; a refusal gives fields 0.
pub fn unpack(code: u64) -> (u32, Fields) {
    let mut rest = code;
    let mut fields = [0; 7];
    for (field, bits) in fields.iter_mut().zip(FIELD_BITS).rev() {
        *field = rest % 2u64.pow(bits);
        rest /= 2u64.pow(bits);
    }
    let fields = Fields::from_array(fields);
    if fields.country > HIGHEST_COUNTRY {
        return (11, Fields::default());
    }
    (0, fields)
}
