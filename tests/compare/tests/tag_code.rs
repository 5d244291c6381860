//! The proved tag code answers as the model does.

use compare::tag_code::{pack, unpack};
use model::random::Random;
use model::tag_code::{self, Fields, FIELD_BITS};

fn same_pack(fields: Fields) {
    assert_eq!(pack(fields), tag_code::pack(fields), "pack {fields:?}");
}

fn same_unpack(code: u64) {
    assert_eq!(unpack(code), tag_code::unpack(code), "unpack {code:#018x}");
}

/// Every field at its limits and one past them, the others 0 or at their limits.
#[test]
fn limits_of_each_field() {
    let largest = FIELD_BITS.map(|bits| 2u64.pow(bits) - 1);
    for others in [[0; 7], [1, 7, 31, 63, 1, 999, largest[6]]] {
        for place in 0..7 {
            for value in [0, 1, largest[place], largest[place] + 1, 999, 1000, u64::MAX] {
                let mut fields = others;
                fields[place] = value;
                same_pack(Fields::from_array(fields));
            }
        }
    }
}

/// Codes with one bit set, one bit clear, and every country.
#[test]
fn each_bit_and_each_country() {
    for place in 0..64 {
        same_unpack(1 << place);
        same_unpack(!(1 << place));
    }
    for country in 0..1024 {
        same_unpack(country << 38);
        same_unpack(country << 38 | !(1023 << 38));
    }
}

#[test]
fn random_codes_and_fields() {
    let mut random = Random::new(11784);
    for _ in 0..1_000_000 {
        let code = random.number();
        same_unpack(code);
        let (number, fields) = unpack(code);
        if number == 0 {
            assert_eq!(pack(fields), (0, code), "pack of unpack {code:#018x}");
        }
        let fields = FIELD_BITS.map(|bits| {
            let spare = random.between(0, 1) as u32;
            random.number() % 2u64.pow(bits + spare)
        });
        same_pack(Fields::from_array(fields));
    }
}
