//! The tag code: its limits, and that both ways give back the same.

use model::tag_code::{pack, unpack, Fields};

/// The largest value that each field may have.
const LARGEST: [u64; 7] = [1, 7, 31, 63, 1, 999, 274_877_906_943];

fn packed(fields: [u64; 7]) -> (u32, u64) {
    pack(Fields::from_array(fields))
}

#[test]
fn each_field_stands_in_its_bits() {
    let lowest_bits = [1u64 << 63, 1 << 60, 1 << 55, 1 << 49, 1 << 48, 1 << 38, 1];
    for (field, bit) in lowest_bits.into_iter().enumerate() {
        let mut fields = [0; 7];
        fields[field] = 1;
        assert_eq!(packed(fields), (0, bit));
        assert_eq!(unpack(bit), (0, Fields::from_array(fields)));
    }
}

#[test]
fn the_largest_fields_are_taken_and_one_more_is_declined() {
    for field in 0..7 {
        let mut fields = [0; 7];
        fields[field] = LARGEST[field];
        let (number, code) = packed(fields);
        assert_eq!(number, 0, "field {field}");
        assert_eq!(unpack(code), (0, Fields::from_array(fields)));
        for too_large in [LARGEST[field] + 1, u64::MAX] {
            fields[field] = too_large;
            assert_eq!(packed(fields), (11, 0), "field {field}");
        }
    }
    let all = LARGEST;
    assert_eq!(packed(all), (0, 0xffff_f9ff_ffff_ffff));
}

#[test]
fn countries_up_to_999_are_taken() {
    for country in 0..1024 {
        let code = (1 << 63) | (country << 38) | 17;
        let fields = Fields {
            animal_flag: 1,
            country,
            national_number: 17,
            ..Fields::default()
        };
        if country <= 999 {
            assert_eq!((pack(fields), unpack(code)), ((0, code), (0, fields)));
        } else {
            assert_eq!(
                (pack(fields), unpack(code)),
                ((11, 0), (11, Fields::default()))
            );
        }
    }
}

#[test]
fn codes_and_fields_give_back_the_same() {
    let mut code = 1u64;
    for _ in 0..10_000 {
        code = code
            .wrapping_mul(6_364_136_223_846_793_005)
            .wrapping_add(1_442_695_040_888_963_407);
        let (number, fields) = unpack(code);
        let country = code >> 38 & 1023;
        assert_eq!(number, if country > 999 { 11 } else { 0 });
        if number == 0 {
            assert_eq!(pack(fields), (0, code));
        }
    }
}
