//! Each refusal, through the types of this package, by a small example; and that
//! a declined call changes nothing.

use rulgovaz::{Listed, Refusal, Tables, TagFields, TagIndex};

fn index(width: u64, entries: u64, pages: u64, records: usize) -> TagIndex {
    TagIndex::new(width, entries, pages, records).expect("sizes inside the limits")
}

/// The call is declined by this refusal, and the tables stay as they were.
fn declined<T: std::fmt::Debug + PartialEq>(
    index: &mut TagIndex,
    refusal: Refusal,
    call: impl FnOnce(&mut TagIndex) -> Result<T, Refusal>,
) {
    let before = index.clone();
    assert_eq!(call(index), Err(refusal));
    assert_eq!(*index, before);
}

#[test]
fn numbers_and_messages() {
    let numbers = Refusal::ALL.map(Refusal::number);
    assert_eq!(numbers, [1, 2, 3, 4, 5, 6, 7, 8, 9, 11]);
    for refusal in Refusal::ALL {
        assert_eq!(Refusal::from_number(refusal.number()), Some(refusal));
    }
    for number in [0, 10, 12, u32::MAX] {
        assert_eq!(Refusal::from_number(number), None);
    }
    let mut messages = Refusal::ALL.map(|refusal| refusal.to_string());
    messages.sort();
    assert!(messages.windows(2).all(|two| two[0] != two[1]));
}

#[test]
fn not_sound() {
    let short = Tables {
        index: vec![0; 15],
        keys: vec![0],
        used: vec![0],
    };
    for tables in [Tables::default(), short] {
        let mut index = TagIndex::from_tables(tables);
        assert!(!index.check());
        declined(&mut index, Refusal::NotSound, |index| index.on(0, 0));
        declined(&mut index, Refusal::NotSound, |index| index.off(0));
        declined(&mut index, Refusal::NotSound, |index| index.find(0));
        declined(&mut index, Refusal::NotSound, |index| {
            index.list(0, 0, &mut [])
        });
        declined(&mut index, Refusal::NotSound, |index| index.list_all(0, 0));
    }
}

#[test]
fn unequal_register() {
    let mut tables = index(8, 5, 10, 4).into_tables();
    tables.used.push(0);
    let mut index = TagIndex::from_tables(tables);
    assert!(!index.check());
    declined(&mut index, Refusal::NotSound, |index| index.find(0));
    declined(&mut index, Refusal::OutsideLimits, |index| {
        index.format(8, 5, 10)
    });
}

#[test]
fn keys_and_records() {
    let mut index = index(8, 5, 10, 4);
    declined(&mut index, Refusal::KeyTooWide, |index| index.on(256, 0));
    declined(&mut index, Refusal::KeyTooWide, |index| index.off(256));
    declined(&mut index, Refusal::KeyTooWide, |index| index.find(256));
    declined(&mut index, Refusal::KeyTooWide, |index| {
        index.list_all(256, 0)
    });
    declined(&mut index, Refusal::KeyTooWide, |index| {
        index.list_all(0, 256)
    });
    declined(&mut index, Refusal::KeyNotHeld, |index| index.find(7));
    declined(&mut index, Refusal::KeyNotHeld, |index| index.off(7));
    declined(&mut index, Refusal::NoSuchRecord, |index| index.on(7, 4));
    assert_eq!(index.on(7, 0), Ok(()));
    declined(&mut index, Refusal::RecordInUse, |index| index.on(8, 0));
    declined(&mut index, Refusal::RecordInUse, |index| index.on(7, 0));
    declined(&mut index, Refusal::KeyHeld, |index| index.on(7, 1));
    assert_eq!(index.off(7), Ok(()));
    assert_eq!(index, self::index(8, 5, 10, 4));
}

/// E 2 and the two largest keys: W 17 asks for too high a root, and W 16 for 136
/// pages.
#[test]
fn height_and_pages() {
    let mut high = index(17, 2, 65_534, 2);
    assert_eq!(high.on(0x1_fffe, 0), Ok(()));
    declined(&mut high, Refusal::RootTooHigh, |index| {
        index.on(0x1_ffff, 1)
    });
    let mut full = index(16, 2, 135, 2);
    assert_eq!(full.on(0xfffe, 0), Ok(()));
    declined(&mut full, Refusal::OutOfPages, |index| index.on(0xffff, 1));
    let mut enough = index(16, 2, 136, 2);
    assert_eq!(enough.on(0xfffe, 0), Ok(()));
    assert_eq!(enough.on(0xffff, 1), Ok(()));
    assert_eq!(enough.list_all(0, 0xffff), Ok(vec![0, 1]));
}

#[test]
fn limits() {
    let least = [1, TagIndex::MIN_ENTRIES, 1, 1];
    let most = [
        TagIndex::MAX_WIDTH,
        TagIndex::MAX_ENTRIES,
        TagIndex::MAX_PAGES,
        TagIndex::MAX_RECORDS as u64,
    ];
    let made = |[w, e, p, records]: [u64; 4]| TagIndex::new(w, e, p, records as usize);
    for sizes in [least, most] {
        assert!(made(sizes).expect("sizes at the limits").check());
    }
    for place in 0..4 {
        let mut below = least;
        below[place] -= 1;
        assert_eq!(made(below), Err(Refusal::OutsideLimits));
        for past in [most[place] + 1, u64::MAX] {
            let mut above = least;
            above[place] = past;
            assert_eq!(made(above), Err(Refusal::OutsideLimits));
        }
    }
    let mut index = index(8, 5, 10, 4);
    declined(&mut index, Refusal::OutsideLimits, |index| {
        index.format(8, 5, 11)
    });
    assert_eq!(index.format(64, 5, 10), Ok(()));
}

#[test]
fn tags() {
    let largest = TagFields {
        animal: 1,
        retag: 7,
        user: 31,
        reserved: 63,
        block: 1,
        country: TagFields::MAX_COUNTRY,
        national: TagFields::MAX_NATIONAL,
    };
    for tag in [TagFields::default(), TagFields::of_animal(826, 17), largest] {
        assert_eq!(tag.pack().and_then(TagFields::unpack), Ok(tag));
    }
    let TagFields {
        animal,
        retag,
        user,
        reserved,
        block,
        country,
        national,
    } = largest;
    for past in [
        TagFields {
            animal: animal + 1,
            ..largest
        },
        TagFields {
            retag: retag + 1,
            ..largest
        },
        TagFields {
            user: user + 1,
            ..largest
        },
        TagFields {
            reserved: reserved + 1,
            ..largest
        },
        TagFields {
            block: block + 1,
            ..largest
        },
        TagFields {
            country: country + 1,
            ..largest
        },
        TagFields {
            national: national + 1,
            ..largest
        },
    ] {
        assert_eq!(past.pack(), Err(Refusal::BadTag));
    }
    assert_eq!(TagFields::unpack(u64::MAX), Err(Refusal::BadTag));
}

#[test]
fn lists() {
    let mut index = index(64, 60, 250, 4096);
    for record in 0..100 {
        assert_eq!(index.on(u64::MAX - u64::from(record), record), Ok(()));
    }
    let all: Vec<u32> = (0..100).rev().collect();
    assert_eq!(index.list_all(0, u64::MAX), Ok(all.clone()));
    assert_eq!(index.list_all(u64::MAX, u64::MAX), Ok(vec![0]));
    assert_eq!(index.list_all(1, 0), Ok(vec![]));
    let mut out = [7; 101];
    let listed = index.list(0, u64::MAX, &mut out);
    assert_eq!(
        listed,
        Ok(Listed {
            count: 100,
            more: false
        })
    );
    assert_eq!((&out[..100], out[100]), (&all[..], 7));
    let listed = index.list(0, u64::MAX, &mut out[..99]);
    assert_eq!(
        listed,
        Ok(Listed {
            count: 99,
            more: true
        })
    );
    assert_eq!(
        index.list(0, u64::MAX, &mut []),
        Ok(Listed {
            count: 0,
            more: true
        })
    );
}

/// An index is lent to threads as any value is.
#[test]
fn threads() {
    let mut index = index(64, 60, 250, 4096);
    assert_eq!(index.on(17, 5), Ok(()));
    let index = &index;
    std::thread::scope(|scope| {
        for _ in 0..2 {
            scope.spawn(move || assert_eq!(index.find(17), Ok(5)));
        }
    });
}

/// This day runs in 256 KiB of stack, under a root at level 15 too.
#[test]
fn small_stack() {
    let day = || {
        let mut index = index(16, 2, 6_000, 200);
        let mut high = 0;
        assert_eq!(index.on(0xfffe, 0), Ok(()));
        assert_eq!(index.on(0xffff, 1), Ok(()));
        let mut number = 1u32;
        for turn in 0..1_000 {
            number = number.wrapping_mul(1_664_525).wrapping_add(1_013_904_223);
            let record = 2 + turn % 198;
            if index.tables().used[record] == 1 {
                assert_eq!(index.off(index.tables().keys[record]), Ok(()));
            }
            let key = u64::from(number >> 16) | if turn % 4 == 0 { 0xfff0 } else { 0 };
            let put = index.on(key, record as u32);
            assert!(matches!(put, Ok(()) | Err(Refusal::KeyHeld)), "{put:?}");
            high += u32::from(root_level(&index) == 15);
        }
        assert_eq!(index.list_all(0xfffe, 0xffff), Ok(vec![0, 1]));
        assert_eq!(high, 1_000);
        assert_eq!(index.off(0xffff), Ok(()));
        assert_eq!(index.off(0xfffe), Ok(()));
        assert!(index.check());
    };
    let thread = std::thread::Builder::new()
        .stack_size(256 * 1024)
        .spawn(day);
    thread.expect("a thread").join().expect("a whole day");
}

/// The level of the root page: header bytes 4 and 5 have its number, and its first
/// byte its level.
fn root_level(index: &TagIndex) -> u8 {
    let bytes = &index.tables().index;
    let root = usize::from(u16::from_be_bytes([bytes[4], bytes[5]]));
    bytes[16 + root * (2 + 3 * usize::from(bytes[1]))]
}
