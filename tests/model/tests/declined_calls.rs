//! "When a call is declined": each row, their order, and what a refusal leaves.

use model::answer::Answer;
use model::calls::{check, find, format, list, off, on};
use model::table::{read, Tables};

/// Tables after a done format.
fn formatted(w: u64, e: usize, p: usize, records: usize) -> Tables {
    let mut tables = Tables::zero(e, p, records);
    assert_eq!(put_format(&mut tables, w, e as u64, p as u64), 0);
    tables
}

fn put_format(tables: &mut Tables, w: u64, e: u64, p: u64) -> u32 {
    let Tables { index, keys, used } = tables;
    answered(format(index, keys, used, w, e, p))
}

fn put_on(tables: &mut Tables, key: u64, record: u64) -> u32 {
    let before = tables.clone();
    let Tables { index, keys, used } = tables;
    let number = answered(on(index, keys, used, key, record));
    assert!(number == 0 || *tables == before, "a refusal changed a byte");
    number
}

fn take_off(tables: &mut Tables, key: u64) -> u32 {
    let before = tables.clone();
    let Tables { index, keys, used } = tables;
    let number = answered(off(index, keys, used, key));
    assert!(number == 0 || *tables == before, "a refusal changed a byte");
    number
}

/// The number of an answer that sets nothing else.
fn answered(answer: Answer) -> u32 {
    assert_eq!(
        (answer.record, answer.count, answer.more),
        (65_535, 0, false)
    );
    answer.number
}

fn find_in(tables: &Tables, key: u64) -> Answer {
    find(&tables.index, &tables.keys, &tables.used, key)
}

fn list_in(tables: &Tables, a: u64, b: u64, out: &mut [u32]) -> Answer {
    list(&tables.index, &tables.keys, &tables.used, a, b, out)
}

#[test]
fn row_9_at_each_limit() {
    let tables = |e, p, records| Tables::zero(e, p, records);
    let cases = [
        (tables(2, 1, 1), (0, 2, 1), 9),
        (tables(2, 1, 1), (1, 2, 1), 0),
        (tables(2, 1, 1), (64, 2, 1), 0),
        (tables(2, 1, 1), (65, 2, 1), 9),
        (tables(1, 1, 1), (8, 1, 1), 9),
        (tables(255, 1, 1), (8, 255, 1), 0),
        (tables(256, 1, 1), (8, 256, 1), 9),
        (tables(2, 0, 1), (8, 2, 0), 9),
        (tables(2, 65_534, 1), (8, 2, 65_534), 0),
        (tables(2, 65_535, 1), (8, 2, 65_535), 9),
        (tables(2, 1, 0), (8, 2, 1), 9),
        (tables(2, 1, 65_534), (8, 2, 1), 0),
        (tables(2, 1, 65_535), (8, 2, 1), 9),
        (tables(2, 2, 1), (8, 2, 1), 9),
        (tables(2, 1, 1), (u64::MAX, 2, 1), 9),
        (tables(2, 1, 1), (8, u64::MAX, 1), 9),
        (tables(2, 1, 1), (8, 2, u64::MAX), 9),
        (tables(2, 1, 1), (8, 2, 1 << 61), 9),
    ];
    for (mut tables, (w, e, p), number) in cases {
        assert_eq!(
            put_format(&mut tables, w, e, p),
            number,
            "W {w} E {e} P {p}"
        );
    }
}

#[test]
fn row_9_on_lengths_changes_nothing() {
    for change in 0..4 {
        let mut tables = formatted(8, 2, 3, 4);
        assert_eq!(put_on(&mut tables, 7, 1), 0);
        match change {
            0 => tables.index.push(0),
            1 => drop(tables.index.pop()),
            2 => tables.keys.push(0),
            _ => tables.used.push(0),
        }
        let before = tables.clone();
        assert_eq!(put_format(&mut tables, 8, 2, 3), 9);
        assert_eq!(tables, before);
    }
}

#[test]
fn format_writes_every_byte() {
    let mut tables = Tables::zero(3, 4, 5);
    tables.index.fill(0xaa);
    tables.keys.fill(77);
    tables.used.fill(9);
    assert_eq!(put_format(&mut tables, 33, 3, 4), 0);
    let mut expected = vec![0; 16 + 4 * 11];
    expected[..4].copy_from_slice(&[33, 3, 0, 4]);
    expected[17..21].copy_from_slice(&[1, 0, 255, 255]);
    assert_eq!(tables.index, expected);
    assert_eq!((tables.keys, tables.used), (vec![0; 5], vec![0; 5]));
}

#[test]
fn row_1_on_a_15_byte_index_table() {
    let mut tables = formatted(8, 2, 3, 4);
    tables.index.truncate(15);
    assert_eq!(put_on(&mut tables, 256, 4), 1);
    assert_eq!(take_off(&mut tables, 256), 1);
    assert_eq!(answered(find_in(&tables, 256)), 1);
    let mut out = [5, 6];
    assert_eq!(answered(list_in(&tables, 256, 0, &mut out)), 1);
    assert_eq!(out, [5, 6]);
    assert!(!check(&tables.index, &tables.keys, &tables.used));
}

#[test]
fn row_2_on_either_end_of_a_list_even_with_a_above_b() {
    let mut tables = formatted(8, 2, 9, 4);
    assert_eq!(put_on(&mut tables, 256, 4), 2);
    assert_eq!(take_off(&mut tables, 256), 2);
    assert_eq!(answered(find_in(&tables, 256)), 2);
    assert_eq!(answered(list_in(&tables, 256, 0, &mut [0])), 2);
    assert_eq!(answered(list_in(&tables, 0, 256, &mut [0])), 2);
    assert_eq!(answered(list_in(&tables, 255, 0, &mut [0])), 0);
    assert_eq!(put_on(&mut tables, 255, 0), 0);
}

#[test]
fn rows_3_4_5_in_order() {
    let mut tables = formatted(8, 2, 9, 4);
    assert_eq!(put_on(&mut tables, 7, 0), 0);
    assert_eq!(put_on(&mut tables, 256, 0), 2);
    assert_eq!(put_on(&mut tables, 7, 4), 3);
    assert_eq!(put_on(&mut tables, 9, u64::MAX), 3);
    assert_eq!(put_on(&mut tables, 9, 1 << 32), 3);
    assert_eq!(put_on(&mut tables, 7, 0), 4);
    assert_eq!(put_on(&mut tables, 8, 0), 4);
    assert_eq!(put_on(&mut tables, 7, 3), 5);
    assert_eq!(put_on(&mut tables, 8, 3), 0);
}

#[test]
fn row_6_of_find_and_off() {
    let mut tables = formatted(8, 2, 9, 4);
    assert_eq!(answered(find_in(&tables, 7)), 6);
    assert_eq!(take_off(&mut tables, 7), 6);
    assert_eq!(put_on(&mut tables, 7, 2), 0);
    assert_eq!(find_in(&tables, 7), Answer::found(2));
    assert_eq!(
        answered(find_in(&tables, 6)),
        6,
        "the key is compared whole"
    );
    assert_eq!(take_off(&mut tables, 6), 6);
    assert_eq!(take_off(&mut tables, 7), 0);
    assert_eq!(answered(find_in(&tables, 7)), 6);
}

#[test]
fn rows_7_and_8_on_both_sides() {
    let mut narrow = formatted(16, 2, 135, 2);
    assert_eq!(put_on(&mut narrow, 65_535, 0), 0);
    assert_eq!(put_on(&mut narrow, 65_534, 1), 7);
    let mut enough = formatted(16, 2, 136, 2);
    assert_eq!(put_on(&mut enough, 65_535, 0), 0);
    assert_eq!(put_on(&mut enough, 65_534, 1), 0);
    let index = read(enough.lent());
    assert_eq!((index.root.level(), index.root.pages().len()), (15, 136));
    for pages in [1, 135, 1000] {
        let mut wide = formatted(17, 2, pages, 2);
        assert_eq!(put_on(&mut wide, (1 << 17) - 1, 0), 0);
        assert_eq!(put_on(&mut wide, (1 << 17) - 2, 1), 8, "8 stands before 7");
    }
}

#[test]
fn rows_5_and_4_stand_before_8_and_7() {
    let mut full = formatted(17, 2, 1, 2);
    assert_eq!(put_on(&mut full, (1 << 17) - 1, 0), 0);
    assert_eq!(put_on(&mut full, (1 << 17) - 2, 0), 4);
    assert_eq!(put_on(&mut full, (1 << 17) - 1, 1), 5);
    assert_eq!(put_on(&mut full, (1 << 17) - 2, 1), 8);
}

#[test]
fn an_on_that_cuts_nothing_never_meets_7() {
    let mut one_page = formatted(8, 3, 1, 4);
    assert_eq!(put_on(&mut one_page, 0b0000_0000, 0), 0);
    assert_eq!(put_on(&mut one_page, 0b1000_0000, 1), 0);
    assert_eq!(put_on(&mut one_page, 0b0100_0000, 2), 0);
    assert_eq!(put_on(&mut one_page, 0b1100_0000, 3), 7);
    assert_eq!(take_off(&mut one_page, 0b0100_0000), 0);
    assert_eq!(put_on(&mut one_page, 0b1100_0000, 2), 0);
}

#[test]
fn a_list_fills_the_slice_and_keeps_the_rest() {
    let mut tables = formatted(8, 2, 9, 4);
    for (key, record) in [(255, 1), (0, 3), (9, 0)] {
        assert_eq!(put_on(&mut tables, key, record), 0);
    }
    let cases: [(u64, u64, usize, &[u32], bool); 8] = [
        (0, 255, 5, &[3, 0, 1, 8, 8], false),
        (0, 255, 3, &[3, 0, 1], false),
        (0, 255, 2, &[3, 0], true),
        (0, 255, 0, &[], true),
        (0, 254, 3, &[3, 0, 8], false),
        (9, 9, 2, &[0, 8], false),
        (10, 254, 1, &[8], false),
        (255, 0, 2, &[8, 8], false),
    ];
    for (a, b, length, expected, more) in cases {
        let mut out = vec![8; length];
        let answer = list_in(&tables, a, b, &mut out);
        let count = expected.iter().filter(|&&record| record != 8).count();
        assert_eq!(out, expected, "{a} to {b}");
        assert_eq!(
            answer,
            Answer {
                number: 0,
                record: 65_535,
                count: count as u64,
                more
            }
        );
    }
}
