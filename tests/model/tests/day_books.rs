//! The day-book program, byte for byte.

mod common;

use common::seeds;
use model::answer::Answer;
use model::day_book::{run, DayBook};
use model::index::Room;
use model::map::{Lengths, Map};
use model::random::day_books::day_book;
use model::random::Random;
use std::collections::BTreeSet;

fn printed(input: &str) -> String {
    String::from_utf8(run(input.as_bytes())).expect("plain text")
}

/// The answer to one line, without its line number.
fn answer(line: &str) -> String {
    let output = printed(line);
    let output = output.strip_prefix("1\t").expect("line number 1");
    output.strip_suffix('\n').expect("a newline").to_string()
}

#[test]
fn the_printed_example() {
    let input = "on\t826000000000017\t5\n\
                 on\t826000000000016\t2\n\
                 find\t826000000000017\n\
                 list\t826000000000000\t826274877906943\n\
                 off\t826000000000099\n";
    assert_eq!(printed(input), "1\t0\n2\t0\n3\t0\t5\n4\t0\t2\t5\n5\t6\n");
    let without_newline = input.strip_suffix('\n').expect("a newline");
    assert_eq!(printed(without_newline), printed(input));
}

#[test]
fn empty_input_and_empty_lines() {
    assert_eq!(printed(""), "");
    assert_eq!(printed("\n"), "1\t10\n");
    assert_eq!(printed("\n\n"), "1\t10\n2\t10\n");
    assert_eq!(printed("\nfind\t826000000000017"), "1\t10\n2\t6\n");
}

#[test]
fn bad_lines() {
    let bad = [
        "on",
        "on\t826000000000017",
        "on\t826000000000017\t",
        "on\t826000000000017\t5\t",
        "on\t\t826000000000017\t5",
        "on 826000000000017 5",
        " on\t826000000000017\t5",
        "on\t826000000000017\t5 ",
        "on\t826000000000017\t123456",
        "on\t826000000000017\t-1",
        "on\t826000000000017\t+1",
        "on\t826000000000017\t5\r",
        "ON\t826000000000017\t5",
        "off\t826000000000017\t5",
        "off\t82600000000017",
        "off\t8260000000000017",
        "off\t82600000000001a",
        "off\t826000000000017\r",
        "off\tH8000000000000001",
        "off\th800000000000001",
        "off\th80000000000000001",
        "off\th800000000000000A",
        "off\th800000000000000g",
        "find",
        "find\t",
        "list\t826000000000017",
        "list\t826000000000017\t826000000000017\t826000000000017",
        "check",
        "format",
        "\t",
        "\0",
    ];
    for line in bad {
        assert_eq!(answer(line), "10", "{line:?}");
    }
    assert_eq!(run(b"find\t\xff"), b"1\t10\n");
}

#[test]
fn a_line_over_80_bytes_is_one_bad_line() {
    let long = "x".repeat(81);
    assert_eq!(
        printed(&format!("{long}\nfind\t826000000000017\n")),
        "1\t10\n2\t6\n"
    );
    let longer = "y".repeat(10_000);
    assert_eq!(printed(&format!("{longer}\n{longer}")), "1\t10\n2\t10\n");
}

#[test]
fn records_may_have_leading_zeros() {
    let input = "on\t826000000000017\t00007\nfind\t826000000000017\n";
    assert_eq!(printed(input), "1\t0\n2\t0\t7\n");
    assert_eq!(answer("on\t826000000000017\t4095"), "0");
    assert_eq!(answer("on\t826000000000017\t4096"), "3");
    assert_eq!(answer("on\t826000000000017\t99999"), "3");
    assert_eq!(answer("on\t826000000000017\t00000"), "0");
}

#[test]
fn row_11_stands_after_10_and_before_the_library() {
    assert_eq!(answer("on\t826274877906943\t0"), "0");
    assert_eq!(answer("on\t826274877906944\t0"), "11");
    assert_eq!(answer("on\t826274877906944\t99999"), "11");
    assert_eq!(answer("on\t826274877906944\t999999"), "10");
    assert_eq!(answer("list\t826274877906944\t1"), "10");
    assert_eq!(answer("list\t826000000000001\t826999999999999"), "11");
    assert_eq!(answer("list\t826999999999999\t826000000000001"), "11");
    assert_eq!(answer("off\t999274877906943"), "6");
}

#[test]
fn hexadecimal_tags_carry_any_field_but_a_country_above_999() {
    assert_eq!(answer("off\th0000f9ffffffffff"), "6");
    assert_eq!(answer("off\th0000fa0000000000"), "11");
    assert_eq!(answer("off\thffffffffffffffff"), "11");
    assert_eq!(answer("off\thfffff9ffffffffff"), "6");
    let input = "on\th0000000000000000\t3\non\t826000000000017\t4\nfind\th8000ce8000000011\n";
    assert_eq!(printed(input), "1\t0\n2\t0\n3\t0\t4\n");
}

#[test]
fn a_list_prints_at_most_32_records() {
    let mut input = String::new();
    for record in 0..33 {
        input += &format!("on\t826{:012}\t{record}\n", 100 - record);
        input += "list\t826000000000000\t826000000000100\n";
    }
    let output = printed(&input);
    let lists: Vec<&str> = output.lines().skip(1).step_by(2).collect();
    let fields = |line: &str| line.split('\t').count();
    assert_eq!(lists[0], "2\t0\t0");
    assert_eq!(lists[1], "4\t0\t1\t0");
    assert_eq!(fields(lists[31]), 2 + 32);
    assert!(lists[31].starts_with("64\t0\t31\t30\t") && lists[31].ends_with("\t1\t0"));
    assert_eq!(fields(lists[32]), 2 + 32 + 1);
    assert!(lists[32].starts_with("66\t0\t32\t31\t") && lists[32].ends_with("\t2\t1\t+"));
    assert_eq!(answer("list\t826000000000001\t826000000000000"), "0");
}

/// A random line, the map's answer to it and the records it shows if done.
fn random_line(random: &mut Random, map: &mut Map) -> (String, Answer, Vec<u32>) {
    let [a, b] = [0, 1].map(|_| random.below(400) as u64);
    let record = random.below(300) as u64;
    match random.below(10) {
        0..=4 => {
            let answer = map.on(LENGTHS, code(a), record, || ROOM);
            (format!("on\t826{a:012}\t{record}"), answer, vec![])
        }
        5 | 6 => (format!("off\t826{a:012}"), map.off(code(a)), vec![]),
        7 | 8 => {
            let answer = map.find(code(a));
            (
                format!("find\th{:016x}", code(a)),
                answer,
                vec![answer.record],
            )
        }
        _ => {
            let mut slice = vec![0; 32];
            let answer = map.list(code(a), code(b), &mut slice);
            slice.truncate(answer.count as usize);
            (format!("list\t826{a:012}\t826{b:012}"), answer, slice)
        }
    }
}

#[test]
fn random_day_books_follow_the_map() {
    for seed in seeds(20) {
        let mut random = Random::new(seed);
        let mut map = Map::new(64);
        let mut book = DayBook::new();
        for number in 1..=800 {
            let (line, answer, records) = random_line(&mut random, &mut map);
            let expected = expected_line(number, answer, &records);
            assert_eq!(book.line(line.as_bytes()), expected, "seed {seed}, {line}");
        }
    }
}

/// The register of the day book, and a tree that never fills.
const LENGTHS: Lengths = Lengths {
    index: 0,
    keys: 4096,
    used: 4096,
};
const ROOM: Room = Room {
    row_8: false,
    row_7: false,
};

/// The code of the tag 826 with this national number.
fn code(national: u64) -> u64 {
    (1 << 63) + (826 << 38) + national
}

fn expected_line(line: u64, answer: Answer, records: &[u32]) -> String {
    let mut expected = format!("{line}\t{}", answer.number);
    if answer.number == 0 {
        expected.extend(records.iter().map(|record| format!("\t{record}")));
    }
    if answer.more {
        expected += "\t+";
    }
    expected
}

#[test]
fn every_line_of_a_random_book_is_answered() {
    let mut answers = BTreeSet::new();
    for seed in seeds(10) {
        let book = day_book(&mut Random::new(seed), 600);
        let output = String::from_utf8(run(&book)).expect("plain text");
        assert!(output.ends_with('\n'));
        assert_eq!(output.lines().count(), 600, "seed {seed}");
        for (line, number) in output.lines().zip(1..) {
            let mut fields = line.split('\t');
            assert_eq!(fields.next(), Some(number.to_string().as_str()));
            answers.insert(fields.next().expect("an answer").to_string());
        }
    }
    let expected = ["0", "10", "11", "3", "4", "5", "6"];
    assert_eq!(
        answers.iter().map(String::as_str).collect::<Vec<_>>(),
        expected
    );
}

#[test]
fn a_day_book_can_run_out_of_pages() {
    // Two neighbours under a stem of their own have a dummy for most bits.
    let mut book = DayBook::new();
    let mut answers = BTreeSet::new();
    for pair in 0..400u64 {
        let stem = pair.wrapping_mul(0x9e37_79b9_7f4a_7c15) & 0xffff_0000_0000_0000;
        for low in 0..2 {
            let tag = stem | (0xf9ff_ffff_ffff - low);
            let line = book.line(format!("on\th{tag:016x}\t{}", 2 * pair + low).as_bytes());
            answers.insert(line.split('\t').nth(1).expect("an answer").to_string());
        }
    }
    assert!(answers.contains("7"), "{answers:?}");
    assert!(book.index().root.pages().len() <= 250);
}
