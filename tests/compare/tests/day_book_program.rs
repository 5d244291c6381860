//! The day-book program beside the model's day book, on whole inputs.

use compare::program::{printed, printed_by_pieces, root, start};
use compare::supply::seeds;
use model::day_book::run;
use model::random::day_books::{day_book, line};
use model::random::Random;
use std::collections::BTreeSet;
use std::fs;
use std::io::{BufRead, BufReader, Write};

/// What the program prints must be what the model prints.
fn same(input: &[u8], named: &str) {
    let (found, expected) = (printed(input), run(input));
    if found == expected {
        return;
    }
    let differ = |(a, b): (&[u8], &[u8])| a != b;
    let lines = found
        .split(|&b| b == b'\n')
        .zip(expected.split(|&b| b == b'\n'));
    let at = lines.clone().position(differ);
    let told = at.and_then(|at| {
        let asked = input.split(|&b| b == b'\n').nth(at)?;
        let (found, expected) = lines.clone().nth(at)?;
        Some([asked, found, expected].map(|bytes| String::from_utf8_lossy(bytes).into_owned()))
    });
    panic!("{named}: line, program, model: {told:?}");
}

/// The answer numbers that are printed.
fn numbers(output: &[u8]) -> BTreeSet<String> {
    let lines = output.split(|&byte| byte == b'\n');
    let numbers = lines.filter_map(|line| line.split(|&byte| byte == b'\t').nth(1));
    numbers
        .map(|bytes| String::from_utf8_lossy(bytes).into_owned())
        .collect()
}

/// A book of lines that are mostly no good: any bytes, and fields of any kind,
/// too many or too few.
fn rough_book(random: &mut Random, lines: usize) -> Vec<u8> {
    let mut book = Vec::new();
    for _ in 0..lines {
        match random.below(8) {
            0 | 1 => book.extend(line(random)),
            2 => {
                let length = random.between(0, 200);
                book.extend(
                    (0..length)
                        .map(|_| random.number() as u8)
                        .filter(|&b| b != b'\n'),
                );
            }
            _ => book.extend(fields(random).join(&b'\t')),
        }
        book.extend(
            random
                .pick(&[
                    &b"\n"[..],
                    b"\n",
                    b"\n",
                    b"\n",
                    b"\n",
                    b"\r\n",
                    b"\n\n",
                    b"\0\n",
                ])
                .iter(),
        );
    }
    if random.percent(50) {
        book.pop();
    }
    book
}

/// One to six fields, each good somewhere.
fn fields(random: &mut Random) -> Vec<Vec<u8>> {
    let verbs: [&[u8]; 10] = [
        b"on", b"off", b"find", b"list", b"On", b"FIND", b" list", b"off ", b"", b"o",
    ];
    let verb = random.pick(&verbs).to_vec();
    let more = random.between(0, 5).min(random.between(1, 5));
    let mut fields = vec![verb];
    fields.extend((0..more).map(|_| field(random)));
    fields
}

/// A tag or a record, well written or nearly so.
fn field(random: &mut Random) -> Vec<u8> {
    let near = random.below(100);
    let text = match random.below(16) {
        0..=3 => format!("826{near:012}"),
        4 => format!("h80000338000000{near:02x}"),
        5 => format!("H80000338000000{near:02x}"),
        6 => format!("h8000033800000A{near:02x}"),
        7 => format!("h{:016x}", random.number()),
        8 => format!(
            "{:03}{:012}",
            random.below(1100),
            random.number() % 400_000_000_000
        ),
        9 => format!("826{near:011}"),
        10 => format!("826{near:013}"),
        11 => format!("{near:05}"),
        12 => format!("{near:06}"),
        13 => near.to_string(),
        14 => format!("+{near}"),
        _ => String::new(),
    };
    text.into_bytes()
}

/// Every answer but 2, 7 and 8, which such books do not get.
#[test]
fn random_books() {
    let mut answers = BTreeSet::new();
    for seed in seeds(12) {
        let mut random = Random::new(seed);
        let lines = random.between(1_000, 4_000);
        let book = day_book(&mut random, lines);
        same(&book, &format!("seed {seed}"));
        answers.extend(numbers(&run(&book)));
    }
    assert!(
        ["0", "3", "4", "5", "6", "10", "11"]
            .iter()
            .all(|&number| answers.contains(number)),
        "{answers:?}"
    );
}

#[test]
fn rough_books() {
    for seed in seeds(12) {
        let mut random = Random::new(seed);
        let lines = random.between(1_000, 6_000);
        same(&rough_book(&mut random, lines), &format!("seed {seed}"));
    }
}

/// Lines about the longest that are not bad, across the end of a chunk.
#[test]
fn long_lines() {
    let mut book = Vec::new();
    for number in 0..3_000usize {
        let end = [78, 79, 80, 81, 82, 83, 161, 162, 163, 70_000][number % 10];
        let mut long = format!("find\t826{:012}", number % 7).into_bytes();
        long.resize(
            if number % 10 == 9 && number % 100 != 9 {
                84
            } else {
                end
            },
            b'0' + (number % 10) as u8,
        );
        book.extend(if number % 3 == 0 {
            format!("on\t826{:012}\t{number}", number % 7).into_bytes()
        } else {
            long
        });
        book.push(b'\n');
    }
    same(&book, "long lines");
    for length in [80, 81, 82, 65_535, 65_536, 65_537, 131_072] {
        same(&vec![b'a'; length], "one long line without newline");
    }
}

/// A herd of every record, and one more; then none.
#[test]
fn full_herd() {
    let mut book = String::new();
    for record in 0..4_100 {
        book += &format!("on\t826{:012}\t{record}\n", record * 3);
    }
    book += "list\t826000000000000\t826274877906943\non\t826000000000001\t4095\n";
    for record in 0..4_100 {
        book += &format!("off\t826{:012}\n", record * 3);
    }
    book += "list\th0000000000000000\thfffff9ffffffffff\n";
    same(book.as_bytes(), "a full herd");
}

/// Neighbours with long common stems, whose dummies fill the pages: 7 is
/// answered.
#[test]
fn no_page_left() {
    let mut random = Random::new(11);
    let mut book = String::new();
    for pair in 0..800 {
        let ones = random.number() | random.number() | random.number();
        let tag = ones & !(0x3ff << 38 | 1) | 826 << 38;
        for last in [0, 1] {
            let record = pair * 2 + last;
            book += &format!("on\th{:016x}\t{record}\n", tag | last);
        }
    }
    same(book.as_bytes(), "no page left");
    assert!(numbers(&run(book.as_bytes())).contains("7"));
}

#[test]
fn ends_of_the_input() {
    let inputs: [&[u8]; 12] = [
        b"",
        b"\n",
        b"\n\n",
        b"x",
        b"x\n",
        b"find\t826000000000001",
        b"find\t826000000000001\n",
        b"find\t826000000000001\r\n",
        b"\0",
        b"\0\n",
        b"on\t826000000000001\t1\nfind\t826000000000001",
        b"\t\n\t\t\n \n",
    ];
    for input in inputs {
        same(input, &format!("{:?}", String::from_utf8_lossy(input)));
    }
    assert!(printed(b"").is_empty());
}

/// However the input comes, the output is the same.
#[test]
fn pieces_of_any_size() {
    let mut random = Random::new(7);
    let mut book = day_book(&mut random, 2_000);
    book.extend(rough_book(&mut random, 1_500));
    let expected = run(&book);
    for piece in [1, 2, 81, 4_096, 65_535, 65_536, 65_537] {
        assert!(
            printed_by_pieces(&book, piece) == expected,
            "pieces of {piece} bytes"
        );
    }
}

/// A line is answered before the next is sent.
#[test]
fn line_by_line() {
    let mut random = Random::new(3);
    let mut child = start();
    let mut stdin = child.stdin.take().expect("a pipe");
    let mut stdout = BufReader::new(child.stdout.take().expect("a pipe"));
    let mut sent = Vec::new();
    let mut answers = Vec::new();
    for _ in 0..300 {
        let mut line = line(&mut random);
        line.retain(|&byte| byte != b'\n');
        line.push(b'\n');
        stdin.write_all(&line).expect("the program reads");
        sent.extend(line);
        let answered = stdout
            .read_until(b'\n', &mut answers)
            .expect("the program writes");
        assert!(answered > 0);
    }
    drop(stdin);
    assert!(child.wait().expect("the program ends").success());
    assert!(answers == run(&sent));
}

/// "Input: .. Output: .." of the specification, and the example's market day.
#[test]
fn the_examples() {
    for [input, output] in [
        ["crates/daybook/stdin", "crates/daybook/stdout"],
        ["examples/market_day.txt", "examples/market_day.out"],
    ] {
        let [input, output] =
            [input, output].map(|path| fs::read(root().join(path)).expect("a file"));
        assert!(run(&input) == output);
        assert!(printed(&input) == output);
    }
}
