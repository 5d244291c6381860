//! Random day books.

use super::Random;

/// A day book of so many lines: a market of a few hundred tags, close enough
/// to each other that most lines meet a held one, and now and then a line that
/// is bad or declined.
pub fn day_book(random: &mut Random, lines: usize) -> Vec<u8> {
    let mut book = Vec::new();
    for number in 1..=lines {
        book.extend(line(random));
        if number < lines || random.percent(80) {
            book.push(b'\n');
        }
    }
    book
}

/// One line of a day book, without its newline.
pub fn line(random: &mut Random) -> Vec<u8> {
    let record = match random.below(20) {
        0 => random.below(100_000).to_string(),
        1 => format!("{:05}", random.below(4_097)),
        2 => String::new(),
        _ => random.below(4_096).to_string(),
    };
    let line = match random.below(20) {
        0..=8 => format!("on\t{}\t{record}", tag(random)),
        9..=13 => format!("off\t{}", tag(random)),
        14..=16 => format!("find\t{}", tag(random)),
        17 | 18 => format!("list\t{}\t{}", tag(random), tag(random)),
        _ => String::new(),
    };
    if random.percent(5) {
        return spoilt(random, line.into_bytes());
    }
    line.into_bytes()
}

fn tag(random: &mut Random) -> String {
    let country = *random.pick(&[826, 826, 826, 372, 999, 0]);
    let national = random.below(200);
    match random.below(40) {
        0 => format!("h{:016x}", random.number()),
        1 => format!("{country:03}{:012}", random.number() % 1_000_000_000_000),
        2 => format!("{country:03}{:012}", 274_877_906_943 + random.number() % 2),
        3..=8 => {
            // The largest tags, whose long common stems make many dummies.
            format!("hfffff9ffffff{:04x}", 65_535 - national)
        }
        9..=12 => format!("h{:016x}", (1u64 << 63) | (826 << 38) | national as u64),
        _ => format!("{country:03}{national:012}"),
    }
}

/// The line with one byte put in, taken out or altered, or grown too long.
fn spoilt(random: &mut Random, mut line: Vec<u8>) -> Vec<u8> {
    let byte = *random.pick(b"\t\r 0aAgH+-\0\xff");
    let place = random.below(line.len() + 1);
    match random.below(4) {
        0 => line.insert(place, byte),
        1 if place < line.len() => drop(line.remove(place)),
        2 if place < line.len() => line[place] = byte,
        _ => line.resize(random.between(78, 90), byte),
    }
    line
}
