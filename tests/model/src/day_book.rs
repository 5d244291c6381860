//! The day-book program, from the bytes it reads to the bytes it prints.

use crate::index::Index;
use crate::tag_code::{pack, unpack, Fields};

/// "A line over 80 bytes, newline not counted, is bad."
const LONGEST_LINE: usize = 80;

/// "For list at most 32 records."
const MOST_LISTED: usize = 32;

/// A day book, line by line.
///
/// The program formats its tables itself and they stay sound, so the index is
/// kept in memory and row 1 is never met.
pub struct DayBook {
    index: Index,
    lines: u64,
}

/// A line of known form. A tag of that form may still be declined by 11.
enum Line {
    On(Tag, u64),
    Off(Tag),
    Find(Tag),
    List(Tag, Tag),
}

/// The code of a tag, or 11.
type Tag = Result<u64, u32>;

impl Default for DayBook {
    fn default() -> DayBook {
        DayBook::new()
    }
}

impl DayBook {
    /// "W 64, E 60, P 250, 4,096 records. It starts with format."
    pub fn new() -> DayBook {
        DayBook {
            index: Index::empty(64, 60, 250, 4096),
            lines: 0,
        }
    }

    /// The index as the lines so far have left it.
    pub fn index(&self) -> &Index {
        &self.index
    }

    /// What is printed for the next line; neither has its newline.
    pub fn line(&mut self, line: &[u8]) -> String {
        self.lines += 1;
        let (number, shown) = match self.answer(line) {
            Ok(shown) => (0, shown),
            Err(number) => (number, vec![]),
        };
        let mut fields = vec![self.lines.to_string(), number.to_string()];
        fields.extend(shown);
        fields.join("\t")
    }

    /// The fields shown if the line is done, or the number that declines it:
    /// 10, then 11, then the library's.
    fn answer(&mut self, line: &[u8]) -> Result<Vec<String>, u32> {
        match parse(line).ok_or(10u32)? {
            Line::On(tag, record) => self.index.on(tag?, record).map(|()| vec![]),
            Line::Off(tag) => self.index.off(tag?).map(|()| vec![]),
            Line::Find(tag) => self.index.find(tag?).map(|record| vec![record.to_string()]),
            Line::List(a, b) => self.index.list(a?, b?).map(|records| shown(&records)),
        }
    }
}

/// "At most 32 records and `+` if more remain."
fn shown(records: &[u32]) -> Vec<String> {
    let listed = records.iter().take(MOST_LISTED);
    let mut fields: Vec<String> = listed.map(u32::to_string).collect();
    if records.len() > MOST_LISTED {
        fields.push("+".to_string());
    }
    fields
}

/// A line, or nothing if it is bad.
fn parse(line: &[u8]) -> Option<Line> {
    if line.len() > LONGEST_LINE {
        return None;
    }
    let fields: Vec<&[u8]> = line.split(|&byte| byte == b'\t').collect();
    match fields[..] {
        [b"on", tag, record] => Some(Line::On(parse_tag(tag)?, parse_record(record)?)),
        [b"off", tag] => Some(Line::Off(parse_tag(tag)?)),
        [b"find", tag] => Some(Line::Find(parse_tag(tag)?)),
        [b"list", a, b] => Some(Line::List(parse_tag(a)?, parse_tag(b)?)),
        _ => None,
    }
}

/// "15 decimal digits (three of country, twelve of national number; flag 1,
/// other fields 0) or `h` and 16 lower-case hexadecimal digits."
fn parse_tag(tag: &[u8]) -> Option<Tag> {
    let (number, code) = match tag {
        [b'h', digits @ ..] if digits.len() == 16 => {
            let code = digits_value(digits, b"0123456789abcdef")?;
            (unpack(code).0, code)
        }
        digits if digits.len() == 15 => pack(Fields {
            animal_flag: 1,
            country: digits_value(&digits[..3], b"0123456789")?,
            national_number: digits_value(&digits[3..], b"0123456789")?,
            ..Fields::default()
        }),
        _ => return None,
    };
    Some(if number == 0 { Ok(code) } else { Err(number) })
}

/// "A record is 1 to 5 decimal digits."
fn parse_record(digits: &[u8]) -> Option<u64> {
    let sized = (1..=5).contains(&digits.len());
    if sized {
        digits_value(digits, b"0123456789")
    } else {
        None
    }
}

/// The number that the digits stand for; nothing if a byte is no digit.
fn digits_value(digits: &[u8], figures: &[u8]) -> Option<u64> {
    digits.iter().try_fold(0, |sum, byte| {
        let value = figures.iter().position(|figure| figure == byte)?;
        Some(sum * figures.len() as u64 + value as u64)
    })
}

/// The program: all that is printed for an input. "A last line without newline
/// counts."
pub fn run(input: &[u8]) -> Vec<u8> {
    let mut book = DayBook::new();
    let lines = input.split_inclusive(|&byte| byte == b'\n');
    let answers = lines.map(|line| book.line(line.strip_suffix(b"\n").unwrap_or(line)) + "\n");
    answers.collect::<String>().into_bytes()
}
