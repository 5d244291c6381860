//! The calls on lent tables.

use crate::answer::Answer;
use crate::index::{Index, Room};
use crate::sound::sound;
use crate::table::{read, write, Lent, LAYOUT};

/// A movement of a load: a key goes on a record, or off.
#[derive(Clone, Copy, Debug, PartialEq, Eq)]
pub struct Movement {
    /// The key that is moved.
    pub key: u64,
    /// The record of an on. An off takes the key alone, whatever stands here.
    pub record: u32,
    /// 0 is an off, any other value is an on.
    pub on: u32,
}

/// Format: 9, or the empty herd.
pub fn format(
    index: &mut [u8],
    keys: &mut [u64],
    used: &mut [u8],
    w: u64,
    e: u64,
    p: u64,
) -> Answer {
    let numbers = (1..=64).contains(&w) && (2..=255).contains(&e) && (1..=65_534).contains(&p);
    let records = (1..=LAYOUT.most_records()).contains(&keys.len()) && used.len() == keys.len();
    if !numbers || !records || index.len() != LAYOUT.index_bytes(e as usize, p as usize) {
        return Answer::refusal(9);
    }
    let empty = Index::empty(w as usize, e as usize, p as usize, keys.len());
    write(&empty, index, keys, used);
    Answer::done()
}

/// On: 1, 2, 3, 4, 5, 8, 7, or the key is put on the record.
pub fn on(index: &mut [u8], keys: &mut [u64], used: &mut [u8], key: u64, record: u64) -> Answer {
    change(index, keys, used, |held| held.on(key, record))
}

/// Off: 1, 2, 6, or the key is taken off.
pub fn off(index: &mut [u8], keys: &mut [u64], used: &mut [u8], key: u64) -> Answer {
    change(index, keys, used, |held| held.off(key))
}

/// Load: 1, 12, or one answer beside each movement. It "checks once and then
/// works through the list of movements": each gets what those before it left.
pub fn load(
    index: &mut [u8],
    keys: &mut [u64],
    used: &mut [u8],
    movements: &[Movement],
    answers: &mut [u32],
) -> Answer {
    change(index, keys, used, |held| {
        // "12, the answer list is shorter than the list of movements, tested
        // after 1."
        if answers.len() < movements.len() {
            return Err(12);
        }
        // "Answer entries beyond the last movement are kept."
        for (movement, answer) in movements.iter().zip(answers) {
            let moved = match movement.on {
                0 => held.off(movement.key),
                _ => held.on(movement.key, movement.record.into()),
            };
            // "A refused movement is passed over and the rest go on."
            *answer = moved.err().unwrap_or(0);
        }
        Ok(())
    })
}

/// Find: 1, 2, 6, or the key's record.
pub fn find(index: &[u8], keys: &[u64], used: &[u8], key: u64) -> Answer {
    let found = read_sound(Lent { index, keys, used }).and_then(|held| held.find(key));
    found.map_or_else(Answer::refusal, Answer::found)
}

/// List: 1, 2, or the records of the keys from a to b, as many as `out` holds.
pub fn list(index: &[u8], keys: &[u64], used: &[u8], a: u64, b: u64, out: &mut [u32]) -> Answer {
    let records = read_sound(Lent { index, keys, used }).and_then(|held| held.list(a, b));
    records.map_or_else(Answer::refusal, |records| {
        let count = records.len().min(out.len());
        out[..count].copy_from_slice(&records[..count]);
        Answer::listed(count, records.len())
    })
}

/// Check: whether the tables are sound.
pub fn check(index: &[u8], keys: &[u64], used: &[u8]) -> bool {
    sound(Lent { index, keys, used }).is_ok()
}

/// Whether rows 8 and 7 apply to an on, or the row from 1 to 5 before them.
pub fn room(index: &[u8], keys: &[u64], used: &[u8], key: u64, record: u64) -> Result<Room, u32> {
    read_sound(Lent { index, keys, used })?.room(key, record)
}

/// Row 1.
fn read_sound(lent: Lent) -> Result<Index, u32> {
    match sound(lent) {
        Ok(()) => Ok(read(lent)),
        Err(_) => Err(1),
    }
}

/// Checks and reads the tables once, changes them, and writes them back if that
/// is done.
fn change(
    index: &mut [u8],
    keys: &mut [u64],
    used: &mut [u8],
    step: impl FnOnce(&mut Index) -> Result<(), u32>,
) -> Answer {
    let lent = Lent { index, keys, used };
    let mut held = match read_sound(lent) {
        Ok(held) => held,
        Err(number) => return Answer::refusal(number),
    };
    if let Err(number) = step(&mut held) {
        return Answer::refusal(number);
    }
    write(&held, index, keys, used);
    Answer::done()
}
