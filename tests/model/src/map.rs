//! The ordered map that histories are measured against.
//!
//! "It sees no answer and no page."

use crate::answer::Answer;
use crate::calls::Movement;
use crate::index::Room;
use std::collections::BTreeMap;

/// The lengths of the lent tables.
#[derive(Clone, Copy, Debug)]
pub struct Lengths {
    /// Bytes of the index table.
    pub index: usize,
    /// Keys of the register.
    pub keys: usize,
    /// Bytes of the register.
    pub used: usize,
}

/// "Its state is W and the held keys, each with its record."
#[derive(Clone, Debug)]
pub struct Map {
    /// W.
    pub width: u64,
    /// The held keys, each with its record.
    pub held: BTreeMap<u64, u32>,
}

impl Map {
    /// The map at first: no key is held.
    pub fn new(width: u64) -> Map {
        Map {
            width,
            held: BTreeMap::new(),
        }
    }

    /// "9 by its row; else 0, W is as given and no key is held."
    pub fn format(&mut self, lengths: Lengths, w: u64, e: u64, p: u64) -> Answer {
        let (index, keys) = (lengths.index as u128, lengths.keys);
        let limits = (1..=64).contains(&w) && (2..=255).contains(&e) && (1..=65_534).contains(&p);
        let register = (1..=65_534).contains(&keys) && lengths.used == keys;
        if !limits || !register || index != 16 + u128::from(p) * (2 + 3 * u128::from(e)) {
            return Answer::refusal(9);
        }
        *self = Map::new(w);
        Answer::done()
    }

    /// "2, 3, 4 or 5, the first whose row applies. Else 8 if row 8 applies,
    /// else 7 if row 7 does. Else 0, and the key is held with that record."
    /// The map asks for the room only of an on that rows 2 to 5 let pass.
    pub fn on(
        &mut self,
        lengths: Lengths,
        key: u64,
        record: u64,
        room: impl FnOnce() -> Room,
    ) -> Answer {
        if self.too_wide(key) {
            return Answer::refusal(2);
        }
        if record >= lengths.keys as u64 {
            return Answer::refusal(3);
        }
        if self.held.values().any(|&held| u64::from(held) == record) {
            return Answer::refusal(4);
        }
        if self.held.contains_key(&key) {
            return Answer::refusal(5);
        }
        match room() {
            Room { row_8: true, .. } => Answer::refusal(8),
            Room { row_7: true, .. } => Answer::refusal(7),
            _ => {
                self.held.insert(key, record as u32);
                Answer::done()
            }
        }
    }

    /// "2; else 6 if the key is not held; else 0, and it is held no more."
    pub fn off(&mut self, key: u64) -> Answer {
        if self.too_wide(key) {
            return Answer::refusal(2);
        }
        match self.held.remove(&key) {
            Some(_) => Answer::done(),
            None => Answer::refusal(6),
        }
    }

    /// 12 by its row; else 0, and each movement is the step of its on or off, in
    /// their order, whose number stands beside it. The rest of the answers is
    /// kept. There is a room for each movement; the map looks only at those of
    /// ons that rows 2 to 5 let pass.
    pub fn load(
        &mut self,
        lengths: Lengths,
        movements: &[Movement],
        answers: &mut [u32],
        rooms: &[Room],
    ) -> Answer {
        if answers.len() < movements.len() {
            return Answer::refusal(12);
        }
        for (place, movement) in movements.iter().enumerate() {
            let step = if movement.on == 0 {
                self.off(movement.key)
            } else {
                let record = u64::from(movement.record);
                self.on(lengths, movement.key, record, || rooms[place])
            };
            answers[place] = step.number;
        }
        Answer::done()
    }

    /// "2; else 6 if the key is not held; else 0 and its record."
    pub fn find(&self, key: u64) -> Answer {
        if self.too_wide(key) {
            return Answer::refusal(2);
        }
        match self.held.get(&key) {
            Some(&record) => Answer::found(record),
            None => Answer::refusal(6),
        }
    }

    /// "The records of the first of them in key order, as many as the smaller
    /// of k and n, stand at the front of the slice, and the rest is kept."
    pub fn list(&self, a: u64, b: u64, slice: &mut [u32]) -> Answer {
        if self.too_wide(a) || self.too_wide(b) {
            return Answer::refusal(2);
        }
        let inside = self.held.iter().filter(|(&key, _)| a <= key && key <= b);
        let records: Vec<u32> = inside.map(|(_, &record)| record).collect();
        let smaller = records.len().min(slice.len());
        slice[..smaller].copy_from_slice(&records[..smaller]);
        Answer::listed(smaller, records.len())
    }

    /// "Check: yes."
    pub fn check(&self) -> bool {
        true
    }

    /// Row 2.
    fn too_wide(&self, key: u64) -> bool {
        u128::from(key) >= 2u128.pow(self.width as u32)
    }
}
