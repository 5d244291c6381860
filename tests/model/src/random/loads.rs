//! Random loads.

use super::histories::Yard;
use super::Random;
use crate::calls::Movement;
use crate::history::{Call, Shape};
use crate::leaf_list::Herd;

/// So many movements on tables of this shape, where this herd is held at first.
pub fn movements(random: &mut Random, shape: Shape, herd: &Herd, count: usize) -> Vec<Movement> {
    Yard::new(random, shape, herd).movements(random, count)
}

/// A list of answers of any content for so many movements: as long, longer or
/// shorter.
pub fn answers(random: &mut Random, movements: usize) -> Vec<u32> {
    let length = match random.below(20) {
        0 => movements.saturating_sub(1),
        1 => random.below(movements + 1),
        2 => movements + 1,
        3..=5 => movements + random.below(20),
        _ => movements,
    };
    let content = |_| match random.percent(50) {
        true => random.number() as u32,
        // Mostly a number that a call can answer.
        false => random.below(13) as u32,
    };
    (0..length).map(content).collect()
}

impl Yard {
    /// A load of at most 40 movements.
    pub(super) fn load(&mut self, random: &mut Random) -> Call {
        let before = self.held.clone();
        let most = *random.pick(&[3, 12, 40]);
        let count = random.below(most + 1);
        let movements = self.movements(random, count);
        let answers = answers(random, count);
        if answers.len() < count {
            self.held = before;
        }
        Call::Load(movements, answers)
    }

    fn movements(&mut self, random: &mut Random, count: usize) -> Vec<Movement> {
        let mut movements: Vec<Movement> = Vec::new();
        for _ in 0..count {
            self.turn(random);
            let movement = match movements.last() {
                Some(last) if random.percent(15) => self.undoing(last, random),
                Some(_) if random.percent(8) => *random.pick(&movements),
                _ if self.is_on(random) => self.on(self.some_key(random), random),
                _ => self.off(self.held_key(random), random),
            };
            match movement.on {
                0 => drop(self.held.remove(&movement.key)),
                _ => self.put_on(movement.key, movement.record.into()),
            }
            movements.push(movement);
        }
        movements
    }

    /// The movement that undoes this one, an on of the key on any record.
    fn undoing(&self, made: &Movement, random: &mut Random) -> Movement {
        match made.on {
            0 => self.on(made.key, random),
            _ => self.off(made.key, random),
        }
    }

    fn on(&self, key: u64, random: &mut Random) -> Movement {
        let mut record = self.some_record(random) as u32;
        if random.percent(3) {
            // One that is in the register if it is cut to 16 bits.
            record |= 1 << random.between(16, 31);
        }
        let any = 1 + random.below(u32::MAX as usize) as u32;
        let on = *random.pick(&[1, 1, 1, 2, 256, 1 << 31, u32::MAX, any]);
        Movement { key, record, on }
    }

    fn off(&self, key: u64, random: &mut Random) -> Movement {
        let record = match random.percent(50) {
            true => self.some_record(random) as u32,
            false => random.number() as u32,
        };
        Movement { key, record, on: 0 }
    }
}
