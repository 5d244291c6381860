//! A long run of calls on one pair of tables, each checked against the ordered
//! map and, where it goes along, against the model.

use crate::calls::call;
use crate::loads::as_singles;
use crate::met::{levels, Met};
use crate::tag_index;
use model::answer::Answer;
use model::calls::Movement;
use model::compare::compare;
use model::history::{map_call, Call, Outcome, Shape};
use model::index::{Index, Room};
use model::map::{Lengths, Map};
use model::table::{read, Tables};

/// Tables, and what they are checked against.
#[derive(Clone)]
pub struct Run {
    /// The tables.
    pub tables: Tables,
    before: Tables,
    /// What is held in them.
    pub map: Map,
    /// The model, where it goes along.
    pub model: Option<Index>,
    /// Whether the last call, or a movement of it, was declined by 7 or 8.
    pub no_room: bool,
    /// What the calls met.
    pub met: Met,
}

impl Run {
    /// A run on tables after a format.
    pub fn new(shape: Shape) -> Run {
        let mut tables = Tables::zero(shape.entries, shape.pages, shape.records);
        let [w, e, p] = [shape.width, shape.entries, shape.pages].map(|number| number as u64);
        assert_eq!(tag_index::format(&mut tables, w, e, p), Answer::done());
        Run {
            before: tables.clone(),
            tables,
            map: Map::new(w),
            model: None,
            no_room: false,
            met: Met::default(),
        }
    }

    /// Makes a call, whose outcome must be the map's and the model's. A done load
    /// must leave what its single calls leave.
    pub fn step(&mut self, made: &Call) -> Result<(), String> {
        self.before.index.copy_from_slice(&self.tables.index);
        self.before.keys.copy_from_slice(&self.tables.keys);
        self.before.used.copy_from_slice(&self.tables.used);
        let outcome = call(&mut self.tables, made);
        self.no_room = no_room(made, &outcome);
        let model = self.model.clone().filter(|_| matches!(made, Call::Off(_)));
        let expected = match made {
            Call::On(key, record) => self.expected_on(*key, *record),
            Call::Off(key) => self.expected_off(*key)?,
            Call::Load(movements, lent) => self.expected_load(movements, lent.clone()),
            _ => map_call(&mut self.map, &self.before, made),
        };
        if outcome != expected {
            return Err(format!("{made:?}: {outcome:?}, not {expected:?}"));
        }
        self.met.add_answer(made, &outcome);
        match (made, &outcome) {
            (Call::On(..), Outcome::Answered(Answer { number: 0, .. })) => {
                let (before, after) = (levels(&self.before), levels(&self.tables));
                self.met.add_cuts(&before, &after);
            }
            (Call::Off(key), Outcome::Answered(Answer { number: 0, .. })) => {
                // What became of its pages is told where the model goes along.
                let before = model.iter();
                before.for_each(|before| self.met.add_off(before, *key));
            }
            (Call::Load(movements, _), Outcome::Loaded(Answer { number: 0, .. }, answers)) => {
                let tables = [&self.before, &self.tables];
                as_singles(tables, movements, answers, |_, _, _| {})?;
            }
            _ if self.tables != self.before => return Err(format!("{made:?} changed a byte")),
            _ => {}
        }
        Ok(())
    }

    /// The map's answer to an on. Rows 8 and 7 are the model's to tell: where it
    /// does not go along, it is asked if the library says 8 or 7.
    fn expected_on(&mut self, key: u64, record: u64) -> Outcome {
        let mut asked = self.asked();
        let model = self.model.as_mut().or(asked.as_mut());
        let room = room(model.and_then(|model| model.on(key, record).err()));
        let lengths = self.lengths();
        Outcome::Answered(self.map.on(lengths, key, record, || room))
    }

    fn expected_off(&mut self, key: u64) -> Result<Outcome, String> {
        let answer = self.map.off(key);
        if let Some(model) = &mut self.model {
            let number = model.off(key).err().unwrap_or(0);
            if number != answer.number {
                return Err(format!("off {key:#x}: the model says {number}"));
            }
        }
        Ok(Outcome::Answered(answer))
    }

    /// The map's answer to a load, rows 8 and 7 told as for an on. The model
    /// makes its movements one by one.
    fn expected_load(&mut self, movements: &[Movement], mut answers: Vec<u32>) -> Outcome {
        let mut asked = self.asked();
        let mut model = self.model.as_mut().or(asked.as_mut());
        // 12 declines a load whose list of answers is too short.
        model = model.filter(|_| answers.len() >= movements.len());
        let told = |movement: &Movement| {
            let number = model.as_mut().and_then(|model| match movement.on {
                0 => model.off(movement.key).err(),
                _ => model.on(movement.key, movement.record.into()).err(),
            });
            room(number)
        };
        let rooms: Vec<Room> = movements.iter().map(told).collect();
        let lengths = self.lengths();
        let answer = self.map.load(lengths, movements, &mut answers, &rooms);
        Outcome::Loaded(answer, answers)
    }

    /// The model of the tables before a call of which the library says 8 or 7,
    /// where it does not go along.
    fn asked(&self) -> Option<Index> {
        let needed = self.no_room && self.model.is_none();
        needed.then(|| read(self.before.lent()))
    }

    fn lengths(&self) -> Lengths {
        Lengths {
            index: self.tables.index.len(),
            keys: self.tables.keys.len(),
            used: self.tables.used.len(),
        }
    }

    /// Where the model goes along, its tables are the same up to page numbers.
    pub fn compare(&self) -> Result<(), String> {
        match &self.model {
            Some(model) => compare(self.tables.lent(), Tables::of(model).lent()),
            None => Ok(()),
        }
    }
}

/// Whether a call, or a movement of a done load, is declined by 8 or 7.
fn no_room(made: &Call, outcome: &Outcome) -> bool {
    let full = |number: &u32| matches!(number, 7 | 8);
    match (made, outcome) {
        (_, Outcome::Answered(answer)) => full(&answer.number),
        (Call::Load(movements, _), Outcome::Loaded(Answer { number: 0, .. }, answers)) => {
            answers.iter().take(movements.len()).any(full)
        }
        _ => false,
    }
}

/// What the map is fed of an on that the model declines by this number, if any.
fn room(number: Option<u32>) -> Room {
    Room {
        row_8: number == Some(8),
        row_7: number == Some(7),
    }
}
