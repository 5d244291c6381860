//! Loads decided in another way: single calls on the lent tables, one by one.
//! The rule is given in parts, so that wrong ones can be tried.

pub mod wrong;

use model::answer::Answer;
use model::calls::{check, Movement};
use model::history::{call, Call, Outcome};
use model::random::places::pages_in_use;
use model::table::{header, Tables};

/// What comes after a movement that is refused.
#[derive(Clone, Copy, Debug, PartialEq, Eq)]
pub enum Refused {
    /// The rest go on.
    PassedOver,
    /// The rest go on, but its own answer is not written.
    NotWritten,
    /// Nothing more is done.
    Ends,
    /// Nothing more is done, and what was done is taken back.
    TakesBack,
}

/// Which tables a movement is judged by.
#[derive(Clone, Copy, Debug, PartialEq, Eq)]
pub enum Gets {
    /// Those that the movements before it left.
    Present,
    /// Those that the load was lent.
    First,
    /// The present ones, but that freed pages are not used again.
    WithoutFreedPages,
    /// The present ones, but that after an answer 7 no on is done any more.
    WithoutRoomAfter7,
}

/// A rule of loads.
#[derive(Clone, Copy)]
pub struct Rule {
    /// Whether this value of `on` is an on.
    pub is_on: fn(u32) -> bool,
    /// The number that an off of a held key meets for its record, on a register
    /// with these keys.
    pub off_record: fn(&Movement, &[u64]) -> u32,
    /// Whether so many answers are too few for so many movements.
    pub too_few: fn(usize, usize) -> bool,
    /// The rows that a load can be refused by, in the order they are tested.
    pub rows: [u32; 2],
    /// What a refusal by this number leaves of a list of answers.
    pub refused_answers: fn(u32, &mut [u32]),
    /// The places of the movements in the order they are made.
    pub order: fn(&[Movement]) -> Vec<usize>,
    /// What comes after a refused movement.
    pub refused: Refused,
    /// Which tables a movement is judged by.
    pub gets: Gets,
    /// What stands then in an entry beyond the last movement.
    pub beyond: fn(u32) -> u32,
    /// The answer of a done load from the numbers beside its movements.
    pub answer: fn(&[u32]) -> Answer,
}

/// The rule of the request.
pub const REQUESTED: Rule = Rule {
    is_on: |on| on != 0,
    off_record: |_, _| 0,
    too_few: |answers, movements| answers < movements,
    rows: [1, 12],
    refused_answers: |_, _| {},
    order: |movements| (0..movements.len()).collect(),
    refused: Refused::PassedOver,
    gets: Gets::Present,
    beyond: |kept| kept,
    answer: |_| Answer::done(),
};

/// Makes a load by this rule.
pub fn by(rule: &Rule, tables: &mut Tables, movements: &[Movement], answers: &mut [u32]) -> Answer {
    let applies = |&row: &u32| match row {
        1 => !check(&tables.index, &tables.keys, &tables.used),
        _ => (rule.too_few)(answers.len(), movements.len()),
    };
    if let Some(row) = rule.rows.into_iter().find(applies) {
        (rule.refused_answers)(row, answers);
        return Answer::refusal(row);
    }
    let first = tables.clone();
    let mut load = Load {
        rule,
        first,
        tables,
        freed: 0,
        met_7: false,
    };
    load.movements(movements, answers);
    let beside = movements.len().min(answers.len());
    let beyond = answers[beside..].iter_mut();
    beyond.for_each(|entry| *entry = (rule.beyond)(*entry));
    (rule.answer)(&answers[..beside])
}

struct Load<'a> {
    rule: &'a Rule,
    first: Tables,
    tables: &'a mut Tables,
    /// How many pages offs have freed.
    freed: usize,
    /// Whether a movement met 7.
    met_7: bool,
}

impl Load<'_> {
    fn movements(&mut self, movements: &[Movement], answers: &mut [u32]) {
        for place in (self.rule.order)(movements) {
            // Where a short list is not refused, the rest is left out.
            let Some(answer) = answers.get_mut(place) else {
                continue;
            };
            let number = self.movement(&movements[place]);
            if number == 0 || self.rule.refused != Refused::NotWritten {
                *answer = number;
            }
            match self.rule.refused {
                Refused::Ends if number != 0 => return,
                Refused::TakesBack if number != 0 => {
                    *self.tables = self.first.clone();
                    return;
                }
                _ => {}
            }
        }
    }

    /// Makes a movement and gives its number.
    fn movement(&mut self, movement: &Movement) -> u32 {
        let is_on = (self.rule.is_on)(movement.on);
        let single = Call::single(&Movement {
            on: u32::from(is_on),
            ..*movement
        });
        let mut judged = match self.rule.gets {
            Gets::First => self.first.clone(),
            _ => self.tables.clone(),
        };
        let before = pages_in_use(&judged).len();
        let number = match answered(&mut judged, &single) {
            0 if is_on => self.room(pages_in_use(&judged).len()),
            0 => (self.rule.off_record)(movement, &self.tables.keys),
            number => number,
        };
        self.met_7 |= number == 7;
        match self.rule.gets {
            _ if number != 0 => {}
            Gets::First => drop(answered(self.tables, &single)),
            _ => {
                self.freed += before.saturating_sub(pages_in_use(&judged).len());
                *self.tables = judged;
            }
        }
        number
    }

    /// The number of an on that would be done and leave so many pages in use.
    fn room(&self, pages: usize) -> u32 {
        let refused = match self.rule.gets {
            Gets::Present | Gets::First => false,
            Gets::WithoutFreedPages => pages + self.freed > header(&self.tables.index).pages,
            Gets::WithoutRoomAfter7 => self.met_7,
        };
        match refused {
            true => 7,
            false => 0,
        }
    }
}

/// The number that a single on or off answers.
fn answered(tables: &mut Tables, single: &Call) -> u32 {
    match call(tables, single) {
        Outcome::Answered(answer) => answer.number,
        other => panic!("{single:?}: {other:?}"),
    }
}
