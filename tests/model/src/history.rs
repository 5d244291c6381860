//! Histories: calls on one index table and one register, measured against the
//! ordered map.

use crate::answer::Answer;
use crate::calls::{self, Movement};
use crate::claims::claims;
use crate::compare::compare;
use crate::index::Room;
use crate::map::{Lengths, Map};
use crate::sound::sound;
use crate::table::Tables;

/// A call with its arguments.
#[derive(Clone, Debug, PartialEq, Eq)]
pub enum Call {
    /// Format with W, E and P.
    Format(u64, u64, u64),
    /// On with key and record.
    On(u64, u64),
    /// Off with its key.
    Off(u64),
    /// Find with its key.
    Find(u64),
    /// List from a to b, "lent a slice of its own, of any length and content".
    List(u64, u64, Vec<u32>),
    /// Check.
    Check,
    /// Load with its movements, lent a list of answers of any length and content.
    Load(Vec<Movement>, Vec<u32>),
}

impl Call {
    /// The single call that makes this movement.
    pub fn single(movement: &Movement) -> Call {
        match movement.on {
            0 => Call::Off(movement.key),
            _ => Call::On(movement.key, movement.record.into()),
        }
    }
}

/// What a call gives back.
#[derive(Clone, Debug, PartialEq, Eq)]
pub enum Outcome {
    /// The answer of format, on, off and find.
    Answered(Answer),
    /// The answer of list, and its slice.
    Listed(Answer, Vec<u32>),
    /// Whether check says yes.
    Checked(bool),
    /// The answer of load, and its list of answers.
    Loaded(Answer, Vec<u32>),
}

/// W, E, P and the number of records.
#[derive(Clone, Copy, Debug, PartialEq, Eq)]
pub struct Shape {
    /// W.
    pub width: usize,
    /// E.
    pub entries: usize,
    /// P.
    pub pages: usize,
    /// Records of the register.
    pub records: usize,
}

impl Shape {
    /// The format call of this shape.
    pub fn format(&self) -> Call {
        Call::Format(self.width as u64, self.entries as u64, self.pages as u64)
    }
}

/// The calls after a done format of this shape.
#[derive(Clone, Debug, PartialEq, Eq)]
pub struct History {
    /// The shape of the format it starts from.
    pub shape: Shape,
    /// The calls that follow.
    pub calls: Vec<Call>,
}

/// Where and how a history fails.
#[derive(Clone, Debug, PartialEq, Eq)]
pub struct Failure {
    /// How many of its calls were made, the failing one included; 0 if the
    /// format it starts from fails.
    pub calls: usize,
    /// What is not as it should be.
    pub what: String,
}

/// Makes a call on the model.
pub fn call(tables: &mut Tables, call: &Call) -> Outcome {
    let Tables { index, keys, used } = tables;
    match call {
        Call::Format(w, e, p) => Outcome::Answered(calls::format(index, keys, used, *w, *e, *p)),
        Call::On(key, record) => Outcome::Answered(calls::on(index, keys, used, *key, *record)),
        Call::Off(key) => Outcome::Answered(calls::off(index, keys, used, *key)),
        Call::Find(key) => Outcome::Answered(calls::find(index, keys, used, *key)),
        Call::List(a, b, slice) => {
            let mut slice = slice.clone();
            let answer = calls::list(index, keys, used, *a, *b, &mut slice);
            Outcome::Listed(answer, slice)
        }
        Call::Check => Outcome::Checked(calls::check(index, keys, used)),
        Call::Load(movements, answers) => {
            let mut answers = answers.clone();
            let answer = calls::load(index, keys, used, movements, &mut answers);
            Outcome::Loaded(answer, answers)
        }
    }
}

/// Makes a call on the map; `tables` are those the call will get.
pub fn map_call(map: &mut Map, tables: &Tables, call: &Call) -> Outcome {
    let Tables { index, keys, used } = tables;
    let lengths = Lengths {
        index: index.len(),
        keys: keys.len(),
        used: used.len(),
    };
    match call {
        Call::Format(w, e, p) => Outcome::Answered(map.format(lengths, *w, *e, *p)),
        Call::On(key, record) => {
            Outcome::Answered(map.on(lengths, *key, *record, || room(tables, *key, *record)))
        }
        Call::Off(key) => Outcome::Answered(map.off(*key)),
        Call::Find(key) => Outcome::Answered(map.find(*key)),
        Call::List(a, b, slice) => {
            let mut slice = slice.clone();
            let answer = map.list(*a, *b, &mut slice);
            Outcome::Listed(answer, slice)
        }
        Call::Check => Outcome::Checked(map.check()),
        Call::Load(movements, answers) => {
            let mut answers = answers.clone();
            let rooms = rooms(tables.clone(), movements);
            let answer = map.load(lengths, movements, &mut answers, &rooms);
            Outcome::Loaded(answer, answers)
        }
    }
}

/// What stands for rows 8 and 7 where the map is not fed them.
const NOT_FED: Room = Room {
    row_8: false,
    row_7: false,
};

/// What the map is fed of an on that gets these tables, if rows 2 to 5 let it
/// pass.
fn room(tables: &Tables, key: u64, record: u64) -> Room {
    let Tables { index, keys, used } = tables;
    calls::room(index, keys, used, key, record).unwrap_or(NOT_FED)
}

/// What the map is fed of the movements of a load that gets these tables: of
/// each on, rows 8 and 7 for the tables that this movement gets, which are those
/// that the single calls of all movements before it leave.
fn rooms(mut tables: Tables, movements: &[Movement]) -> Vec<Room> {
    let feed = |movement: &Movement| {
        let single = Call::single(movement);
        let room = match single {
            Call::On(key, record) => room(&tables, key, record),
            _ => NOT_FED,
        };
        call(&mut tables, &single);
        room
    };
    movements.iter().map(feed).collect()
}

/// Follows a history through `run`, which makes one call on the tables or says
/// why it cannot, and tests all that is claimed of histories after every call.
/// Gives the tables at its end.
pub fn follow(
    history: &History,
    mut run: impl FnMut(&mut Tables, &Call) -> Result<Outcome, String>,
) -> Result<Tables, Failure> {
    let Shape {
        entries,
        pages,
        records,
        ..
    } = history.shape;
    let mut tables = Tables::zero(entries, pages, records);
    // "Whatever the tables held before."
    tables.index.fill(0xa5);
    tables.keys.fill(u64::MAX);
    tables.used.fill(7);
    let mut map = Map::new(0);
    let format = history.shape.format();
    let start = follow_call(&mut map, &mut tables, &format, &mut run);
    start.map_err(|what| Failure { calls: 0, what })?;
    follow_from(tables, map, &history.calls, run)
}

/// Follows calls from sound tables, whose held keys are the map's.
pub fn follow_from(
    mut tables: Tables,
    mut map: Map,
    calls: &[Call],
    mut run: impl FnMut(&mut Tables, &Call) -> Result<Outcome, String>,
) -> Result<Tables, Failure> {
    for (before, call) in calls.iter().enumerate() {
        let step = follow_call(&mut map, &mut tables, call, &mut run);
        let calls = before + 1;
        step.map_err(|what| Failure { calls, what })?;
    }
    Ok(tables)
}

fn follow_call(
    map: &mut Map,
    tables: &mut Tables,
    call: &Call,
    run: &mut impl FnMut(&mut Tables, &Call) -> Result<Outcome, String>,
) -> Result<(), String> {
    let before = tables.clone();
    let expected = map_call(map, &before, call);
    let outcome = run(tables, call)?;
    if outcome != expected {
        return Err(format!("{outcome:?} where the map says {expected:?}"));
    }
    if !changes(&outcome, call) && *tables != before {
        return Err(format!("{call:?} changed the tables"));
    }
    claims(tables.lent(), map.width as usize, &map.held)?;
    sound(tables.lent()).map_err(|rule| format!("not sound: {rule}"))
}

/// Makes every call beside the model, on tables of its own that start as those
/// of the first call. Answers must be the same, and tables up to page numbers.
pub fn beside_model(
    mut run: impl FnMut(&mut Tables, &Call) -> Outcome,
) -> impl FnMut(&mut Tables, &Call) -> Result<Outcome, String> {
    let mut model = None;
    move |tables, made| {
        let model = model.get_or_insert_with(|| tables.clone());
        let expected = call(model, made);
        let outcome = run(tables, made);
        if outcome != expected {
            return Err(format!("{outcome:?} where the model says {expected:?}"));
        }
        compare(tables.lent(), model.lent())?;
        Ok(outcome)
    }
}

/// Whether the call may change the tables: a done format, on or off, or a done
/// load of which a movement is done.
fn changes(outcome: &Outcome, call: &Call) -> bool {
    match (call, outcome) {
        (Call::Format(..) | Call::On(..) | Call::Off(..), _) => {
            *outcome == Outcome::Answered(Answer::done())
        }
        (Call::Load(movements, _), Outcome::Loaded(answer, answers)) => {
            let mut beside = answers.iter().take(movements.len());
            *answer == Answer::done() && beside.any(|&number| number == 0)
        }
        _ => false,
    }
}
