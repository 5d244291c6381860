//! A call on the proved library beside the same call on the model, both on the
//! same tables.

use crate::calls::call;
use crate::loads::as_singles;
use crate::met::Met;
use crate::numbers::{numbers, numbers_after_on};
use model::answer::Answer;
use model::compare::compare;
use model::history::{self, Call, Outcome};
use model::table::Tables;

/// Makes the call; describes how it differs from the model's. The answer, the
/// list slice and the answers beside movements must be the same, and every byte
/// too, unless a key was put on: then the tables are the same up to page
/// numbers, and after a single on these are as specified. After a done off the
/// left one of two joined pages keeps its number in both. A done load leaves
/// what its single calls leave, to the byte.
pub fn beside(tables: &mut Tables, made: &Call, met: &mut Met) -> Result<Outcome, String> {
    let before = tables.clone();
    let mut model = tables.clone();
    let expected = history::call(&mut model, made);
    let outcome = call(tables, made);
    if outcome != expected {
        return Err(format!("{outcome:?} where the model says {expected:?}"));
    }
    if puts_on(made, &outcome) {
        compare(tables.lent(), model.lent())?;
    } else if *tables != model {
        return Err(format!("{made:?}: other bytes than the model's"));
    }
    match (made, &outcome) {
        (Call::On(..), Outcome::Answered(Answer { number: 0, .. })) => {
            numbers_after_on([&before, tables, &model].map(numbers))?;
        }
        (Call::Load(movements, _), Outcome::Loaded(Answer { number: 0, .. }, answers)) => {
            let add = |[before, after]: [&Tables; 2], single: &Call, outcome: &Outcome| {
                met.add_call(before, after, single, outcome);
            };
            as_singles([&before, tables], movements, answers, add)?;
        }
        _ => {}
    }
    met.add_call(&before, tables, made, &outcome);
    Ok(outcome)
}

/// Whether the call put a key on: a done on, or a done load with one.
fn puts_on(made: &Call, outcome: &Outcome) -> bool {
    match (made, outcome) {
        (Call::On(..), _) => *outcome == Outcome::Answered(Answer::done()),
        (Call::Load(movements, _), Outcome::Loaded(Answer { number: 0, .. }, answers)) => {
            let mut beside = movements.iter().zip(answers);
            beside.any(|(movement, &number)| movement.on != 0 && number == 0)
        }
        _ => false,
    }
}
