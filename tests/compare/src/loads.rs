//! Load.

use crate::calls::call;
use crate::tag_index::Answered;
use model::answer::Answer;
use model::calls::Movement;
use model::history::{Call, Outcome};
use model::table::Tables;

/// A movement as it goes to C.
#[repr(C)]
#[derive(Clone, Debug, PartialEq, Eq)]
struct Lent {
    key: u64,
    record: u32,
    on: u32,
}

extern "C" {
    fn tag_index_load(
        index: *mut u8,
        index_bytes: usize,
        keys: *mut u64,
        keys_length: usize,
        used: *mut u8,
        used_length: usize,
        movements: *const Lent,
        movements_length: usize,
        answers: *mut u32,
        answers_length: usize,
    ) -> Answered;
}

/// Load of these movements, with a number beside each in `answers`.
pub fn load(tables: &mut Tables, movements: &[Movement], answers: &mut [u32]) -> Answer {
    let Tables { index, keys, used } = tables;
    let lent = movements.iter().map(|movement| Lent {
        key: movement.key,
        record: movement.record,
        on: movement.on,
    });
    let mut lent: Vec<Lent> = lent.collect();
    let before = lent.clone();
    // SAFETY: five slices that do not overlap, each with its own length; the
    // declaration is that of include/tag_index.h.
    let answered = unsafe {
        tag_index_load(
            index.as_mut_ptr(),
            index.len(),
            keys.as_mut_ptr(),
            keys.len(),
            used.as_mut_ptr(),
            used.len(),
            lent.as_mut_ptr(),
            lent.len(),
            answers.as_mut_ptr(),
            answers.len(),
        )
    };
    assert_eq!(lent, before, "load changed a movement");
    answered.answer()
}

/// Makes the single calls of a done load of the library, one by one on the
/// tables it got: the numbers beside its movements are theirs, and so is every
/// byte that it left. `each` is shown the tables before and after each of them.
pub fn as_singles(
    [before, after]: [&Tables; 2],
    movements: &[Movement],
    answers: &[u32],
    mut each: impl FnMut([&Tables; 2], &Call, &Outcome),
) -> Result<(), String> {
    let mut tables = before.clone();
    for (place, (movement, &number)) in movements.iter().zip(answers).enumerate() {
        let single = Call::single(movement);
        let between = tables.clone();
        let outcome = call(&mut tables, &single);
        if outcome != Outcome::Answered(Answer::refusal(number)) {
            return Err(format!(
                "movement {place}, {movement:?}: {number} in the load, {outcome:?} as a single call"
            ));
        }
        each([&between, &tables], &single, &outcome);
    }
    match tables == *after {
        true => Ok(()),
        false => Err("the load left other bytes than its single calls".to_string()),
    }
}
