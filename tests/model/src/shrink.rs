//! The shortest form of a failing history.

use crate::history::{Call, Failure, History};

/// Tries a history made from a seed. If it fails, panics with the seed and the
/// shortest prefix that still fails, from which single calls and single
/// movements of loads are dropped too.
pub fn must_hold<T>(
    seed: u64,
    history: &History,
    attempt: impl Fn(&History) -> Result<T, Failure>,
) {
    let Err(failure) = attempt(history) else {
        return;
    };
    let (shortest, failure) = shrink(history, failure, attempt);
    let calls: Vec<String> = shortest
        .calls
        .iter()
        .map(|call| format!("  {call:?}"))
        .collect();
    let (shape, what, calls) = (shortest.shape, failure.what, calls.join("\n"));
    panic!("seed {seed}, {shape:?}: {what}\nafter format and\n{calls}");
}

/// The shortest failing history found, and how it fails.
pub fn shrink<T>(
    history: &History,
    failure: Failure,
    attempt: impl Fn(&History) -> Result<T, Failure>,
) -> (History, Failure) {
    let mut shortest = (prefix(history, &failure), failure);
    loop {
        let before = shortest.0.clone();
        drop_calls(&mut shortest, &attempt);
        drop_movements(&mut shortest, &attempt);
        if shortest.0 == before {
            return shortest;
        }
    }
}

/// Drops single calls.
fn drop_calls<T>(
    shortest: &mut (History, Failure),
    attempt: &impl Fn(&History) -> Result<T, Failure>,
) {
    let mut place = shortest.0.calls.len();
    while place > 0 {
        place -= 1;
        let mut shorter = shortest.0.clone();
        shorter.calls.remove(place);
        take(shortest, shorter, attempt);
        place = place.min(shortest.0.calls.len());
    }
}

/// Drops single movements, each with the answer beside it.
fn drop_movements<T>(
    shortest: &mut (History, Failure),
    attempt: &impl Fn(&History) -> Result<T, Failure>,
) {
    for place in (0..shortest.0.calls.len()).rev() {
        let mut movement = match shortest.0.calls.get(place) {
            Some(Call::Load(movements, _)) => movements.len(),
            _ => 0,
        };
        while movement > 0 {
            movement -= 1;
            let mut shorter = shortest.0.clone();
            if let Some(Call::Load(movements, answers)) = shorter.calls.get_mut(place) {
                movements.remove(movement);
                if movement < answers.len() {
                    answers.remove(movement);
                }
                take(shortest, shorter, attempt);
            }
        }
    }
}

/// Takes the shorter history if it still fails.
fn take<T>(
    shortest: &mut (History, Failure),
    shorter: History,
    attempt: &impl Fn(&History) -> Result<T, Failure>,
) {
    if let Err(still) = attempt(&shorter) {
        *shortest = (prefix(&shorter, &still), still);
    }
}

/// The history up to the call that fails.
fn prefix(history: &History, failure: &Failure) -> History {
    let mut prefix = history.clone();
    prefix.calls.truncate(failure.calls);
    prefix
}
