//! Wrong rules of loads.

use super::{Gets, Refused, Rule, REQUESTED};
use model::answer::Answer;
use model::calls::Movement;

/// Rules that are not the request's.
pub const WRONG: [(&str, Rule); 24] = [
    (
        "only 1 is an on",
        Rule {
            is_on: |on| on == 1,
            ..REQUESTED
        },
    ),
    (
        "the lowest bit says what is an on",
        Rule {
            is_on: |on| on % 2 == 1,
            ..REQUESTED
        },
    ),
    (
        "the lowest byte says what is an on",
        Rule {
            is_on: |on| on % 256 != 0,
            ..REQUESTED
        },
    ),
    (
        "0 is an on",
        Rule {
            is_on: |on| on == 0,
            ..REQUESTED
        },
    ),
    (
        "an off is refused for a record past the register",
        Rule {
            off_record: |movement, keys| match keys.get(movement.record as usize) {
                Some(_) => 0,
                None => 3,
            },
            ..REQUESTED
        },
    ),
    (
        "an off is refused for another record than its key's",
        Rule {
            off_record: |movement, keys| match keys.get(movement.record as usize) {
                Some(&key) if key == movement.key => 0,
                _ => 6,
            },
            ..REQUESTED
        },
    ),
    (
        "as many answers as movements are too few",
        Rule {
            too_few: |answers, movements| answers <= movements,
            ..REQUESTED
        },
    ),
    (
        "more answers than movements are refused too",
        Rule {
            too_few: |answers, movements| answers != movements,
            ..REQUESTED
        },
    ),
    (
        "a short list of answers is filled",
        Rule {
            too_few: |_, _| false,
            ..REQUESTED
        },
    ),
    (
        "a list without movements is refused",
        Rule {
            too_few: |answers, movements| answers < movements || movements == 0,
            ..REQUESTED
        },
    ),
    (
        "12 is tested before 1",
        Rule {
            rows: [12, 1],
            ..REQUESTED
        },
    ),
    (
        "a refused load writes its number",
        Rule {
            refused_answers: |number, answers| answers.fill(number),
            ..REQUESTED
        },
    ),
    (
        "a refused load clears the answers",
        Rule {
            refused_answers: |_, answers| answers.fill(0),
            ..REQUESTED
        },
    ),
    (
        "the last movement is made first",
        Rule {
            order: |movements| (0..movements.len()).rev().collect(),
            ..REQUESTED
        },
    ),
    (
        "offs are made before ons",
        Rule {
            order: offs_first,
            ..REQUESTED
        },
    ),
    (
        "a refused movement's answer is not written",
        Rule {
            refused: Refused::NotWritten,
            ..REQUESTED
        },
    ),
    (
        "the first refusal ends the load",
        Rule {
            refused: Refused::Ends,
            ..REQUESTED
        },
    ),
    (
        "the first refusal takes the load back",
        Rule {
            refused: Refused::TakesBack,
            ..REQUESTED
        },
    ),
    (
        "each movement gets the first tables",
        Rule {
            gets: Gets::First,
            ..REQUESTED
        },
    ),
    (
        "pages freed by the load are not used again",
        Rule {
            gets: Gets::WithoutFreedPages,
            ..REQUESTED
        },
    ),
    (
        "after a 7 no on is done",
        Rule {
            gets: Gets::WithoutRoomAfter7,
            ..REQUESTED
        },
    ),
    (
        "entries beyond the last movement are cleared",
        Rule {
            beyond: |_| 0,
            ..REQUESTED
        },
    ),
    (
        "a done load answers its first refusal",
        Rule {
            answer: first_refusal,
            ..REQUESTED
        },
    ),
    (
        "a done load counts its movements",
        Rule {
            answer: |numbers| Answer::listed(numbers.len(), numbers.len()),
            ..REQUESTED
        },
    ),
];

fn offs_first(movements: &[Movement]) -> Vec<usize> {
    let mut places: Vec<usize> = (0..movements.len()).collect();
    places.sort_by_key(|&place| movements[place].on != 0);
    places
}

fn first_refusal(numbers: &[u32]) -> Answer {
    let refused = numbers.iter().find(|&&number| number != 0);
    Answer::refusal(refused.copied().unwrap_or(0))
}
