//! Loads against their second form, the single calls made one by one, on random
//! tables: every answer is met, and every wrong rule is seen.

mod common;
mod singles;

use common::seeds;
use model::answer::Answer;
use model::calls::{load, Movement};
use model::history::Shape;
use model::random::damage::{damaged, DAMAGES};
use model::random::loads::{answers, movements};
use model::random::sound_tables::{any_sound_index, ENTRIES};
use model::random::Random;
use model::table::Tables;
use singles::wrong::WRONG;
use singles::{by, Rule, REQUESTED};
use std::collections::BTreeMap;

/// What a load is lent.
#[derive(Clone)]
struct Lent {
    tables: Tables,
    movements: Vec<Movement>,
    answers: Vec<u32>,
}

/// What a load answers and leaves.
type Left = (Answer, Vec<u32>, Tables);

/// A random load on random tables, which are damaged now and then.
fn lent(seed: u64) -> Lent {
    let mut random = Random::new(seed);
    let index = any_sound_index(&mut random, &ENTRIES);
    let shape = Shape {
        width: index.width,
        entries: index.most_entries,
        pages: index.most_pages,
        records: index.register.len(),
    };
    let most = *random.pick(&[1, 7, 40]);
    let count = random.below(most + 1);
    let movements = movements(&mut random, shape, &index.herd(), count);
    let mut answers = answers(&mut random, count);
    let mut tables = Tables::of(&index);
    if random.percent(20) {
        let damage = *random.pick(&DAMAGES);
        tables = damaged(&mut random, &tables, damage).unwrap_or(tables);
        // 12 may apply too.
        answers.truncate(random.below(2 * count + 1));
    }
    Lent {
        tables,
        movements,
        answers,
    }
}

/// The model's load.
fn loaded(lent: &Lent) -> Left {
    let (mut tables, mut answers) = (lent.tables.clone(), lent.answers.clone());
    let Tables { index, keys, used } = &mut tables;
    let answer = load(index, keys, used, &lent.movements, &mut answers);
    (answer, answers, tables)
}

/// The load by this rule.
fn loaded_by(rule: &Rule, lent: &Lent) -> Left {
    let (mut tables, mut answers) = (lent.tables.clone(), lent.answers.clone());
    let answer = by(rule, &mut tables, &lent.movements, &mut answers);
    (answer, answers, tables)
}

/// What a load met, in words.
fn met(lent: &Lent, (answer, answers, tables): &Left) -> Vec<String> {
    let mut met = vec![format!("load {}", answer.number)];
    if answer.number != 0 {
        assert!(*answers == lent.answers && *tables == lent.tables);
        return met;
    }
    for (movement, number) in lent.movements.iter().zip(answers) {
        let name = if movement.on == 0 { "off" } else { "on" };
        met.push(format!("{name} {number}"));
    }
    let numbers = &answers[..lent.movements.len()];
    let refused = numbers.iter().position(|&number| number != 0);
    if refused.is_some_and(|refused| numbers[refused..].contains(&0)) {
        met.push("done after a refusal".to_string());
    }
    let full = numbers.iter().position(|&number| number == 7);
    let ons = || lent.movements.iter().zip(numbers).skip(full.unwrap_or(0));
    if full.is_some() && ons().any(|(movement, &number)| movement.on != 0 && number == 0) {
        met.push("an on done after a 7".to_string());
    }
    let beyond = lent.movements.len()..;
    assert_eq!(answers[beyond.clone()], lent.answers[beyond]);
    met
}

/// What loads meet, and how often at least in the seeds below.
const MET: [(&str, usize); 15] = [
    ("an on done after a 7", 50),
    ("done after a refusal", 300),
    ("load 0", 800),
    ("load 1", 100),
    ("load 12", 50),
    ("off 0", 2_000),
    ("off 2", 70),
    ("off 6", 1_000),
    ("on 0", 1_600),
    ("on 2", 150),
    ("on 3", 300),
    ("on 4", 400),
    ("on 5", 300),
    ("on 7", 200),
    ("on 8", 50),
];

#[test]
fn loads_are_their_single_calls_made_one_by_one() {
    let mut times: BTreeMap<String, usize> = BTreeMap::new();
    for seed in seeds(2_000) {
        let lent = lent(seed);
        let left = loaded(&lent);
        assert!(left == loaded_by(&REQUESTED, &lent), "seed {seed}");
        for what in met(&lent, &left) {
            *times.entry(what).or_default() += 1;
        }
    }
    let least: BTreeMap<&str, usize> = MET.into();
    assert!(times.keys().eq(least.keys()), "{times:#?}");
    for (what, least) in least {
        assert!(times[what] >= least, "{what}: {} times", times[what]);
    }
}

#[test]
fn every_wrong_rule_is_seen() {
    let mut differ = [0; WRONG.len()];
    for seed in seeds(500) {
        let lent = lent(seed);
        let left = loaded(&lent);
        for ((_, rule), differ) in WRONG.iter().zip(&mut differ) {
            *differ += usize::from(loaded_by(rule, &lent) != left);
        }
    }
    for ((what, _), differ) in WRONG.iter().zip(differ) {
        assert!(differ >= 8, "{what}: {differ} loads differ");
    }
}
