//! Comparison of tables up to page numbers, and the shortening of histories.

mod common;

use common::seeds;
use model::calls::Movement;
use model::claims::claims;
use model::compare::compare;
use model::history::{beside_model, call, follow, Call, Failure, History, Outcome, Shape};
use model::index::Index;
use model::random::damage::{damaged, Damage, DAMAGES};
use model::random::histories::{history, small_shape};
use model::random::keys::largest_key;
use model::random::sound_tables::sound_index;
use model::random::Random;
use model::shrink::shrink;
use model::sound::sound;
use model::table::{read, Tables};

/// The tables with their pages in other places.
fn renumbered(random: &mut Random, tables: &Tables) -> Tables {
    let mut index = read(tables.lent());
    let mut numbers: Vec<u32> = (0..index.most_pages as u32).collect();
    random.shuffle(&mut numbers);
    index.root = index.root.without_numbers();
    index.root.number_new(&mut numbers.into_iter());
    Tables::of(&index)
}

/// Whether two sound tables differ at most in their page numbers.
fn same_but_for_numbers(one: &Tables, other: &Tables) -> bool {
    let bare = |tables: &Tables| {
        let mut index = read(tables.lent());
        index.root = index.root.without_numbers();
        index
    };
    bare(one) == bare(other)
}

/// Damage to sound tables makes a difference, unless it only moves pages.
#[test]
fn page_numbers_make_no_difference_and_damage_does() {
    for seed in seeds(300) {
        let mut random = Random::new(seed);
        let width = random.between(1, 64);
        let tables = Tables::of(&sound_index(&mut random, width, 3, 12));
        let other = renumbered(&mut random, &tables);
        assert_eq!(compare(tables.lent(), other.lent()), Ok(()), "seed {seed}");
        for damage in DAMAGES {
            let Some(hurt) = damaged(&mut random, &other, damage) else {
                continue;
            };
            let moved = sound(hurt.lent()).is_ok() && same_but_for_numbers(&tables, &hurt);
            let one = compare(tables.lent(), hurt.lent());
            let two = compare(hurt.lent(), tables.lent());
            assert!(
                one.is_ok() == moved && two.is_ok() == moved,
                "seed {seed} {damage:?}"
            );
        }
    }
}

#[test]
fn other_borders_make_a_difference() {
    let mut differ = 0;
    for seed in seeds(60) {
        let mut random = Random::new(seed);
        let (width, entries) = (random.between(6, 12), random.between(2, 4));
        let one = Tables::of(&sound_index(&mut random, width, entries, 12));
        let mut anew = one.clone();
        let index = read(one.lent());
        let numbers = [index.width, index.most_entries, index.most_pages];
        let [w, e, p] = numbers.map(|number| number as u64);
        call(&mut anew, &Call::Format(w, e, p));
        for (key, record) in index.herd() {
            call(&mut anew, &Call::On(key, u64::from(record)));
        }
        let other = read(anew.lent());
        let same = other.root.without_numbers() == index.root.without_numbers();
        let compared = compare(one.lent(), anew.lent());
        assert_eq!(compared.is_ok(), same, "seed {seed} {compared:?}");
        differ += usize::from(!same && other.register == index.register);
    }
    assert!(differ >= 10, "only {differ} differ in their borders alone");
}

const SMALL: Shape = Shape {
    width: 8,
    entries: 3,
    pages: 60,
    records: 9,
};

/// The model, but an off of a key above 9 is forgotten.
fn forgetful(tables: &mut Tables, made: &Call) -> Outcome {
    let before = tables.clone();
    let outcome = call(tables, made);
    if matches!(made, Call::Off(key) if *key > 9) {
        *tables = before;
    }
    outcome
}

/// The model, but a load forgets its offs of keys above 9.
fn forgetful_of_loads(tables: &mut Tables, made: &Call) -> Outcome {
    let before = tables.clone();
    let outcome = call(tables, made);
    if let (Call::Load(movements, answers), Outcome::Loaded(..)) = (made, &outcome) {
        let mut kept = movements.clone();
        kept.retain(|movement| movement.on != 0 || movement.key <= 9);
        if answers.len() >= movements.len() {
            *tables = before;
            call(tables, &Call::Load(kept, answers.clone()));
        }
    }
    outcome
}

/// The shortest history that fails, of one made from a seed.
fn shortest(seed: u64, run: fn(&mut Tables, &Call) -> Outcome) -> History {
    let attempt = |history: &History| follow(history, |tables, made| Ok(run(tables, made)));
    let history = history(&mut Random::new(seed), SMALL, 400);
    let Err(failure) = attempt(&history) else {
        panic!("seed {seed} forgets nothing");
    };
    let (shortest, failure): (History, Failure) = shrink(&history, failure, attempt);
    assert!(attempt(&shortest).is_err());
    assert_eq!(failure.calls, shortest.calls.len());
    shortest
}

/// The movements of ons, offs and loads; other calls have none.
fn movements(made: &Call) -> Vec<Movement> {
    let movement = |key, record, on| Movement { key, record, on };
    match made {
        Call::On(key, record) => vec![movement(*key, *record as u32, 1)],
        Call::Off(key) => vec![movement(*key, 0, 0)],
        Call::Load(movements, _) => movements.clone(),
        _ => vec![],
    }
}

#[test]
fn a_failing_history_is_shortened_to_what_fails() {
    let runs: [fn(&mut Tables, &Call) -> Outcome; 2] = [forgetful, forgetful_of_loads];
    for (seed, run) in seeds(10).flat_map(|seed| runs.map(|run| (seed, run))) {
        let shortest = shortest(seed, run);
        let movements: Vec<Movement> = shortest.calls.iter().flat_map(movements).collect();
        let [on, off] = movements[..] else {
            panic!("seed {seed}: {shortest:?}");
        };
        let undone = on.on != 0 && off.on == 0 && on.key == off.key;
        assert!(undone && off.key > 9, "seed {seed}: {shortest:?}");
        assert!(shortest.calls.len() <= 3, "seed {seed}: {shortest:?}");
    }
}

#[test]
fn beside_the_model_page_numbers_are_free() {
    for seed in seeds(40) {
        let mut random = Random::new(seed);
        let shape = small_shape(&mut random);
        let history = history(&mut random, shape, 80);
        let elsewhere = |tables: &mut Tables, made: &Call| {
            let before = tables.clone();
            let outcome = call(tables, made);
            if *tables != before {
                *tables = renumbered(&mut random, tables);
            }
            outcome
        };
        let followed = follow(&history, beside_model(elsewhere));
        assert_eq!(followed.err(), None, "seed {seed}");
    }
}

/// The model, but a find gives the next record, and a list and a load write
/// nothing beside their answer.
fn mistaken(tables: &mut Tables, made: &Call) -> Outcome {
    match (call(tables, made), made) {
        (Outcome::Answered(mut answer), Call::Find(_)) => {
            answer.record += 1;
            Outcome::Answered(answer)
        }
        (Outcome::Listed(answer, _), Call::List(_, _, slice)) => {
            Outcome::Listed(answer, slice.clone())
        }
        (Outcome::Loaded(answer, _), Call::Load(_, answers)) => {
            Outcome::Loaded(answer, answers.clone())
        }
        (outcome, _) => outcome,
    }
}

#[test]
fn beside_the_model_answers_slices_and_tables_are_not() {
    let start = [Call::On(20, 0), Call::On(21, 1)];
    let fails = |last: Call, run: fn(&mut Tables, &Call) -> Outcome| {
        let calls = [&start[..], &[last]].concat();
        let history = History {
            shape: SMALL,
            calls,
        };
        let failure = follow(&history, beside_model(run)).err();
        failure.is_some_and(|failure| failure.calls == 3)
    };
    let off = Movement {
        key: 20,
        record: 0,
        on: 0,
    };
    assert!(fails(Call::Find(20), mistaken));
    assert!(fails(Call::List(0, 255, vec![7; 3]), mistaken));
    assert!(fails(Call::Off(20), forgetful));
    assert!(!fails(Call::Off(20), mistaken));
    assert!(fails(Call::Load(vec![off], vec![7; 3]), mistaken));
    assert!(fails(Call::Load(vec![off], vec![7; 3]), forgetful_of_loads));
    assert!(!fails(Call::Load(vec![], vec![7; 3]), mistaken));
}

/// The register, the records held and the pages not reached are claimed.
#[test]
fn the_claims_of_histories_notice_damage() {
    let claimed = [
        Damage::HeldOff,
        Damage::KeyDoubled,
        Damage::KeyAltered,
        Damage::UsedByte,
        Damage::FreeKey,
        Damage::StrayInFreePage,
    ];
    let mut noticed = 0;
    for seed in seeds(100) {
        let mut random = Random::new(seed);
        let width = random.between(1, 64);
        let index = sound_index(&mut random, width, 3, 12);
        let (tables, herd) = (Tables::of(&index), index.herd());
        assert_eq!(claims(tables.lent(), width, &herd), Ok(()), "seed {seed}");
        for damage in claimed {
            let Some(hurt) = damaged(&mut random, &tables, damage) else {
                continue;
            };
            assert!(
                claims(hurt.lent(), width, &herd).is_err(),
                "seed {seed} {damage:?}"
            );
            noticed += 1;
        }
    }
    assert!(noticed >= 300);
}

/// The two largest keys reach the bound of their width, and break that of one bit
/// less.
#[test]
fn the_claims_of_histories_hold_the_list_to_the_headers_width() {
    for width in 2..=64 {
        let mut index = Index::empty(width, 255, 1, 2);
        let largest = largest_key(width);
        assert_eq!(index.on(largest - 1, 0), Ok(()));
        assert_eq!(index.on(largest, 1), Ok(()));
        let mut tables = Tables::of(&index);
        assert_eq!(claims(tables.lent(), width, &index.herd()), Ok(()));
        tables.index[0] -= 1;
        let claimed = claims(tables.lent(), width, &index.herd());
        let why = format!("{} entries, 2 keys have at most {width}", width + 1);
        assert_eq!(claimed, Err(why));
    }
}
