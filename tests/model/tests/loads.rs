//! Loads: small cases by hand, each beside the single calls made one by one.

use model::answer::Answer;
use model::calls::{check, find, format, load, Movement};
use model::history::{call, Call, Outcome};
use model::table::{read, Tables};

/// Tables after a done format.
fn formatted(w: u64, e: usize, p: usize, records: usize) -> Tables {
    let mut tables = Tables::zero(e, p, records);
    let Tables { index, keys, used } = &mut tables;
    let answer = format(index, keys, used, w, e as u64, p as u64);
    assert_eq!(answer, Answer::done());
    tables
}

fn on(key: u64, record: u32) -> Movement {
    Movement { key, record, on: 1 }
}

/// An off, with a record that no register has.
fn off(key: u64) -> Movement {
    Movement {
        key,
        record: 70_000,
        on: 0,
    }
}

fn make(tables: &mut Tables, movements: &[Movement], answers: &mut [u32]) -> Answer {
    let Tables { index, keys, used } = tables;
    load(index, keys, used, movements, answers)
}

/// The number of a single call.
fn single(tables: &mut Tables, made: Call) -> u32 {
    match call(tables, &made) {
        Outcome::Answered(answer) => answer.number,
        other => panic!("{made:?}: {other:?}"),
    }
}

/// Makes a load that is done. The number beside each movement is that of its
/// single call, every byte of the tables is as these leave it, and entries
/// beyond the last movement are kept. Gives the numbers.
fn numbers(tables: &mut Tables, movements: &[Movement]) -> Vec<u32> {
    let mut by_singles = tables.clone();
    let singles = movements
        .iter()
        .map(|movement| single(&mut by_singles, Call::single(movement)));
    let singles: Vec<u32> = singles.collect();
    for more in [2, 0] {
        let mut after = tables.clone();
        let mut answers = vec![77; movements.len() + more];
        assert_eq!(make(&mut after, movements, &mut answers), Answer::done());
        assert_eq!(answers, [&singles[..], &vec![77; more]].concat());
        assert_eq!(after, by_singles);
    }
    *tables = by_singles;
    singles
}

/// Makes a load that is refused by this number and changes nothing.
fn refused(tables: &Tables, movements: &[Movement], answers: &[u32], number: u32) {
    let (mut after, mut kept) = (tables.clone(), answers.to_vec());
    let answer = make(&mut after, movements, &mut kept);
    assert_eq!(answer, Answer::refusal(number));
    assert_eq!(
        (answer.record, answer.count, answer.more),
        (65_535, 0, false)
    );
    assert_eq!(kept, answers);
    assert_eq!(after, *tables);
}

/// The record of a held key.
fn record(tables: &Tables, key: u64) -> Option<u32> {
    let answer = find(&tables.index, &tables.keys, &tables.used, key);
    (answer.number == 0).then_some(answer.record)
}

#[test]
fn every_row_of_a_movement_in_one_load() {
    let mut tables = formatted(8, 2, 9, 4);
    let movements = [
        (on(256, 4), 2),
        (off(256), 2),
        (on(7, 4), 3),
        (on(7, u32::MAX), 3),
        (off(7), 6),
        (on(7, 0), 0),
        (on(7, 0), 4),
        (on(8, 0), 4),
        (on(7, 3), 5),
        (on(8, 3), 0),
        (off(9), 6),
        (off(7), 0),
        (off(7), 6),
    ];
    let (movements, expected) = movements.into_iter().unzip::<_, _, Vec<_>, Vec<_>>();
    assert_eq!(numbers(&mut tables, &movements), expected);
    assert_eq!([7, 8].map(|key| record(&tables, key)), [None, Some(3)]);
}

#[test]
fn any_value_but_0_is_an_on() {
    for value in [1, 2, 3, 255, 256, 65_536, 1 << 31, u32::MAX - 1, u32::MAX] {
        let mut tables = formatted(8, 2, 9, 4);
        let movement = Movement {
            on: value,
            ..on(7, 2)
        };
        assert_eq!(numbers(&mut tables, &[movement, movement]), [0, 4]);
        assert_eq!(record(&tables, 7), Some(2), "{value}");
        assert_eq!(numbers(&mut tables, &[off(7), movement]), [0, 0]);
    }
}

#[test]
fn an_off_takes_the_key_alone() {
    for value in [0, 1, 2, 3, 4, 65_535, 65_536, u32::MAX] {
        let mut tables = formatted(8, 2, 9, 4);
        assert_eq!(numbers(&mut tables, &[on(7, 2), on(9, 3)]), [0, 0]);
        let movement = Movement {
            record: value,
            ..off(7)
        };
        assert_eq!(numbers(&mut tables, &[movement, movement]), [0, 6]);
        let held = [7, 9].map(|key| record(&tables, key));
        assert_eq!(held, [None, Some(3)], "{value}");
    }
}

#[test]
fn movements_that_undo_each_other() {
    let mut tables = formatted(8, 2, 40, 4);
    let empty = tables.clone();
    assert_eq!(numbers(&mut tables, &[on(170, 1), off(170)]), [0, 0]);
    assert_eq!(tables, empty);
    let again = [on(170, 1), off(170), on(170, 2), off(170), on(170, 3)];
    assert_eq!(numbers(&mut tables, &again), [0; 5]);
    assert_eq!(record(&tables, 170), Some(3));
    // Off, and on with another record, while its own is taken by another key.
    let other = [off(170), on(172, 3), on(170, 3), on(170, 0)];
    assert_eq!(numbers(&mut tables, &other), [0, 0, 4, 0]);
    assert_eq!(
        [170, 172].map(|key| record(&tables, key)),
        [Some(0), Some(3)]
    );
    let mut as_if = formatted(8, 2, 40, 4);
    assert_eq!(numbers(&mut as_if, &[on(172, 3), on(170, 0)]), [0, 0]);
    let bare = |tables: &Tables| read(tables.lent()).root.without_numbers();
    assert_eq!(bare(&tables), bare(&as_if));
}

/// The example of row 7 with one page: an off makes room for what was declined.
#[test]
fn a_load_goes_on_after_7() {
    let mut tables = formatted(8, 3, 1, 4);
    let movements = [
        on(0b0000_0000, 0),
        on(0b1000_0000, 1),
        on(0b0100_0000, 2),
        on(0b1100_0000, 3),
        off(0b0100_0000),
        on(0b1100_0000, 3),
        on(0b0100_0000, 2),
    ];
    assert_eq!(numbers(&mut tables, &movements), [0, 0, 0, 7, 0, 0, 7]);
}

/// The example of row 7 with 135 pages, and with 136, which are then all in use:
/// those that the load itself has freed are used again.
#[test]
fn a_load_uses_pages_again() {
    let [first, second] = [on(65_535, 0), on(65_534, 1)];
    let movements = [
        first,
        second,
        off(first.key),
        second,
        first,
        off(second.key),
        second,
    ];
    for (pages, expected) in [(135, [0, 7, 0, 0, 7, 0, 0]), (136, [0, 0, 0, 4, 0, 0, 0])] {
        let mut tables = formatted(16, 2, pages, 2);
        assert_eq!(numbers(&mut tables, &movements), expected, "P {pages}");
        assert_eq!(record(&tables, second.key), Some(1));
    }
}

#[test]
fn a_load_goes_on_after_8() {
    let [one, other] = [(1 << 17) - 1, (1 << 17) - 2];
    for pages in [1, 135, 1_000] {
        let mut tables = formatted(17, 2, pages, 2);
        let movements = [
            on(one, 0),
            on(other, 1),
            on(0, 1),
            off(one),
            on(other, 0),
            off(0),
            on(one, 1),
        ];
        let expected = [0, 8, 0, 0, 0, 0, 8];
        assert_eq!(numbers(&mut tables, &movements), expected, "P {pages}");
    }
}

#[test]
fn lists_of_unequal_lengths() {
    let tables = formatted(8, 2, 40, 9);
    let movements: Vec<Movement> = (0..4).map(|at| on(20 * u64::from(at), at)).collect();
    for moved in 0..=4 {
        for lent in 0..=6 {
            let answers: Vec<u32> = (90..90 + lent).collect();
            if (lent as usize) < moved {
                refused(&tables, &movements[..moved], &answers, 12);
                continue;
            }
            let (mut after, mut written) = (tables.clone(), answers.clone());
            let answer = make(&mut after, &movements[..moved], &mut written);
            assert_eq!(answer, Answer::done());
            assert_eq!(written, [&vec![0; moved], &answers[moved..]].concat());
            let held = read(after.lent()).herd().len();
            assert_eq!(held, moved, "{moved} movements, {lent} answers");
        }
    }
}

/// Neither a list without movements nor one of refused ones changes a byte of
/// the tables; both are done.
#[test]
fn loads_that_move_nothing() {
    let mut tables = formatted(8, 2, 40, 4);
    assert_eq!(numbers(&mut tables, &[on(170, 1), on(172, 2)]), [0, 0]);
    let before = tables.clone();
    assert_eq!(numbers(&mut tables, &[]), []);
    let refused = [on(170, 0), on(9, 1), off(9), on(9, 4), off(300)];
    assert_eq!(numbers(&mut tables, &refused), [5, 4, 6, 3, 2]);
    assert_eq!(tables, before);
}

#[test]
fn row_1_stands_before_row_12() {
    let sound = formatted(8, 2, 3, 4);
    let mut short = sound.clone();
    short.index.truncate(15);
    let mut stray = sound.clone();
    stray.index[39] = 1;
    let mut longer = sound.clone();
    longer.used.push(0);
    for unsound in [short, stray, longer] {
        assert!(!check(&unsound.index, &unsound.keys, &unsound.used));
        for answers in [&[][..], &[5], &[5, 6], &[5, 6, 7]] {
            refused(&unsound, &[on(7, 0), on(300, 9)], answers, 1);
            refused(&unsound, &[], answers, 1);
        }
    }
    refused(&sound, &[on(7, 0), on(300, 9)], &[5], 12);
}

/// A lorry of forty head, and then all of them sold.
#[test]
fn forty_head_on_the_ramp() {
    let mut tables = formatted(64, 60, 250, 4_096);
    let tag = |head: u32| (1 << 63) | (826 << 38) | u64::from(head * head);
    let ons: Vec<Movement> = (0..40).map(|head| on(tag(head), 100 - head)).collect();
    assert_eq!(numbers(&mut tables, &ons), [0; 40]);
    assert_eq!(record(&tables, tag(6)), Some(94));
    let mut offs: Vec<Movement> = (0..40).map(|head| off(tag(head))).collect();
    offs.push(off(tag(6)));
    assert_eq!(numbers(&mut tables, &offs), [vec![0; 40], vec![6]].concat());
    assert!(read(tables.lent()).herd().is_empty());
}
