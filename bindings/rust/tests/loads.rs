//! Loads: each movement answered as the single call would be, the declined ones
//! passed over, in the order of the list.

use rulgovaz::{Movement, Refusal, Tables, TagIndex};

fn index(width: u64, entries: u64, pages: u64, records: usize) -> TagIndex {
    TagIndex::new(width, entries, pages, records).expect("sizes inside the limits")
}

/// The movements made by single calls.
fn one_by_one(index: &mut TagIndex, movements: &[Movement]) -> Vec<Result<(), Refusal>> {
    let single = |movement: &Movement| match movement.record() {
        Some(record) => index.on(movement.key(), record),
        None => index.off(movement.key()),
    };
    movements.iter().map(single).collect()
}

/// Numbers of a linear congruence, the same in every run.
struct Draw(u64);

impl Draw {
    fn below(&mut self, end: u64) -> u64 {
        self.0 = self.0.wrapping_mul(6_364_136_223_846_793_005);
        self.0 = self.0.wrapping_add(1_442_695_040_888_963_407);
        (self.0 >> 33) % end
    }

    /// Few keys and records, so that they meet again; now and then one too large.
    fn movement(&mut self, width: u32, records: usize) -> Movement {
        let key = (1 << width) - 1 - self.below(40) * self.below(9);
        let key = if self.below(20) == 0 { 1 << width } else { key };
        let record = self.below(records as u64 + 2) as u32;
        match self.below(3) {
            0 => Movement::off(key),
            _ => Movement::on(key, record),
        }
    }
}

/// Loads of up to forty movements, on tables that cut pages, grow high and run out
/// of pages. Each reason declines a movement somewhere.
#[test]
fn equal_to_single_calls() {
    let mut draw = Draw(1988);
    let mut met = Vec::new();
    for (width, entries, pages, records) in [(10, 2, 60, 30), (17, 2, 900, 6), (40, 5, 40, 60)] {
        let mut loaded = index(width.into(), entries, pages, records);
        let mut single = loaded.clone();
        for _ in 0..200 {
            let length = draw.below(41);
            let movements: Vec<Movement> =
                (0..length).map(|_| draw.movement(width, records)).collect();
            let results = one_by_one(&mut single, &movements);
            met.extend(results.iter().filter_map(|result| result.err()));
            assert_eq!(loaded.load(&movements), Ok(results));
            assert_eq!(loaded, single);
        }
        assert!(loaded.check());
    }
    for number in [2, 3, 4, 5, 6, 7, 8] {
        let refusal = Refusal::from_number(number).expect("a number of a refusal");
        assert!(met.contains(&refusal), "{number} was never met");
    }
}

#[test]
fn declined_ones_are_passed_over() {
    let mut index = index(8, 5, 10, 4);
    let results = index.load(&[
        Movement::on(7, 0),
        Movement::on(256, 1),
        Movement::off(256),
        Movement::on(9, 4),
        Movement::on(9, 0),
        Movement::on(7, 1),
        Movement::off(8),
        Movement::on(9, 3),
    ]);
    let expected = vec![
        Ok(()),
        Err(Refusal::KeyTooWide),
        Err(Refusal::KeyTooWide),
        Err(Refusal::NoSuchRecord),
        Err(Refusal::RecordInUse),
        Err(Refusal::KeyHeld),
        Err(Refusal::KeyNotHeld),
        Ok(()),
    ];
    assert_eq!(results, Ok(expected));
    assert_eq!(index.list_all(0, 255), Ok(vec![0, 3]));
}

#[test]
fn height_and_pages() {
    let mut high = index(17, 2, 65_534, 2);
    let mut full = index(16, 2, 135, 2);
    for (index, largest, refusal) in [
        (&mut high, 0x1_ffff, Refusal::RootTooHigh),
        (&mut full, 0xffff, Refusal::OutOfPages),
    ] {
        let movements = [
            Movement::on(largest - 1, 0),
            Movement::on(largest, 1),
            Movement::on(0, 1),
        ];
        let expected = vec![Ok(()), Err(refusal), Ok(())];
        assert_eq!(index.load(&movements), Ok(expected));
        assert_eq!(index.list_all(0, largest), Ok(vec![1, 0]));
    }
}

#[test]
fn order_matters() {
    let moves = [Movement::on(7, 1), Movement::off(7)];
    let mut first_on = index(8, 5, 10, 4);
    assert_eq!(first_on.on(7, 0), Ok(()));
    let mut first_off = first_on.clone();

    let on_off = first_on.load(&moves);
    assert_eq!(on_off, Ok(vec![Err(Refusal::KeyHeld), Ok(())]));
    assert_eq!(first_on.find(7), Err(Refusal::KeyNotHeld));

    let off_on = first_off.load(&[moves[1], moves[0]]);
    assert_eq!(off_on, Ok(vec![Ok(()), Ok(())]));
    assert_eq!(first_off.find(7), Ok(1));
}

#[test]
fn empty_load() {
    let mut index = index(8, 5, 10, 4);
    assert_eq!(index.on(7, 0), Ok(()));
    let before = index.clone();
    assert_eq!(index.load(&[]), Ok(vec![]));
    assert_eq!(index, before);
}

/// Whatever the movements are, tables that are not sound stay as they were.
#[test]
fn not_sound() {
    let mut damaged = index(8, 5, 10, 4);
    assert_eq!(damaged.on(7, 0), Ok(()));
    damaged.tables_mut().used[0] = 0;
    for mut index in [damaged, TagIndex::from_tables(Tables::default())] {
        let before = index.clone();
        for movements in [&[][..], &[Movement::on(8, 1), Movement::off(7)]] {
            assert_eq!(index.load(movements), Err(Refusal::NotSound));
            assert_eq!(index, before);
        }
    }
}
