//! Calls made on the proved library and on the model: the same answers, and
//! the same bytes after. `what` names the tables where they differ.

use crate::beside::beside;
use crate::met::Met;
use crate::tag_index;
use model::answer::Answer;
use model::calls;
use model::history::{Call, Outcome};
use model::table::Tables;

/// Check says what the model says, and changes no byte.
pub fn check(tables: &Tables, what: &str) -> bool {
    let mut after = tables.clone();
    let says = tag_index::check(&mut after);
    let expected = calls::check(&tables.index, &tables.keys, &tables.used);
    assert_eq!(says, expected, "{what}: check");
    assert!(after == *tables, "{what}: check changed a byte");
    says
}

/// Find answers as the model, and changes no byte.
pub fn find(tables: &Tables, key: u64, what: &str) -> Answer {
    let mut after = tables.clone();
    let answer = tag_index::find(&mut after, key);
    let expected = calls::find(&tables.index, &tables.keys, &tables.used, key);
    assert_eq!(answer, expected, "{what}: find {key:#x}");
    assert!(after == *tables, "{what}: find {key:#x} changed a byte");
    answer
}

/// Format answers as the model and leaves every byte as the model does; a
/// refused one leaves every byte as it was.
pub fn format(tables: &Tables, [w, e, p]: [u64; 3], what: &str) -> Answer {
    let mut after = tables.clone();
    let answer = tag_index::format(&mut after, w, e, p);
    let mut model = tables.clone();
    let Tables { index, keys, used } = &mut model;
    let expected = calls::format(index, keys, used, w, e, p);
    assert_eq!(answer, expected, "{what}: format {w} {e} {p}");
    assert!(after == model, "{what}: format {w} {e} {p}: other bytes");
    let kept = answer.number == 0 || after == *tables;
    assert!(kept, "{what}: a refused format {w} {e} {p} changed a byte");
    answer
}

/// On or off answers as the model and leaves the tables as the model does, page
/// numbers aside; a refused one leaves every byte as it was.
pub fn change(tables: &Tables, made: Call, met: &mut Met, what: &str) -> u32 {
    let mut after = tables.clone();
    match beside(&mut after, &made, met) {
        Ok(Outcome::Answered(answer)) => {
            let kept = answer.number == 0 || after == *tables;
            assert!(kept, "{what}: a refused {made:?} changed a byte");
            answer.number
        }
        Ok(other) => panic!("{what}: {made:?} gave {other:?}"),
        Err(how) => panic!("{what}: {made:?}: {how}"),
    }
}

/// Load answers as the model, and leaves the tables and its list of answers as
/// the model does, page numbers aside, and all as its single calls do; a refused
/// one leaves everything as it was. Gives its answer and its list.
pub fn load(tables: &Tables, made: Call, met: &mut Met, what: &str) -> (Answer, Vec<u32>) {
    let mut after = tables.clone();
    match (beside(&mut after, &made, met), &made) {
        (Ok(Outcome::Loaded(answer, answers)), Call::Load(_, lent)) => {
            let kept = answers == *lent && after == *tables;
            assert!(
                answer.number == 0 || kept,
                "{what}: a refused {made:?} changed something"
            );
            (answer, answers)
        }
        (Ok(other), _) => panic!("{what}: {made:?} gave {other:?}"),
        (Err(how), _) => panic!("{what}: {made:?}: {how}"),
    }
}
