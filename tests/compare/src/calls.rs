//! Any call of a history, made on the proved library.

use crate::list::list;
use crate::loads::load;
use crate::tag_index;
use model::history::{Call, Outcome};
use model::table::Tables;

/// Makes a call. The library's record has 32 bits; a larger one of a history
/// is past every register as the largest of 32 bits is.
pub fn call(tables: &mut Tables, made: &Call) -> Outcome {
    Outcome::Answered(match made {
        Call::Format(w, e, p) => tag_index::format(tables, *w, *e, *p),
        Call::On(key, record) => {
            let record = u32::try_from(*record).unwrap_or(u32::MAX);
            tag_index::on(tables, *key, record)
        }
        Call::Off(key) => tag_index::off(tables, *key),
        Call::Find(key) => tag_index::find(tables, *key),
        Call::List(a, b, slice) => {
            let mut slice = slice.clone();
            let answer = list(tables, *a, *b, &mut slice);
            return Outcome::Listed(answer, slice);
        }
        Call::Check => return Outcome::Checked(tag_index::check(tables)),
        Call::Load(movements, answers) => {
            let mut answers = answers.clone();
            let answer = load(tables, movements, &mut answers);
            return Outcome::Loaded(answer, answers);
        }
    })
}
