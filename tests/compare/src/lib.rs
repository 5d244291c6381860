//! The proved libraries behind safe functions, in the model's types, and what
//! the comparisons share.

pub mod beside;
pub mod calls;
pub mod list;
pub mod loads;
pub mod merges;
pub mod met;
pub mod numbers;
pub mod program;
pub mod run;
pub mod same;
pub mod supply;
pub mod tag_code;
pub mod tag_index;
