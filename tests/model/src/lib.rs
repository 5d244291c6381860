//! A plain model of the tag index, written from its specification alone.
//!
//! It shares nothing with the index it is compared with. Quoted words in the
//! comments are the specification's.
//!
//! - What a herd's index is: [`bits`], [`leaf_list`], [`search`], [`pages`],
//!   [`merging`], [`index`].
//! - Its tables and calls: [`table`], [`sound`], [`answer`], [`calls`].
//! - What it is measured against: [`map`], [`bounds`], [`longest`],
//!   [`quick_cut`], [`claims`], [`history`].
//! - Tags and the program: [`tag_code`], [`day_book`].
//! - For comparisons: [`compare`], [`random`], [`shrink`].
//!
//! The tests take their seeds from 0 on, or from MODEL_SEED if it is set.

pub mod answer;
pub mod bits;
pub mod bounds;
pub mod calls;
pub mod claims;
pub mod compare;
pub mod day_book;
pub mod history;
pub mod index;
pub mod leaf_list;
pub mod longest;
pub mod map;
pub mod merging;
pub mod pages;
pub mod quick_cut;
pub mod random;
pub mod search;
pub mod shrink;
pub mod sound;
pub mod table;
pub mod tag_code;
