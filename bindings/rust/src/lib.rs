//! The proved index of ear-tag codes, behind safe Rust types.
//!
//! [`TagIndex`] owns the tables that the library works in: each of its methods
//! is one call of the library. [`TagFields`] makes the 64-bit code of a tag and
//! takes it apart. A call that is declined answers a [`Refusal`] and has changed
//! nothing. [`TagIndex::load`] carries out a whole list of [`Movement`]s in one
//! call.
//!
//! ```
//! use rulgovaz::{Refusal, TagFields, TagIndex};
//!
//! // Keys of 64 bits, 250 pages of 60 entries, 4,096 records.
//! let mut herd = TagIndex::new(64, 60, 250, 4096)?;
//! let tag = TagFields::of_animal(826, 17).pack()?;
//! herd.on(tag, 5)?;
//! assert_eq!(herd.find(tag), Ok(5));
//! herd.off(tag)?;
//! assert_eq!(herd.find(tag), Err(Refusal::KeyNotHeld));
//! # Ok::<(), Refusal>(())
//! ```
//!
//! What is proved is proved of the library. This package only lends it slices
//! and turns its answers into `Result`s.

mod library;
mod movement;
mod refusal;
mod tag_fields;
mod tag_index;

pub use movement::Movement;
pub use refusal::Refusal;
pub use tag_fields::TagFields;
pub use tag_index::{Listed, Tables, TagIndex};
