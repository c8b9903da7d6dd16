//! Girvotal: a classifier for the description logic EL+ whose code is proved to meet its
//! contracts. It reads a catalogue of concepts and axioms, works out which concept lies under
//! which, and keeps that exactly in step while axioms are added and withdrawn.
//!
//! - [`Catalogue`] is a catalogue's bytes, asked questions 1 to 9; [`Builder`] makes them.
//! - [`classify`], [`change`], [`lookup`], [`list`], [`row`] and [`write()`] are the library's
//!   calls on buffers that the caller lends; [`Catalogue::sizes`] says how long these are.
//! - [`Site`] owns the buffers and has the same calls.
//! - A call that is refused gives a [`Refusal`], and changes no byte of what it was lent.
//!
//! Nothing is kept between calls. Have 1 MiB of stack for a call: that is measured, and rounded up.
//! Too little stack is a crash. A store belongs to the catalogue that it was classified from: no call
//! can tell whether it is lent with another that has the same counts.
//!
//! ```
//! use girvotal::{Axiom, Builder, Site};
//!
//! # fn main() -> Result<(), girvotal::Refusal> {
//! let mut builder = Builder::new();
//! let (corner, pillar) = (builder.kind(), builder.kind());
//! let has = builder.role();
//! let with_pillar = builder.existential(has, pillar);
//! builder.axiom(corner, with_pillar);
//!
//! let mut site = Site::classify(builder.build()?)?;
//! assert!(site.lookup(corner, with_pillar)?);
//! let axiom = Axiom { left: corner, right: with_pillar };
//! let changed = site.change(&[axiom], &[])?;
//! assert_eq!(changed.touched.iter().collect::<Vec<_>>(), [corner, with_pillar]);
//! # Ok(())
//! # }
//! ```
//!
//! What is proved is the library behind [`exported`]; this crate adds types to it, and is tested.

#![no_std]
#![warn(missing_docs)]
#![deny(unsafe_code)]

extern crate alloc;

/// Its example is a test.
#[cfg(doctest)]
#[doc = include_str!("../README.md")]
struct Readme;

mod builder;
mod calls;
mod catalogue;
#[allow(unsafe_code)]
pub mod exported;
mod query;
mod refusal;
mod site;

pub use builder::Builder;
pub use calls::{Changed, Concepts, Counts, Row};
pub use calls::{change, classify, list, lookup, row, write};
pub use catalogue::{Axiom, Catalogue, Composition, Concept, Inclusion, Record, Role, Sizes};
pub use query::{Met, query};
pub use refusal::{Question, Refusal};
pub use site::Site;

/// The version of the exported functions, as `GIRVOTAL_ABI` in C.
pub const ABI: u32 = 1;

/// The most bytes of a catalogue.
pub const CATALOGUE_MOST: usize = 20_116;

/// The most bytes of a store that a call uses.
pub const STORE_MOST: usize = 589_824;

/// The most bytes of a work space that a call uses.
pub const WORK_MOST: usize = 557_056;

/// The most bytes of a list that a call uses.
pub const LIST_MOST: usize = 1_024;

/// The most axioms in one list of a change.
pub const AXIOMS_MOST: usize = 64;
