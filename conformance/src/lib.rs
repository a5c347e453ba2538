//! The archive of the proved library, held against the Rust version built
//! apart: [`wickslate`] calls the archive, [`compare`] makes the same call on
//! both sides and compares every lent byte, [`stack`] makes it on a stack of
//! its own, [`programs`] runs the programs, [`header`] reads the C header,
//! [`random`], [`make`] and [`faults`] give the tests their inputs, [`chains`] are
//! digests of digests, [`speed`] times both sides in alternation, [`rows`] are what a
//! measurement prints.

#![warn(missing_docs)]

pub mod chains;
pub mod compare;
pub mod faults;
#[path = "../../reference/tests/generator/mod.rs"]
pub mod generator;
pub mod header;
pub mod lent;
pub mod make;
pub mod programs;
pub mod random;
pub mod rows;
pub mod settings;
pub mod speed;
pub mod stack;
pub mod wickslate;
