//! What the Rust source needs that Ciderlater writes for an instruction set, and what a program asks of it.
//!
//! Ciderlater compiles the declarations of an instruction set into tables and Rust source. A build script has it write them
//! (`ciderlater-build`), and [`modules!`] includes them, in one call at the root of a crate. From then on the crate has
//!
//! - `ir::Opcode`, which is found by its name and knows its format, its [constraints](ir::instructions::Constraints), whether it
//!   [accepts](ir::instructions::Constraints::accepts) given types, and which types its
//!   [results](ir::instructions::Constraints::infer_results) have;
//! - `ir::InstructionData` and `ir::builder`, which hold and build instructions;
//! - `settings`, with a module for each group: a [`settings::Builder`] sets and enables by name, and `Flags` answers.
//!
//! The types are [`ir::Type`]. Names and behaviour are those of Cranelift; where Ciderlater defines something otherwise, the
//! documentation says so.
//!
//! # Features
//!
//! `alloc`, which is on by default, brings lists of values and a data flow graph. Without it the crate stands on `core`
//! alone, and the crate that calls [`modules!`] brings them.

#![no_std]
#![forbid(unsafe_code)]
#![warn(missing_docs)]

#[cfg(feature = "alloc")]
extern crate alloc;

pub mod bitset;
pub mod constant_hash;
pub mod ir;
mod macros;
pub mod settings;

#[doc(hidden)]
pub use self::macros::log;
