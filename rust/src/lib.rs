//! The proved translator from Rabin tables to parity tables, called from Rust, and other
//! implementations of the same rules (docs/RULES.md) to compare and to time it with.
//!
//! - `calls`: safe wrappers over the translator's C interface;
//! - `plain`: an independent implementation, written from the rules alone;
//! - `tuned`: the tuned conventional implementation;
//! - `specialised`: versions of the tuned one that go beyond the conventional;
//! - `random`: a seeded generator of tables, words, arrays and damage;
//! - `systems`: transition systems of several shapes, with their components and reach.

pub mod calls;
pub mod plain;
pub mod random;
pub mod specialised;
pub mod systems;
pub mod tuned;
