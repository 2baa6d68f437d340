//! Seeded inputs of the report, for comparison with the product: one function
//! for each kind of input.

pub mod changes;
pub mod good;
pub mod inputs;
pub mod rules;
pub mod words;

use crate::books::random::Random;
use inputs::KINDS;

/// An input of the report, with the kind that it was made by.
#[derive(Clone, Debug, PartialEq, Eq)]
pub struct SeededInput {
    /// The kind.
    pub kind: &'static str,
    /// The input.
    pub input: Vec<u8>,
}

/// The input of a number; the kinds take turns, and each counts its own, so that
/// what a kind has a list of comes in turn.
pub fn seeded_input(number: u64) -> SeededInput {
    let kinds = KINDS.len() as u64;
    let (kind, make) = KINDS[(number % kinds) as usize];
    let input = make(&mut Random::new(number), (number / kinds) as usize);
    SeededInput { kind, input }
}
