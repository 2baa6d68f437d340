//! Seeded books, states and sequences of calls, for comparison with the
//! product: one function for each kind of case.

pub mod damages;
pub mod edges;
pub mod examples;
pub mod faults;
pub mod fields;
pub mod lending;
pub mod lists;
pub mod random;
pub mod returning;
pub mod sequences;
pub mod shortfalls;
pub mod states;

use damages::DAMAGES;
use lists::KINDS;
use random::Random;

/// A book with what was done to make it.
#[derive(Clone, Debug, PartialEq, Eq)]
pub struct SeededBook {
    /// The kind of its list.
    pub kind: &'static str,
    /// The damage, where there is one.
    pub damage: Option<&'static str>,
    /// The book.
    pub book: Vec<u8>,
}

/// The book of a number; the kinds take turns, every second book is damaged.
pub fn seeded_book(number: u64) -> SeededBook {
    let mut random = Random::new(number);
    let kinds = KINDS.len() as u64;
    let (kind, make) = KINDS[(number % kinds) as usize];
    let mut book = make(&mut random).book();
    let damage = (number / kinds % 2 == 1).then(|| random.one_of(&DAMAGES));
    if let Some((_, damage)) = damage {
        damage(&mut random, &mut book);
    }
    SeededBook {
        kind,
        damage: damage.map(|(name, _)| name),
        book,
    }
}
