//! Seeded sequences of calls: demand 3, and what the exact account answers.

use crate::{compare, value_that_differs, Answers, Sequence, Unchanged};
use settlement::books::sequences::seeded_sequence;

/// So many are tried, from 0 on.
const SEQUENCES: u64 = 4_000;

/// What is altered in the program that demand 3 is held against.
pub struct Alteration {
    name: &'static str,
    number: Option<u32>,
    /// Added to the shortfall of a closing, in kW.
    pub shortfall_more: i64,
}

impl Alteration {
    /// The number that a call tells instead of its own.
    pub fn number_told(&self, own: u32) -> u32 {
        self.number.unwrap_or(own)
    }
}

/// The program as it is.
const UNALTERED: Alteration = Alteration {
    name: "",
    number: None,
    shortfall_more: 0,
};

/// Programs that demand 3 finds, so that it cannot be asked for less.
const ALTERED: [Alteration; 4] = [
    Alteration {
        name: ", shortfall one kW more",
        shortfall_more: 1,
        ..UNALTERED
    },
    Alteration {
        name: ", shortfall one kW less",
        shortfall_more: -1,
        ..UNALTERED
    },
    Alteration {
        name: ", every call accepted",
        number: Some(0),
        ..UNALTERED
    },
    Alteration {
        name: ", every call refused",
        number: Some(9),
        ..UNALTERED
    },
];

/// A call of the exact account, and whether it was accepted.
pub fn word_of<T>(call: &str, given: Option<T>) -> String {
    let word = if given.is_some() {
        "accepted"
    } else {
        "refused"
    };
    format!("{call} {word}")
}

/// The first sequence whose answers differ, and what differs.
fn first_that_differs(
    wrong: &dyn Answers,
    program: &str,
    answer: impl Fn(&dyn Answers, &Sequence) -> String,
    what_differs: impl Fn(&str, &str) -> String,
) -> Option<String> {
    (0..SEQUENCES).find_map(|number| {
        let given = seeded_sequence(number);
        let found = || answer(wrong, &given);
        let what = |due: &String, found: &String| what_differs(due, found);
        let differs = compare(answer(&Unchanged, &given), found, what).err()?;
        Some(format!(
            "sequence {number} ({}{program}) | {differs}",
            given.kind
        ))
    })
}

/// The first sequence of which demand 3 holds or fails otherwise.
fn told_by_demand3(wrong: &dyn Answers, altered: &Alteration) -> Option<String> {
    first_that_differs(
        wrong,
        altered.name,
        |by, given| by.demand3(given, altered),
        |due, found| format!("demand 3 {found} instead of {due}"),
    )
}

/// The first sequence to which the exact account answers otherwise.
fn told_by_account(wrong: &dyn Answers) -> Option<String> {
    first_that_differs(
        wrong,
        "",
        |by, given| by.account(given),
        |due, found| format!("exact account: {}", value_that_differs(due, found)),
    )
}

/// The first sequence that tells a wrong settlement apart: by demand 3 of its
/// program, by its account, or by demand 3 of a program that breaks it.
pub fn told_by_sequence(wrong: &dyn Answers) -> Option<String> {
    told_by_demand3(wrong, &UNALTERED)
        .or_else(|| told_by_account(wrong))
        .or_else(|| {
            ALTERED
                .iter()
                .find_map(|altered| told_by_demand3(wrong, altered))
        })
}
