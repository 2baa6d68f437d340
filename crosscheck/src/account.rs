//! The exact account of demand 3 ("Closing figures"), in whole parts of a kW,
//! of which change request 1 makes 1,000 times as many.
//!
//! It is fed what the calls are given except the state, and nothing of the
//! program's answers.

use crate::ledger::{results_of, take_point, Held, Taken, NO_LAST_NUMBER};
use crate::limits::*;
use crate::point::MixedFiring;
use crate::slots::{generator_results, loss_division, reductions, share_division, Division};
use crate::terms::Terms;

/// The divisor of a mixed-firing plant's slot results.
const SHARE_DIVISOR: i128 = WHOLE_SHARE as i128;

/// 72,000,000 = 3,000 Wh of a settled kW × 24 parts of a Wh × 1,000 of a share.
const PARTS_FACTOR: i128 = WH_OF_A_SETTLED_KW * PARTS_OF_A_WH * SHARE_DIVISOR;

/// The product of the three (10,000 − loss).
fn product_after_losses(terms: &Terms) -> i128 {
    let after_loss = |&loss: &u16| i128::from(WHOLE - loss);
    terms.head.losses.iter().map(after_loss).product()
}

/// Equal parts of a kW in which the exact figures are whole numbers.
pub fn parts_of_a_kw(terms: &Terms) -> i128 {
    PARTS_FACTOR * product_after_losses(terms)
}

/// The exact sum of a point's six slot results in parts of a kW (3,000 Wh
/// make one), with no division rounded.
pub fn exact_sum(terms: &Terms, taken: &Taken) -> i128 {
    let product = product_after_losses(terms);
    match taken {
        Taken::Consumer(consumer, days) => {
            let loss = terms.head.loss_of_class(consumer.class());
            let others = product / i128::from(WHOLE - loss);
            let reduced: i128 = reductions(consumer, terms.head.first_slot, days)
                .iter()
                .sum();
            reduced * i128::from(WHOLE) * others * SHARE_DIVISOR
        }
        Taken::Generator(generator) => {
            let delivered: i64 = generator_results(generator).iter().sum();
            i128::from(delivered) * PARTS_OF_A_WH * SHARE_DIVISOR * product
        }
        Taken::MixedFiring(plant) => {
            let dividends: i128 = share_divisions(plant).map(|(dividend, _)| dividend).sum();
            dividends * PARTS_OF_A_WH * product
        }
    }
}

/// The six divisions of a mixed-firing plant.
fn share_divisions<'a>(plant: &'a MixedFiring) -> impl Iterator<Item = Division> + 'a {
    (0..WINDOW_SLOTS).map(|slot| share_division(plant, slot))
}

/// What the account holds; without terms its opening was refused.
#[derive(Clone, Debug)]
pub struct Account {
    terms: Option<Terms>,
    points: u32,
    last: [u8; NUMBER_LENGTH],
    sum: i128,
}

impl Account {
    /// Opening: refused where one of 1 to 8 fits, and so is every later call.
    pub fn opening(head: &[u8], calendar: &[u8]) -> Account {
        Account {
            terms: Terms::read(head, calendar).ok(),
            points: 0,
            last: NO_LAST_NUMBER,
            sum: 0,
        }
    }

    /// Head and calendar, where the opening was accepted.
    pub fn terms(&self) -> Option<&Terms> {
        self.terms.as_ref()
    }

    /// Points taken.
    pub fn points(&self) -> u32 {
        self.points
    }

    /// Adding: gives the point where none of 10 to 18 and 50 to 52 fits; refused,
    /// nothing changes.
    pub fn adding<'a>(&mut self, tag: u8, value: &'a [u8], places: usize) -> Option<Taken<'a>> {
        let terms = self.terms.as_ref()?;
        let held = Held {
            terms,
            points: self.points,
            last: &self.last,
        };
        let (taken, number) = take_point(&held, tag, value, places).ok()?;
        self.sum += exact_sum(terms, &taken);
        self.points += 1;
        self.last = number;
        Some(taken)
    }

    /// Closing: the exact shortfall in parts of a kW, or none while points are
    /// below the count. Nothing changes.
    pub fn closing(&self) -> Option<i128> {
        let terms = self.terms.as_ref()?;
        let reached = self.points >= terms.head.count;
        let contract = i128::from(terms.head.contract) * parts_of_a_kw(terms);
        reached.then(|| (contract - self.sum).max(0))
    }
}

/// The divisions demand 3 speaks of: six of each consumer and of each
/// mixed-firing plant taken, and that of the total of the rounded results by
/// 3,000.
#[derive(Clone, Copy, Debug, Default)]
pub struct Divisions {
    point_left_remainder: bool,
    rounded_total: i128,
}

impl Divisions {
    /// The divisions of one more point.
    pub fn take(&mut self, terms: &Terms, taken: &Taken) {
        self.point_left_remainder |= leaves_remainder(terms, taken);
        let rounded: i64 = results_of(terms, taken).iter().sum();
        self.rounded_total += i128::from(rounded);
    }

    /// Whether a division of a point left a remainder.
    pub fn point_left_remainder(&self) -> bool {
        self.point_left_remainder
    }

    /// Whether the division of the total leaves a remainder.
    pub fn total_leaves_remainder(&self) -> bool {
        self.rounded_total % WH_OF_A_SETTLED_KW != 0
    }
}

/// A point's own divisions, one for each slot; a generator has none.
fn divisions_of(terms: &Terms, taken: &Taken) -> Vec<Division> {
    match taken {
        Taken::Consumer(consumer, days) => {
            let loss = terms.head.loss_of_class(consumer.class());
            reductions(consumer, terms.head.first_slot, days)
                .map(|reduction| loss_division(reduction, loss))
                .to_vec()
        }
        Taken::Generator(_) => Vec::new(),
        Taken::MixedFiring(plant) => share_divisions(plant).collect(),
    }
}

/// Whether one of a point's own divisions is not whole.
fn leaves_remainder(terms: &Terms, taken: &Taken) -> bool {
    divisions_of(terms, taken)
        .into_iter()
        .any(|(dividend, divisor)| dividend % divisor != 0)
}
