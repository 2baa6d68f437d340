//! Demand 3 of the mission: program and exact account, call by call.

use crate::account::{parts_of_a_kw, Account, Divisions};
use crate::ledger::{self, Added, Figures, State};
use crate::refusals::{Refusal, ACCEPTED};
use crate::terms::Terms;

/// "One kW plus two watts for each point accepted since the opening".
const WATTS_ALLOWED_A_POINT: i128 = 2;
const WATTS_OF_A_KW: i128 = 1_000;

/// A call after the opening.
#[derive(Clone, Debug, PartialEq, Eq)]
pub enum Call {
    /// An adding with so many lent places.
    Adding {
        /// The tag.
        tag: u8,
        /// The value.
        value: Vec<u8>,
        /// The number of lent places.
        places: usize,
    },
    /// A closing.
    Closing,
}

/// The program that demand 3 is held against.
pub trait Program {
    /// Opening.
    fn open(&self, head: &[u8], calendar: &[u8]) -> (Refusal, State);
    /// Adding.
    fn add(&self, state: &State, tag: u8, value: &[u8], places: &mut [i64]) -> Added;
    /// Closing.
    fn close(&self, state: &State) -> (Refusal, Figures);
}

/// This settlement as the program.
pub struct Settlement;

impl Program for Settlement {
    fn open(&self, head: &[u8], calendar: &[u8]) -> (Refusal, State) {
        ledger::open(head, calendar)
    }

    fn add(&self, state: &State, tag: u8, value: &[u8], places: &mut [i64]) -> Added {
        ledger::add(state, tag, value, places)
    }

    fn close(&self, state: &State) -> (Refusal, Figures) {
        ledger::close(state)
    }
}

/// How often each case of the claim occurred in a sequence that keeps it.
#[derive(Clone, Copy, Debug, Default, PartialEq, Eq)]
pub struct Seen {
    /// Refused openings.
    pub refused_openings: u64,
    /// Accepted addings.
    pub accepted_addings: u64,
    /// Refused addings after an accepted opening.
    pub refused_addings: u64,
    /// Refused closings after an accepted opening.
    pub refused_closings: u64,
    /// Closings equal because settled reaches the contract.
    pub equal_contract_reached: u64,
    /// Closings equal below the contract, for want of a remainder.
    pub equal_without_remainder: u64,
    /// Closings where the printed shortfall is greater.
    pub greater: u64,
    /// Of the greater ones: a point's division left a remainder, the total's
    /// did not.
    pub greater_by_points_alone: u64,
    /// Of the greater ones: only the total's division left a remainder.
    pub greater_by_total_alone: u64,
    /// Accepted closings with settled below zero.
    pub settled_below_zero: u64,
}

impl Seen {
    /// The counts of two sequences together.
    pub fn and(self, other: Seen) -> Seen {
        Seen {
            refused_openings: self.refused_openings + other.refused_openings,
            accepted_addings: self.accepted_addings + other.accepted_addings,
            refused_addings: self.refused_addings + other.refused_addings,
            refused_closings: self.refused_closings + other.refused_closings,
            equal_contract_reached: self.equal_contract_reached + other.equal_contract_reached,
            equal_without_remainder: self.equal_without_remainder + other.equal_without_remainder,
            greater: self.greater + other.greater,
            greater_by_points_alone: self.greater_by_points_alone + other.greater_by_points_alone,
            greater_by_total_alone: self.greater_by_total_alone + other.greater_by_total_alone,
            settled_below_zero: self.settled_below_zero + other.settled_below_zero,
        }
    }
}

/// The first call at which the claim does not hold; the opening is call 0.
#[derive(Clone, Debug, PartialEq, Eq)]
pub struct Breach {
    /// Place of the call in the sequence.
    pub call: usize,
    /// What is wrong there.
    pub what: &'static str,
}

/// Demand 3 over an opening and the calls after it, for this settlement.
pub fn demand3(head: &[u8], calendar: &[u8], calls: &[Call]) -> Result<Seen, Breach> {
    demand3_of(&Settlement, head, calendar, calls)
}

/// Demand 3 over an opening and the calls after it, for any program.
pub fn demand3_of(
    program: &impl Program,
    head: &[u8],
    calendar: &[u8],
    calls: &[Call],
) -> Result<Seen, Breach> {
    let mut run = Run::opening(program, head, calendar).map_err(|what| Breach { call: 0, what })?;
    for (place, call) in (1..).zip(calls) {
        match call {
            Call::Adding { tag, value, places } => run.adding(*tag, value, *places),
            Call::Closing => run.closing(),
        }
        .map_err(|what| Breach { call: place, what })?;
    }
    Ok(run.seen)
}

/// Both sides of a sequence of calls on one test.
struct Run<'p, P: Program> {
    program: &'p P,
    state: State,
    account: Account,
    divisions: Divisions,
    seen: Seen,
}

impl<'p, P: Program> Run<'p, P> {
    fn opening(program: &'p P, head: &[u8], calendar: &[u8]) -> Result<Self, &'static str> {
        let (number, state) = program.open(head, calendar);
        let account = Account::opening(head, calendar);
        accepted_alike(number, account.terms().is_some())?;
        let seen = Seen {
            refused_openings: u64::from(account.terms().is_none()),
            ..Seen::default()
        };
        Ok(Run {
            program,
            state,
            account,
            divisions: Divisions::default(),
            seen,
        })
    }

    fn adding(&mut self, tag: u8, value: &[u8], places: usize) -> Result<(), &'static str> {
        let mut lent = vec![0; places];
        let added = self.program.add(&self.state, tag, value, &mut lent);
        let taken = self.account.adding(tag, value, places);
        accepted_alike(added.refusal, taken.is_some())?;
        self.state = added.state;
        match (self.account.terms(), taken) {
            (Some(terms), Some(taken)) => {
                self.divisions.take(terms, &taken);
                self.seen.accepted_addings += 1;
            }
            (Some(_), None) => self.seen.refused_addings += 1,
            _ => {}
        }
        Ok(())
    }

    fn closing(&mut self) -> Result<(), &'static str> {
        let (number, figures) = self.program.close(&self.state);
        let exact = self.account.closing();
        accepted_alike(number, exact.is_some())?;
        match (self.account.terms().copied(), exact) {
            (Some(terms), Some(exact)) => self.shortfalls(&terms, &figures, exact),
            (Some(_), None) => {
                self.seen.refused_closings += 1;
                Ok(())
            }
            _ => Ok(()),
        }
    }

    /// The two shortfalls of an accepted closing, both in parts of a kW.
    fn shortfalls(
        &mut self,
        terms: &Terms,
        figures: &Figures,
        exact: i128,
    ) -> Result<(), &'static str> {
        let kw = parts_of_a_kw(terms);
        let printed = i128::from(figures.shortfall) * kw;
        let reached = figures.settled >= i64::from(terms.head.contract);
        let by_points = self.divisions.point_left_remainder();
        let by_total = self.divisions.total_leaves_remainder();
        let equal_due = reached || !(by_points || by_total);
        hold(
            (printed == exact) == equal_due,
            "equal, but not exactly where due",
        )?;
        if !equal_due {
            let watts = WATTS_ALLOWED_A_POINT * i128::from(self.account.points());
            let allowance = kw + watts * kw / WATTS_OF_A_KW;
            hold(printed > exact, "printed shortfall not greater")?;
            hold(printed - exact < allowance, "printed shortfall too far off")?;
        }
        self.count_closing(reached, by_points, by_total, figures.settled < 0);
        Ok(())
    }

    fn count_closing(&mut self, reached: bool, points: bool, total: bool, below_zero: bool) {
        let seen = &mut self.seen;
        seen.settled_below_zero += u64::from(below_zero);
        match (reached, points, total) {
            (true, ..) => seen.equal_contract_reached += 1,
            (false, false, false) => seen.equal_without_remainder += 1,
            _ => seen.greater += 1,
        }
        seen.greater_by_points_alone += u64::from(!reached && points && !total);
        seen.greater_by_total_alone += u64::from(!reached && total && !points);
    }
}

/// A call is accepted exactly when the exact account accepts it.
fn accepted_alike(number: Refusal, account_accepts: bool) -> Result<(), &'static str> {
    hold(
        (number == ACCEPTED) == account_accepts,
        "accepted by one side only",
    )
}

fn hold(claim: bool, otherwise: &'static str) -> Result<(), &'static str> {
    if claim {
        Ok(())
    } else {
        Err(otherwise)
    }
}
