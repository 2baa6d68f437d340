//! Opening, adding and closing ("Operations and their refusals").

use crate::choosing::{choose_days, ChosenDays, NO_DAYS};
use crate::limits::*;
use crate::point::{number_is_allowed, Consumer, Generator, MixedFiring, Point};
use crate::refusals::*;
use crate::slots::{
    consumer_results, divide_down, generator_results, mixed_firing_results, window_sums,
    SlotResults,
};
use crate::terms::{Head, Terms};

/// The settlement state. Its fields are plain numbers and may hold anything:
/// adding and closing test all of them (rule 9).
#[derive(Clone, Copy, Debug, PartialEq, Eq)]
pub struct State {
    /// What it holds of head and calendar.
    pub terms: Terms,
    /// Points taken.
    pub points: u32,
    /// Slot totals in Wh.
    pub totals: [i64; WINDOW_SLOTS],
    /// Number of the last point taken.
    pub last: [u8; NUMBER_LENGTH],
}

/// "Twenty-two digits 0 as last number".
pub const NO_LAST_NUMBER: [u8; NUMBER_LENGTH] = [b'0'; NUMBER_LENGTH];

impl State {
    /// The state of a refused opening.
    pub const ZEROS: State = State {
        terms: Terms {
            head: Head::ZEROS,
            marks: [0; DAYS_BACK],
        },
        points: 0,
        totals: [0; WINDOW_SLOTS],
        last: [0; NUMBER_LENGTH],
    };

    /// The state of an accepted opening: no points, totals 0.
    fn opened(terms: Terms) -> State {
        State {
            terms,
            points: 0,
            totals: [0; WINDOW_SLOTS],
            last: NO_LAST_NUMBER,
        }
    }

    /// Rule 9, each clause of it.
    pub fn check(&self) -> Result<(), Refusal> {
        let opening_refuses = self.terms.check().is_err();
        let more_than_count = self.points > self.terms.head.count;
        let furthest = SLOT_TOTAL_OF_A_POINT * i128::from(self.points);
        let total_beyond = self
            .totals
            .iter()
            .any(|&total| i128::from(total).abs() > furthest);
        let last_not_allowed = self.points > 0 && !number_is_allowed(&self.last);
        refuse_where(
            opening_refuses || more_than_count || total_beyond || last_not_allowed,
            STATE,
        )
    }

    /// The state with one point more.
    fn with_point(&self, number: [u8; NUMBER_LENGTH], results: &SlotResults) -> State {
        State {
            points: self.points + 1,
            totals: std::array::from_fn(|slot| self.totals[slot] + results[slot]),
            last: number,
            ..*self
        }
    }
}

/// What rules 10 to 18 and 50 to 52 look at beside the call's own input.
pub struct Held<'a> {
    /// Head and calendar.
    pub terms: &'a Terms,
    /// Points taken.
    pub points: u32,
    /// Number of the last point taken.
    pub last: &'a [u8; NUMBER_LENGTH],
}

/// A point that no rule of adding refuses, a consumer with its chosen days.
#[derive(Clone, Copy, Debug)]
pub enum Taken<'a> {
    /// A consumer and the four days of its baseline.
    Consumer(Consumer<'a>, ChosenDays),
    /// A generator.
    Generator(Generator<'a>),
    /// A mixed-firing plant.
    MixedFiring(MixedFiring<'a>),
}

impl Taken<'_> {
    /// The days of its baseline: four zeros for any kind but a consumer.
    pub fn days(&self) -> ChosenDays {
        match self {
            Taken::Consumer(_, days) => *days,
            Taken::Generator(_) => NO_DAYS,
            Taken::MixedFiring(_) => NO_DAYS,
        }
    }
}

/// Rules 10 to 18 of adding, in the paper's order; 50 stands at the place of 16,
/// 51 and 52 stand at that of 17.
pub fn take_point<'a>(
    held: &Held,
    tag: u8,
    value: &'a [u8],
    places: usize,
) -> Result<(Taken<'a>, [u8; NUMBER_LENGTH]), Told> {
    refuse_where(held.points >= held.terms.head.count, COUNT_REACHED)?;
    let point = Point::cut(tag, value)?; // 11, 12
    refuse_where(places != WINDOW_SLOTS, PLACES)?;
    point.check_number()?; // 14
    let number = point.number();
    refuse_where(held.points > 0 && number <= *held.last, NOT_ABOVE_LAST)?;
    point.check_class_baseline_or_share()?; // 16 or 50
    point.check_readings()?; // 51 or 52
    let taken = match point {
        Point::Consumer(consumer) => {
            Taken::Consumer(consumer, days_of_consumer(held.terms, &consumer)?)
        }
        Point::Generator(generator) => Taken::Generator(generator),
        Point::MixedFiring(plant) => Taken::MixedFiring(plant),
    };
    Ok((taken, number))
}

/// The four days of a consumer; rule 18: fewer than four eligible days.
fn days_of_consumer(terms: &Terms, consumer: &Consumer) -> Result<ChosenDays, Refusal> {
    let sums = window_sums(consumer, terms.head.first_slot);
    choose_days(&terms.eligible_days(), &sums).ok_or(TOO_FEW_DAYS)
}

/// The six rounded slot results of a point.
pub fn results_of(terms: &Terms, taken: &Taken) -> SlotResults {
    match taken {
        Taken::Consumer(consumer, days) => {
            let loss = terms.head.loss_of_class(consumer.class());
            consumer_results(consumer, terms.head.first_slot, days, loss)
        }
        Taken::Generator(generator) => generator_results(generator),
        Taken::MixedFiring(plant) => mixed_firing_results(plant),
    }
}

/// Opening: takes the head and calendar values and gives a state.
pub fn open(head: &[u8], calendar: &[u8]) -> (Refusal, State) {
    match Terms::read(head, calendar) {
        Ok(terms) => (ACCEPTED, State::opened(terms)),
        Err(refusal) => (refusal, State::ZEROS),
    }
}

/// The answer of adding.
#[derive(Clone, Copy, Debug, PartialEq, Eq)]
pub struct Added {
    /// Its refusal.
    pub refusal: Refusal,
    /// The index of the reading that 51 or 52 concerns, otherwise 0.
    pub index: u32,
    /// The state with the point, or as it was given.
    pub state: State,
    /// The four days of the point's baseline, or four zeros.
    pub days: ChosenDays,
}

/// Adding: takes a state, a tag, a value and lent places for the results.
pub fn add(state: &State, tag: u8, value: &[u8], places: &mut [i64]) -> Added {
    match accepted_adding(state, tag, value, places.len()) {
        Ok((results, added)) => {
            places.copy_from_slice(&results);
            added
        }
        Err(Told { refusal, index }) => Added {
            refusal,
            index,
            state: *state,
            days: NO_DAYS,
        },
    }
}

/// The results and the answer of an accepted adding: rule 9, then those of
/// [`take_point`].
fn accepted_adding(
    state: &State,
    tag: u8,
    value: &[u8],
    places: usize,
) -> Result<(SlotResults, Added), Told> {
    state.check()?;
    let held = Held {
        terms: &state.terms,
        points: state.points,
        last: &state.last,
    };
    let (taken, number) = take_point(&held, tag, value, places)?;
    let results = results_of(&state.terms, &taken);
    let added = Added {
        refusal: ACCEPTED,
        index: NO_INDEX,
        state: state.with_point(number, &results),
        days: taken.days(),
    };
    Ok((results, added))
}

/// The closing figures, in the order of the whole book's result.
#[derive(Clone, Copy, Debug, Default, PartialEq, Eq)]
pub struct Figures {
    /// All results of all points and slots, in Wh.
    pub total: i64,
    /// Settled capacity in kW.
    pub settled: i64,
    /// Contract less settled, at least 0.
    pub shortfall: i64,
    /// Settled, at least 0.
    pub expected: i64,
    /// The smaller of expected and contract.
    pub kept: i64,
    /// Expected less kept.
    pub surplus: i64,
    /// Points taken.
    pub points: i64,
    /// Whether the list may bid.
    pub bid: bool,
}

impl Figures {
    /// The eight words of the whole book's result.
    pub fn words(&self) -> [i64; 8] {
        [
            self.total,
            self.settled,
            self.shortfall,
            self.expected,
            self.kept,
            self.surplus,
            self.points,
            i64::from(self.bid),
        ]
    }
}

/// "Closing figures" from a total, a contract and the points taken.
pub fn closing_figures(total: i64, contract: u32, points: u32) -> Figures {
    let contract = i64::from(contract);
    let settled = divide_down(i128::from(total), WH_OF_A_SETTLED_KW) as i64;
    let expected = settled.max(0);
    let kept = expected.min(contract);
    Figures {
        total,
        settled,
        shortfall: (contract - settled).max(0),
        expected,
        kept,
        surplus: expected - kept,
        points: i64::from(points),
        bid: expected >= LOWEST_BID,
    }
}

/// Closing: takes a state and gives the figures; refused figures are zeros.
pub fn close(state: &State) -> (Refusal, Figures) {
    match accepted_closing(state) {
        Ok(figures) => (ACCEPTED, figures),
        Err(refusal) => (refusal, Figures::default()),
    }
}

/// The figures of an accepted closing: rules 9 and 20.
fn accepted_closing(state: &State) -> Result<Figures, Refusal> {
    state.check()?;
    let head = &state.terms.head;
    refuse_where(state.points < head.count, COUNT_NOT_REACHED)?;
    let total = state.totals.iter().sum();
    Ok(closing_figures(total, head.contract, state.points))
}
