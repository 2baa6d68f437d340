//! Single calls in the form that the program call_vectors reads, and the text
//! of their answers. docs/VECTORS.md has both forms byte by byte.

pub mod vectors;

use crate::ledger::{add, close, open, Added, Figures, State};
use crate::limits::*;
use crate::refusals::{Refusal, Told};
use crate::terms::{Head, Terms};
use crate::writing::{write_head, write_point};
use std::fmt::Display;

/// Kind byte of an opening.
pub const OPENING: u8 = 1;
/// Kind byte of an adding.
pub const ADDING: u8 = 2;
/// Kind byte of a closing.
pub const CLOSING: u8 = 3;
/// Kind byte of writing a head.
pub const WRITING_HEAD: u8 = 4;
/// Kind byte of writing a point.
pub const WRITING_POINT: u8 = 5;
/// Bytes of a state.
pub const STATE_LENGTH: usize = 123;
/// Most bytes of a head, a calendar or a value, and most lent bytes.
pub const MOST_BYTES: usize = 6_000;
/// Most places that an adding may be lent.
pub const MOST_PLACES: usize = 8;

/// One call with all that it is given.
#[derive(Clone, Debug, PartialEq, Eq)]
pub enum Call {
    /// Opening with a head and a calendar.
    Opening {
        /// The head value.
        head: Vec<u8>,
        /// The calendar value.
        calendar: Vec<u8>,
    },
    /// Adding with a raw state.
    Adding {
        /// The state before the call.
        state: State,
        /// The tag.
        tag: u8,
        /// What the lent places hold before the call.
        places: Vec<i64>,
        /// The value.
        value: Vec<u8>,
    },
    /// Closing with a raw state.
    Closing {
        /// The state.
        state: State,
    },
    /// Writing a head with its calendar.
    WritingHead {
        /// The head value.
        head: Vec<u8>,
        /// The calendar value.
        calendar: Vec<u8>,
        /// What the lent bytes hold before the call.
        lent: Vec<u8>,
    },
    /// Writing a point.
    WritingPoint {
        /// The tag.
        tag: u8,
        /// The value.
        value: Vec<u8>,
        /// What the lent bytes hold before the call.
        lent: Vec<u8>,
    },
}

impl Call {
    /// The call in its form.
    pub fn bytes(&self) -> Vec<u8> {
        match self {
            Call::Opening { head, calendar } => with_parts(vec![OPENING], &[head, calendar]),
            Call::Adding {
                state,
                tag,
                places,
                value,
            } => {
                let mut front = vec![ADDING];
                front.extend(state_bytes(state));
                front.extend([*tag, places.len() as u8]);
                front.extend(places.iter().flat_map(|place| place.to_be_bytes()));
                with_parts(front, &[value])
            }
            Call::Closing { state } => [vec![CLOSING], state_bytes(state)].concat(),
            Call::WritingHead {
                head,
                calendar,
                lent,
            } => with_parts(vec![WRITING_HEAD], &[head, calendar, lent]),
            Call::WritingPoint { tag, value, lent } => {
                with_parts(vec![WRITING_POINT, *tag], &[value, lent])
            }
        }
    }

    /// Makes the call: its refusal, and the line of its answer.
    pub fn answer(&self) -> (Refusal, String) {
        let (refusal, given) = self.made();
        let name = match self {
            Call::Opening { .. } => "opening",
            Call::Adding { .. } => "adding",
            Call::Closing { .. } => "closing",
            Call::WritingHead { .. } => "writing head",
            Call::WritingPoint { .. } => "writing point",
        };
        (refusal, format!("{name} {refusal}{given}\n"))
    }

    /// The refusal of the call, and the text of what it gives back.
    fn made(&self) -> (Refusal, String) {
        match self {
            Call::Opening { head, calendar } => {
                let (refusal, state) = open(head, calendar);
                (refusal, state_text(&state))
            }
            Call::Adding {
                state,
                tag,
                places,
                value,
            } => {
                let mut places = places.clone();
                let added = add(state, *tag, value, &mut places);
                (added.refusal, added_text(&added, &places))
            }
            Call::Closing { state } => {
                let (refusal, figures) = close(state);
                (refusal, figures_text(&figures))
            }
            Call::WritingHead {
                head,
                calendar,
                lent,
            } => {
                let mut lent = lent.clone();
                let refusal = write_head(head, calendar, &mut lent);
                (refusal, lent_text(&lent))
            }
            Call::WritingPoint { tag, value, lent } => {
                let mut lent = lent.clone();
                let Told { refusal, index } = write_point(*tag, value, &mut lent);
                (refusal, format!(" index {index}{}", lent_text(&lent)))
            }
        }
    }
}

/// The front of a call, and each part behind it with a length of two bytes.
fn with_parts(front: Vec<u8>, parts: &[&[u8]]) -> Vec<u8> {
    let mut bytes = front;
    for part in parts {
        bytes.extend((part.len() as u16).to_be_bytes());
        bytes.extend(*part);
    }
    bytes
}

/// A state in its form.
fn state_bytes(state: &State) -> Vec<u8> {
    let Terms { head, marks } = &state.terms;
    let mut bytes = head.bytes_before_count();
    bytes.extend(head.count.to_be_bytes());
    bytes.extend(marks);
    bytes.extend(state.points.to_be_bytes());
    bytes.extend(state.totals.iter().flat_map(|total| total.to_be_bytes()));
    bytes.extend(state.last);
    bytes
}

fn list_text<Number: Display>(numbers: &[Number]) -> String {
    numbers.iter().map(|number| format!(" {number}")).collect()
}

fn hex_text(bytes: &[u8]) -> String {
    bytes.iter().map(|byte| format!("{byte:02x}")).collect()
}

fn lent_text(lent: &[u8]) -> String {
    let space = if lent.is_empty() { "" } else { " " };
    format!(" lent{space}{}", hex_text(lent))
}

fn state_text(state: &State) -> String {
    let Terms { head, marks } = &state.terms;
    let [low, high, extra_high] = head.losses;
    format!(
        " year {} month {} day {} slot {} losses {low} {high} {extra_high} contract {} count {} \
         marks {} points {} totals{} last {}",
        head.year,
        head.month,
        head.day,
        head.first_slot,
        head.contract,
        head.count,
        hex_text(marks),
        state.points,
        list_text(&state.totals),
        hex_text(&state.last),
    )
}

fn added_text(added: &Added, places: &[i64]) -> String {
    format!(
        " index {}{} days{} places{}",
        added.index,
        state_text(&added.state),
        list_text(&added.days),
        list_text(places),
    )
}

fn figures_text(figures: &Figures) -> String {
    format!(
        " total {} settled {} shortfall {} expected {} kept {} surplus {} points {} bid {}",
        figures.total,
        figures.settled,
        figures.shortfall,
        figures.expected,
        figures.kept,
        figures.surplus,
        figures.points,
        if figures.bid { "yes" } else { "no" },
    )
}

/// Bytes not yet read.
struct Unread<'a>(&'a [u8]);

impl<'a> Unread<'a> {
    fn take(&mut self, length: usize) -> Option<&'a [u8]> {
        let (taken, rest) = self.0.split_at_checked(length)?;
        self.0 = rest;
        Some(taken)
    }

    fn array<const N: usize>(&mut self) -> Option<[u8; N]> {
        self.take(N)?.try_into().ok()
    }

    fn u16(&mut self) -> Option<u16> {
        self.array().map(u16::from_be_bytes)
    }

    fn u32(&mut self) -> Option<u32> {
        self.array().map(u32::from_be_bytes)
    }

    fn i64(&mut self) -> Option<i64> {
        self.array().map(i64::from_be_bytes)
    }

    /// Bytes with their length of two bytes before them.
    fn part(&mut self) -> Option<Vec<u8>> {
        let length = usize::from(self.u16()?);
        (length <= MOST_BYTES).then_some(())?;
        self.take(length).map(<[u8]>::to_vec)
    }

    /// The head's numbers of a state.
    fn head(&mut self) -> Option<Head> {
        let year = self.u16()?;
        let [month, day, first_slot] = self.array()?;
        Some(Head {
            year,
            month,
            day,
            first_slot,
            losses: [self.u16()?, self.u16()?, self.u16()?],
            contract: self.u32()?,
            count: self.u32()?,
        })
    }

    fn state(&mut self) -> Option<State> {
        let head = self.head()?;
        let (marks, points) = (self.array()?, self.u32()?);
        let mut totals = [0; WINDOW_SLOTS];
        for total in &mut totals {
            *total = self.i64()?;
        }
        Some(State {
            terms: Terms { head, marks },
            points,
            totals,
            last: self.array()?,
        })
    }

    fn places(&mut self, count: u8) -> Option<Vec<i64>> {
        (usize::from(count) <= MOST_PLACES).then_some(())?;
        (0..count).map(|_| self.i64()).collect()
    }

    fn call(&mut self) -> Option<Call> {
        let [kind] = self.array()?;
        match kind {
            OPENING => Some(Call::Opening {
                head: self.part()?,
                calendar: self.part()?,
            }),
            ADDING => {
                let state = self.state()?;
                let [tag, count] = self.array()?;
                Some(Call::Adding {
                    state,
                    tag,
                    places: self.places(count)?,
                    value: self.part()?,
                })
            }
            CLOSING => Some(Call::Closing {
                state: self.state()?,
            }),
            WRITING_HEAD => Some(Call::WritingHead {
                head: self.part()?,
                calendar: self.part()?,
                lent: self.part()?,
            }),
            WRITING_POINT => {
                let [tag] = self.array()?;
                Some(Call::WritingPoint {
                    tag,
                    value: self.part()?,
                    lent: self.part()?,
                })
            }
            _ => None,
        }
    }
}

/// The calls that bytes hold, and whether the last one is whole.
pub fn read_calls(bytes: &[u8]) -> (Vec<Call>, bool) {
    let mut unread = Unread(bytes);
    let mut calls = Vec::new();
    while !unread.0.is_empty() {
        match unread.call() {
            Some(call) => calls.push(call),
            None => return (calls, false),
        }
    }
    (calls, true)
}
