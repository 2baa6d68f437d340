//! The half-year report of change request 4: records tested, then summed.
//!
//! A record is the 64 result bytes of "Whole book". It is judged by its eight
//! words alone, and no closing is worked. Every figure is exact: the words have
//! 64 bits, what is made of them has 128.

use crate::limits::*;
use crate::refusals::*;
use crate::terms::contract_is_allowed;

/// The eight words of a record, whatever they hold.
#[derive(Clone, Copy, Debug, PartialEq, Eq)]
pub struct Record {
    /// All results of all points and slots, in Wh.
    pub total: i128,
    /// Settled capacity in kW.
    pub settled: i128,
    /// Shortfall in kW.
    pub shortfall: i128,
    /// Expected capacity in kW.
    pub expected: i128,
    /// What is kept of it, in kW.
    pub kept: i128,
    /// What is left of it, in kW.
    pub surplus: i128,
    /// Points.
    pub points: i128,
    /// Bid: 1 or 0.
    pub bid: i128,
}

/// A signed word, two's complement, high byte first: of all its bits the first
/// alone counts below zero.
fn word(bytes: &[u8]) -> i128 {
    let first = if bytes[0] >= 0x80 { -1 } else { 0 };
    bytes
        .iter()
        .fold(first, |word, &byte| word * 0x100 + i128::from(byte))
}

impl Record {
    /// The words of a record, in the order of the result.
    fn cut(bytes: &[u8; RESULT_LENGTH]) -> Record {
        let word_at = |place: usize| word(&bytes[WORD_LENGTH * place..][..WORD_LENGTH]);
        Record {
            total: word_at(0),
            settled: word_at(1),
            shortfall: word_at(2),
            expected: word_at(3),
            kept: word_at(4),
            surplus: word_at(5),
            points: word_at(6),
            bid: word_at(7),
        }
    }

    /// Rounded toward minus infinity: the last whole kW that the total reaches.
    fn settled_is_from_total(&self) -> bool {
        let reached = self.settled * WH_OF_A_SETTLED_KW;
        (reached..reached + WH_OF_A_SETTLED_KW).contains(&self.total)
    }

    /// "Settled, at least 0".
    fn expected_is_from_settled(&self) -> bool {
        self.expected == self.settled.max(0)
    }

    fn kept_and_surplus_are_expected(&self) -> bool {
        self.kept + self.surplus == self.expected
    }

    fn neither_is_below_zero(&self) -> bool {
        self.kept >= 0 && self.surplus >= 0
    }

    /// 1 where expected is 1,000 or more, otherwise 0.
    fn bid_is_from_expected(&self) -> bool {
        self.bid == i128::from(self.expected >= i128::from(LOWEST_BID))
    }

    fn shortfall_is_not_below_zero(&self) -> bool {
        self.shortfall >= 0
    }

    /// The contract is what settled and shortfall make together.
    fn shortfall_is_of_a_contract(&self) -> bool {
        let contract = self.settled + self.shortfall;
        self.shortfall <= 0 || (self.surplus == 0 && is_a_contract(contract))
    }

    /// The contract is what is kept.
    fn kept_is_a_contract(&self) -> bool {
        self.shortfall != 0 || (self.settled >= 0 && is_a_contract(self.kept))
    }

    fn points_are_allowed(&self) -> bool {
        (1..=i128::from(HIGHEST_COUNT)).contains(&self.points)
    }

    fn total_is_within_its_points(&self) -> bool {
        self.total.abs() <= TOTAL_OF_A_POINT * self.points
    }

    /// Rule 54, "the closing rules that one record shows", in the request's order.
    fn check(&self) -> Result<(), Refusal> {
        refuse_where(!self.settled_is_from_total(), RECORD)?;
        refuse_where(!self.expected_is_from_settled(), RECORD)?;
        refuse_where(!self.kept_and_surplus_are_expected(), RECORD)?;
        refuse_where(!self.neither_is_below_zero(), RECORD)?;
        refuse_where(!self.bid_is_from_expected(), RECORD)?;
        refuse_where(!self.shortfall_is_not_below_zero(), RECORD)?;
        refuse_where(!self.shortfall_is_of_a_contract(), RECORD)?;
        refuse_where(!self.kept_is_a_contract(), RECORD)?;
        refuse_where(!self.points_are_allowed(), RECORD)?;
        refuse_where(!self.total_is_within_its_points(), RECORD)
    }
}

/// An allowed contract (rule 6); one that 32 bits do not hold is none.
fn is_a_contract(contract: i128) -> bool {
    u32::try_from(contract).is_ok_and(contract_is_allowed)
}

/// Why there are no sums.
#[derive(Clone, Copy, Debug, PartialEq, Eq)]
pub struct TurnedAway {
    /// The number.
    pub refusal: Refusal,
    /// For 54, the place of the first such record, from 0.
    pub place: Option<usize>,
}

impl From<Refusal> for TurnedAway {
    /// A number without a place.
    fn from(refusal: Refusal) -> TurnedAway {
        TurnedAway {
            refusal,
            place: None,
        }
    }
}

/// The records of an input; rule 53: length no multiple of 64 or above 500
/// records.
fn records_of(input: &[u8]) -> Result<Vec<Record>, Refusal> {
    let (records, rest) = input.as_chunks::<RESULT_LENGTH>();
    refuse_where(!rest.is_empty(), RECORDS)?;
    refuse_where(records.len() > MOST_RECORDS, RECORDS)?;
    Ok(records.iter().map(Record::cut).collect())
}

/// Rule 54, the lowest place first.
fn check_each(records: &[Record]) -> Result<(), TurnedAway> {
    for (place, record) in records.iter().enumerate() {
        record.check().map_err(|refusal| TurnedAway {
            refusal,
            place: Some(place),
        })?;
    }
    Ok(())
}

/// The figures of the report, in its order.
#[derive(Clone, Copy, Debug, Default, PartialEq, Eq)]
pub struct Sums {
    /// How many records there are.
    pub records: usize,
    /// The sum of their points.
    pub points: i128,
    /// The sum of their totals, in Wh.
    pub total: i128,
    /// The sum of what they settled, in kW.
    pub settled: i128,
    /// The sum of their shortfalls, in kW.
    pub shortfall: i128,
    /// The sum of what they expect, in kW.
    pub expected: i128,
    /// The sum of what they keep, in kW.
    pub kept: i128,
    /// The sum of their surplus, in kW.
    pub surplus: i128,
}

impl Sums {
    /// The sums over the records themselves.
    fn over(records: &[Record]) -> Sums {
        let sum_of = |word: fn(&Record) -> i128| records.iter().map(word).sum();
        Sums {
            records: records.len(),
            points: sum_of(|record| record.points),
            total: sum_of(|record| record.total),
            settled: sum_of(|record| record.settled),
            shortfall: sum_of(|record| record.shortfall),
            expected: sum_of(|record| record.expected),
            kept: sum_of(|record| record.kept),
            surplus: sum_of(|record| record.surplus),
        }
    }

    /// One line each: name, space, number.
    fn text(&self) -> String {
        let mut text = format!("records {}\n", self.records);
        let named = [
            ("points", self.points),
            ("total", self.total),
            ("settled", self.settled),
            ("shortfall", self.shortfall),
            ("expected", self.expected),
            ("kept", self.kept),
            ("surplus", self.surplus),
        ];
        for (name, sum) in named {
            text += &format!("{name} {sum}\n");
        }
        text
    }
}

/// The report over an input: 53, then 54, otherwise the sums.
pub fn report(input: &[u8]) -> Result<Sums, TurnedAway> {
    let records = records_of(input)?; // 53
    check_each(&records)?; // 54
    Ok(Sums::over(&records))
}

/// What the program report prints for an input; every line ends with one line feed.
pub fn report_text(input: &[u8]) -> String {
    match report(input) {
        Ok(sums) => sums.text(),
        Err(TurnedAway { refusal, place }) => match place {
            Some(place) => format!("refused {refusal} {place}\n"),
            None => format!("refused {refusal}\n"),
        },
    }
}
