//! Records as their eight words, whether allowed or not.

use crate::books::random::Random;
use crate::ledger::{closing_figures, Figures};
use crate::limits::*;

/// The eight words of a record.
#[derive(Clone, Copy, Debug, PartialEq, Eq)]
pub struct Words {
    /// In Wh.
    pub total: i64,
    /// In kW.
    pub settled: i64,
    /// In kW.
    pub shortfall: i64,
    /// In kW.
    pub expected: i64,
    /// In kW.
    pub kept: i64,
    /// In kW.
    pub surplus: i64,
    /// Points.
    pub points: i64,
    /// Bid.
    pub bid: i64,
}

/// How many words a record has.
pub const WORDS: usize = RESULT_LENGTH / WORD_LENGTH;

/// Wh of the window at one kW.
pub const WH_OF_A_KW: i64 = WH_OF_A_SETTLED_KW as i64;

impl Words {
    /// The record of a closing.
    pub fn closing(total: i64, contract: u32, points: i64) -> Words {
        let figures = closing_figures(total, contract, 0);
        Words {
            points,
            ..Words::from(figures)
        }
    }

    /// The words from eight numbers in the order of the result.
    pub fn from_array(words: [i64; WORDS]) -> Words {
        let [total, settled, shortfall, expected, kept, surplus, points, bid] = words;
        Words {
            total,
            settled,
            shortfall,
            expected,
            kept,
            surplus,
            points,
            bid,
        }
    }

    /// Eight numbers in the order of the result.
    pub fn array(&self) -> [i64; WORDS] {
        [
            self.total,
            self.settled,
            self.shortfall,
            self.expected,
            self.kept,
            self.surplus,
            self.points,
            self.bid,
        ]
    }

    /// The record with one word as another gives it.
    pub fn with(&self, place: usize, word: i64) -> Words {
        let mut words = self.array();
        words[place] = word;
        Words::from_array(words)
    }

    /// The 64 bytes of the record.
    pub fn bytes(&self) -> [u8; RESULT_LENGTH] {
        let mut bytes = [0; RESULT_LENGTH];
        bytes.copy_from_slice(self.array().map(i64::to_be_bytes).as_flattened());
        bytes
    }
}

impl From<Figures> for Words {
    fn from(figures: Figures) -> Words {
        Words::from_array(figures.words())
    }
}

/// The bytes of records.
pub fn bytes_of(records: &[Words]) -> Vec<u8> {
    records.iter().flat_map(Words::bytes).collect()
}

/// A number from `low` to `high`, both included.
pub fn from_to(random: &mut Random, low: i64, high: i64) -> i64 {
    low + random.below(high.abs_diff(low) + 1) as i64
}
