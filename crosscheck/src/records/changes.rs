//! Changes to the words of a record, whether a rule is broken by them or not.

use super::words::*;
use crate::books::random::Random;
use crate::limits::*;

/// A change of one word, given the word and the one behind it.
type Change = fn(&mut Random, i64, i64) -> i64;

/// All of them.
const CHANGES: [Change; 12] = [
    |_, word, _| word.wrapping_add(1),
    |_, word, _| word.wrapping_sub(1),
    |_, word, _| word.wrapping_neg(),
    |_, _, neighbour| neighbour,
    |_, _, _| i64::MIN,
    |_, _, _| i64::MAX,
    |_, _, _| 0,
    |_, word, _| word.swap_bytes(),
    |_, word, _| word.wrapping_add(1 << 32),
    |_, word, _| word as i32 as i64,
    |random, word, _| word ^ 1 << random.below(64),
    |random, _, _| random.bits() as i64,
];

/// One word changed: every change of every word in turn.
pub fn one_word(random: &mut Random, good: &Words, turn: usize) -> Words {
    let place = turn % WORDS;
    let change = CHANGES[turn / WORDS % CHANGES.len()];
    let words = good.array();
    let word = change(random, words[place], words[(place + 1) % WORDS]);
    good.with(place, word)
}

/// A change of two words that another rule does not see, by a number.
type PairChange = fn(&mut Words, i64);

/// All of them.
const PAIR_CHANGES: [PairChange; 9] = [
    |words, by| {
        words.total = words.total.wrapping_add(by.wrapping_mul(WH_OF_A_KW));
        words.settled = words.settled.wrapping_add(by);
    },
    |words, by| {
        words.settled = words.settled.wrapping_add(by);
        words.shortfall = words.shortfall.wrapping_sub(by);
    },
    |words, by| {
        words.settled = words.settled.wrapping_add(by);
        words.expected = words.expected.wrapping_add(by);
    },
    |words, by| {
        words.expected = words.expected.wrapping_add(by);
        words.surplus = words.surplus.wrapping_add(by);
    },
    |words, by| {
        words.expected = words.expected.wrapping_add(by);
        words.kept = words.kept.wrapping_add(by);
    },
    |words, by| {
        words.kept = words.kept.wrapping_add(by);
        words.surplus = words.surplus.wrapping_sub(by);
    },
    |words, by| {
        words.kept = words.kept.wrapping_sub(by);
        words.shortfall = words.shortfall.wrapping_add(by);
    },
    |words, _| std::mem::swap(&mut words.kept, &mut words.surplus),
    |words, _| {
        words.total = words.total.wrapping_neg();
        words.points = words.points.wrapping_neg();
    },
];

/// Two words changed, each two in turn.
pub fn two_words(random: &mut Random, good: &Words, turn: usize) -> Words {
    let contract = i64::from(LOWEST_CONTRACT);
    let any = from_to(random, -20_000, 20_000);
    let by = random.one_of(&[1, -1, contract, -contract, 1 << 32, i64::MIN, any]);
    let mut words = *good;
    PAIR_CHANGES[turn % PAIR_CHANGES.len()](&mut words, by);
    words
}

/// The least and the greatest of a word, and what stands around zero.
const FAR: [i64; 4] = [i64::MIN, i64::MAX, -1, 0];

/// Records with words as far as they go: in each word, in all of them, in the two
/// that are added, and totals whose other figures are right.
pub fn far_words(good: &Words) -> Vec<Words> {
    let mut records = Vec::new();
    for far in FAR {
        for place in 0..WORDS {
            records.push(good.with(place, far));
        }
        records.push(Words::from_array([far; WORDS]));
        records.push(Words {
            kept: far,
            surplus: far,
            ..*good
        });
        records.push(Words {
            settled: far,
            shortfall: far,
            ..*good
        });
        for contract in [0, LOWEST_CONTRACT, HIGHEST_CONTRACT] {
            records.push(Words::closing(far, contract, good.points));
        }
    }
    records
}
