//! Seeded inputs, one function for each kind.

use super::changes::{far_words, one_word, two_words};
use super::good::{at_limits, furthest_total, good, result_of_a_book, several};
use super::rules::each_broken_alone;
use super::words::*;
use crate::books::random::Random;
use crate::limits::*;

/// A kind of input, given how many of this kind were made before.
pub type Kind = fn(&mut Random, usize) -> Vec<u8>;

/// All kinds with their names.
pub const KINDS: [(&str, Kind); 23] = [
    ("good records", good_records),
    ("results of books", results_of_books),
    ("records at the limits", records_at_limits),
    ("one rule broken", one_rule_broken),
    (
        "one rule broken among good records",
        one_rule_broken_among_good,
    ),
    ("one word changed", one_word_changed),
    ("two words changed", two_words_changed),
    ("far words", words_as_far_as_they_go),
    ("random words", random_words),
    ("one byte changed", one_byte_changed),
    ("two bad records", two_bad_records),
    ("cut", cut),
    ("cut with a bad record", cut_with_a_bad_record),
    ("few bytes", few_bytes),
    (
        "one rule broken beside a good record",
        one_rule_broken_beside,
    ),
    ("many records", many_records),
    ("five hundred records", five_hundred),
    ("lengths around the most", around_the_most),
    ("one bad record among many", one_bad_among_many),
    ("too many with a bad record", too_many_with_a_bad_record),
    ("one record often", one_record_often),
    ("far too long", far_too_long),
    ("many bad records", many_bad_records),
];

/// A few good records.
fn good_records(random: &mut Random, _: usize) -> Vec<u8> {
    let records = 1 + random.place(8);
    bytes_of(&several(random, records))
}

/// The results of a few seeded books, one behind the other.
fn results_of_books(random: &mut Random, _: usize) -> Vec<u8> {
    let books = 1 + random.place(4);
    (0..books).flat_map(|_| result_of_a_book(random)).collect()
}

/// Records at the limits of the rules, some of them in turn.
fn records_at_limits(_: &mut Random, turn: usize) -> Vec<u8> {
    const AT_ONCE: usize = 5;
    let records = at_limits();
    let begin = turn * AT_ONCE % records.len();
    let end = records.len().min(begin + AT_ONCE);
    bytes_of(&records[begin..end])
}

/// One of the records that break one rule alone, in turn.
fn broken(random: &mut Random, turn: usize) -> Words {
    let records = each_broken_alone(random);
    records[turn % records.len()]
}

/// A record that breaks a rule, or is far off, or has any words.
fn bad(random: &mut Random) -> Words {
    let turn = random.place(1_000);
    match random.below(4) {
        0 => Words::from_array([0; WORDS]),
        1 => Words::from_array([0; WORDS].map(|_: i64| random.bits() as i64)),
        _ => broken(random, turn),
    }
}

/// The record alone.
fn one_rule_broken(random: &mut Random, turn: usize) -> Vec<u8> {
    bytes_of(&[broken(random, turn)])
}

/// The same records another time, with a good one before or behind.
fn one_rule_broken_beside(random: &mut Random, turn: usize) -> Vec<u8> {
    let mut records = vec![broken(random, turn)];
    records.insert(turn % 2, good(random));
    bytes_of(&records)
}

/// The record at any place among good ones.
fn one_rule_broken_among_good(random: &mut Random, turn: usize) -> Vec<u8> {
    let broken = broken(random, turn);
    among_few(random, broken)
}

/// A record at any place among up to eight good ones.
fn among_few(random: &mut Random, record: Words) -> Vec<u8> {
    let others = random.place(9);
    let mut records = several(random, others);
    records.insert(random.place(others + 1), record);
    bytes_of(&records)
}

/// One word changed in a good record, among a few.
fn one_word_changed(random: &mut Random, turn: usize) -> Vec<u8> {
    let changed = good(random);
    let changed = one_word(random, &changed, turn);
    among_few(random, changed)
}

/// Two words changed in a good record, among a few.
fn two_words_changed(random: &mut Random, turn: usize) -> Vec<u8> {
    let changed = good(random);
    let changed = two_words(random, &changed, turn);
    among_few(random, changed)
}

/// Words as far as they go, in turn, in a record among a few.
fn words_as_far_as_they_go(random: &mut Random, turn: usize) -> Vec<u8> {
    let records = far_words(&good(random));
    among_few(random, records[turn % records.len()])
}

/// Records of any bits, or of any small numbers.
fn random_words(random: &mut Random, turn: usize) -> Vec<u8> {
    let records = 1 + random.place(3);
    let mut word = |_| match turn % 2 {
        0 => random.bits() as i64,
        _ => from_to(random, -2, 3),
    };
    let mut record = |_| Words::from_array(std::array::from_fn(&mut word));
    let records: Vec<Words> = (0..records).map(&mut record).collect();
    bytes_of(&records)
}

/// One byte of a good record has another value: each of the 64 in turn.
fn one_byte_changed(random: &mut Random, turn: usize) -> Vec<u8> {
    let mut bytes = bytes_of(&several(random, 2));
    let place = turn % RESULT_LENGTH;
    bytes[place] = bytes[place].wrapping_add(random.between(1, 255) as u8);
    bytes
}

/// Two bad records with good ones before, between and behind; the first is at
/// each of the low places in turn.
fn two_bad_records(random: &mut Random, turn: usize) -> Vec<u8> {
    let mut records = several(random, turn % 8);
    records.push(bad(random));
    let between = random.place(4);
    records.extend(several(random, between));
    records.push(bad(random));
    let behind = random.place(4);
    records.extend(several(random, behind));
    bytes_of(&records)
}

/// Good records, 1 to 63 bytes of the last missing, each number of them in turn.
fn cut(random: &mut Random, turn: usize) -> Vec<u8> {
    let records = 1 + random.place(4);
    let mut bytes = bytes_of(&several(random, records));
    bytes.truncate(bytes.len() - 1 - turn % (RESULT_LENGTH - 1));
    bytes
}

/// A bad record in an input that is cut.
fn cut_with_a_bad_record(random: &mut Random, _: usize) -> Vec<u8> {
    let record = bad(random);
    let mut bytes = among_few(random, record);
    let more = good(random).bytes();
    bytes.extend(&more[..1 + random.place(RESULT_LENGTH - 1)]);
    bytes
}

/// No byte, every second time; otherwise a few zeros or a few bytes of a record.
fn few_bytes(random: &mut Random, turn: usize) -> Vec<u8> {
    let lengths = [0, 1, 0, 63, 0, 64, 0, 65, 0, 128];
    let length = lengths[turn % lengths.len()];
    if random.once_in(2) {
        return vec![0; length];
    }
    bytes_of(&several(random, 2))[..length].to_vec()
}

/// Good records by the hundred.
fn many_records(random: &mut Random, _: usize) -> Vec<u8> {
    let records = 9 + random.place(MOST_RECORDS - 9);
    bytes_of(&several(random, records))
}

/// As many good records as there may be.
fn five_hundred(random: &mut Random, _: usize) -> Vec<u8> {
    bytes_of(&several(random, MOST_RECORDS))
}

/// Records fewer or more than 500, and bytes behind them, in turn.
fn around_the_most(random: &mut Random, turn: usize) -> Vec<u8> {
    let lengths = [
        (MOST_RECORDS - 1, 0),
        (MOST_RECORDS + 1, 0),
        (MOST_RECORDS, 1),
        (MOST_RECORDS - 1, 63),
        (MOST_RECORDS, 63),
        (MOST_RECORDS - 1, 1),
        (MOST_RECORDS + 1, 1),
        (MOST_RECORDS + 2, 0),
        (2 * MOST_RECORDS, 0),
    ];
    let (records, more) = lengths[turn % lengths.len()];
    let mut bytes = bytes_of(&several(random, records));
    bytes.extend(&good(random).bytes()[..more]);
    bytes
}

/// One bad record among hundreds, at places around a byte's end, first or last.
fn one_bad_among_many(random: &mut Random, turn: usize) -> Vec<u8> {
    let count = random.one_of(&[300, MOST_RECORDS - 1, MOST_RECORDS, MOST_RECORDS]);
    let mut records = several(random, count);
    let any = random.place(count);
    let (last, before) = (count - 1, count - 2);
    let places = [0, 9, 10, 99, 100, 255, 256, 257, before, last, any, any];
    records[places[turn % places.len()]] = bad(random);
    bytes_of(&records)
}

/// A bad record among more than 500: first, the last that may be, or behind it.
fn too_many_with_a_bad_record(random: &mut Random, turn: usize) -> Vec<u8> {
    let mut records = several(random, MOST_RECORDS + 1);
    let place = [
        0,
        MOST_RECORDS - 1,
        MOST_RECORDS,
        random.place(MOST_RECORDS),
    ][turn % 4];
    records[place] = bad(random);
    bytes_of(&records)
}

/// The same record up to 500 times, every second time one whose total is as far
/// from zero as a total can be.
fn one_record_often(random: &mut Random, turn: usize) -> Vec<u8> {
    let most = i64::from(HIGHEST_COUNT);
    let furthest = furthest_total(most);
    let record = match turn % 4 {
        0 => Words::closing(furthest, 0, most),
        2 => Words::closing(-furthest, HIGHEST_CONTRACT, most),
        _ => good(random),
    };
    let any = 1 + random.place(MOST_RECORDS);
    let times = random.one_of(&[2, MOST_RECORDS, any]);
    bytes_of(&vec![record; times])
}

/// Records, or any bytes, far beyond 500 records.
fn far_too_long(random: &mut Random, turn: usize) -> Vec<u8> {
    let records = several(random, MOST_RECORDS);
    let times = 2 + random.place(4);
    let mut bytes = bytes_of(&records).repeat(times);
    if turn % 2 == 1 {
        bytes.extend(&good(random).bytes()[..1 + random.place(63)]);
    }
    bytes
}

/// Nothing but bad records, up to 500.
fn many_bad_records(random: &mut Random, _: usize) -> Vec<u8> {
    let any = 2 + random.place(MOST_RECORDS - 2);
    let count = random.one_of(&[2, 3, any]);
    let records: Vec<Words> = (0..count).map(|_| bad(random)).collect();
    bytes_of(&records)
}
