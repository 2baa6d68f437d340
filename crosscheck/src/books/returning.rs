//! Seeded lists of consumers with few standing days: the quarter rule leaves one
//! to three, and others return; or few days are eligible at all.

use super::fields::{ConsumerFields, List, PointFields};
use super::lists::{begun, consumer_with_sums, eligible, few_standing_days};
use super::random::Random;
use crate::limits::*;

/// Window sums for so many eligible days, nearest first.
type Sums = fn(&mut Random, usize) -> Vec<u32>;

/// All forms of them.
const SUMS: [Sums; 7] = [
    high_and_low,
    one_high_day,
    equal_low_ones,
    rising_levels,
    low_ones_behind,
    five_and_one_behind,
    all_equal,
];

/// So many eligible days are left, more often those beside four and five.
const ELIGIBLE: [usize; 13] = [0, 1, 2, 3, 4, 5, 5, 6, 6, 8, 8, 11, DAYS_BACK];

/// The lists of [`few_standing_days`], and lists with days that return.
pub fn few_or_returning_days(random: &mut Random) -> List {
    if random.once_in(3) {
        few_standing_days(random)
    } else {
        returning_days(random)
    }
}

/// One to three consumers of which days return, some or all with too few eligible
/// ones. Most days that are not eligible have high sums.
pub fn returning_days(random: &mut Random) -> List {
    let mut list = begun(random);
    let left = random.one_of(&ELIGIBLE);
    leave_scattered(random, &mut list, left);
    let left = eligible(&list).len();
    for _ in 0..random.between(1, 3) {
        let sums = random.one_of(&SUMS)(random, left);
        let consumer = consumer_of(random, &list, &sums);
        list.push(PointFields::Consumer(consumer));
    }
    list
}

/// Marks eligible days, any of them, until so many are left; weekends have any
/// mark.
fn leave_scattered(random: &mut Random, list: &mut List, left: usize) {
    let mut days = eligible(list);
    for back in (1..=DAYS_BACK).filter(|back| !days.contains(back)) {
        list.marks[back - 1] = random.between(0, u32::from(HIGHEST_MARK)) as u8;
    }
    while days.len() > left {
        let back = days.remove(random.place(days.len()));
        list.marks[back - 1] = random.between(1, u32::from(HIGHEST_MARK)) as u8;
    }
}

/// A consumer with these window sums on its eligible days. All others have high
/// ones, or the same as one of the eligible days. Its test day's earlier readings
/// are above the history, so that the baseline is seldom 0 and shows the days it
/// is of.
fn consumer_of(random: &mut Random, list: &List, sums: &[u32]) -> ConsumerFields {
    let first_slot = list.head.first_slot;
    let mut consumer = consumer_with_sums(random, list, sums);
    let days = eligible(list);
    for back in (1..=DAYS_BACK).filter(|back| !days.contains(back)) {
        let high = random.between(900_000, 1_000_000);
        let equal = !sums.is_empty() && random.once_in(3);
        let sum = if equal { random.one_of(sums) } else { high };
        consumer.set_window_sum(back, first_slot, sum);
    }
    consumer.earlier(0, first_slot).fill(2_500);
    consumer
}

/// High days, few enough that the low ones of their five go; low days all apart.
fn high_and_low(random: &mut Random, days: usize) -> Vec<u32> {
    let high_in = random.one_of(&[2, 4, 8]);
    let sum = |random: &mut Random| {
        if random.once_in(high_in) {
            random.between(50_000, 60_000)
        } else {
            random.between(0, 2_000)
        }
    };
    (0..days).map(|_| sum(random)).collect()
}

/// One of the nearest five is high, so that four go in each round.
fn one_high_day(random: &mut Random, days: usize) -> Vec<u32> {
    let high = random.place(DAYS_OF_A_ROUND);
    let low = random.one_of(&[4, 2_000]);
    let mut sums: Vec<u32> = (0..days).map(|_| random.between(0, low)).collect();
    sums.iter_mut()
        .skip(high)
        .take(1)
        .for_each(|sum| *sum = 50_000);
    sums
}

/// High days, and low ones of two or three values: ties near and far.
fn equal_low_ones(random: &mut Random, days: usize) -> Vec<u32> {
    let low = random.between(1, 2_000);
    (0..days)
        .map(|_| random.one_of(&[0, low, low, low + 1, 55_000, 55_000]))
        .collect()
}

/// Levels that rise with the distance: a later round drops what stood before.
fn rising_levels(random: &mut Random, days: usize) -> Vec<u32> {
    let mut level = random.between(1, 20);
    let mut sums = Vec::new();
    for _ in 0..days {
        if level < 100_000 && random.once_in(4) {
            level *= random.between(6, 40);
        }
        sums.push(random.one_of(&[level, level, level + 1, level / 8]));
    }
    sums
}

/// The same sums in any order.
fn shuffled(random: &mut Random, mut sums: Vec<u32>) -> Vec<u32> {
    let mut order = Vec::new();
    while !sums.is_empty() {
        order.push(sums.remove(random.place(sums.len())));
    }
    order
}

/// Two high days and three low ones, in any order, and behind them low ones of
/// about the same sums, which the next round drops or no round looks at.
fn low_ones_behind(random: &mut Random, days: usize) -> Vec<u32> {
    let low = random.between(2, 500);
    let mut any_low = || random.one_of(&[low - 1, low, low + 1]);
    let five = vec![20_000, 20_000, any_low(), any_low(), any_low()];
    let behind: Vec<u32> = (5..days.max(5)).map(|_| any_low()).collect();
    let mut sums = shuffled(random, five);
    sums.extend(behind);
    sums.truncate(days);
    sums
}

/// Days of 400, 400, 20, 20, 20 and 1, or so many times as much: the five in any
/// order, and behind them the one that no round looks at.
fn five_and_one_behind(random: &mut Random, days: usize) -> Vec<u32> {
    let times = random.between(1, 500);
    let five = [400, 400, 20, 20, 20].map(|sum| sum * times);
    let mut sums = shuffled(random, five.to_vec());
    sums.push(random.one_of(&[0, times, 19 * times, 20 * times]));
    sums.resize(days, 0);
    sums
}

/// The same sum on every day, mostly 0.
fn all_equal(random: &mut Random, days: usize) -> Vec<u32> {
    vec![random.one_of(&[0, 0, 77]); days]
}
