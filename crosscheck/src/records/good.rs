//! Records that keep every rule: closings of random figures, of the limits, and
//! the results of seeded books.

use super::words::*;
use crate::book::settle;
use crate::books::random::Random;
use crate::books::seeded_book;
use crate::limits::*;
use crate::refusals::ACCEPTED;

/// Points from 1 to 10,000, often at an edge.
fn points(random: &mut Random) -> i64 {
    let most = i64::from(HIGHEST_COUNT);
    let (any, few) = (from_to(random, 1, most), from_to(random, 1, 20));
    random.one_of(&[1, 2, most, any, any, few])
}

/// An allowed contract, often at an edge.
fn contract(random: &mut Random) -> u32 {
    let any = random.between(LOWEST_CONTRACT, HIGHEST_CONTRACT);
    let small = random.between(LOWEST_CONTRACT, 20_000);
    random.one_of(&[0, LOWEST_CONTRACT, HIGHEST_CONTRACT, any, small, small])
}

/// The furthest total of so many points.
pub fn furthest_total(points: i64) -> i64 {
    TOTAL_OF_A_POINT as i64 * points
}

/// A total of so many points: any, or one near what matters to the rules.
fn total(random: &mut Random, contract: u32, points: i64) -> i64 {
    let furthest = furthest_total(points);
    let any = from_to(random, -furthest, furthest);
    let near = random.one_of(&[0, i64::from(contract), LOWEST_BID]) * WH_OF_A_KW;
    let near = near + from_to(random, -2 * WH_OF_A_KW, 2 * WH_OF_A_KW);
    let multiple = any / WH_OF_A_KW * WH_OF_A_KW + from_to(random, -1, 1);
    let side = random.one_of(&[-furthest, furthest]);
    let aim = random.one_of(&[any, any, near, near, near, multiple, side]);
    aim.clamp(-furthest, furthest)
}

/// The record of a closing that may have been.
pub fn good(random: &mut Random) -> Words {
    let (points, contract) = (points(random), contract(random));
    Words::closing(total(random, contract, points), contract, points)
}

/// So many of them.
pub fn several(random: &mut Random, records: usize) -> Vec<Words> {
    (0..records).map(|_| good(random)).collect()
}

/// The result of a seeded book that is settled.
pub fn result_of_a_book(random: &mut Random) -> [u8; RESULT_LENGTH] {
    let mut result = [0; RESULT_LENGTH];
    while settle(&seeded_book(random.below(20_000)).book, &mut result) != ACCEPTED {}
    result
}

/// Contracts at the edges and beside them.
const CONTRACTS: [u32; 5] = [
    0,
    LOWEST_CONTRACT,
    LOWEST_CONTRACT + 1,
    HIGHEST_CONTRACT - 1,
    HIGHEST_CONTRACT,
];

/// Points at the edges and beside them.
const POINTS: [i64; 4] = [1, 2, HIGHEST_COUNT as i64 - 1, HIGHEST_COUNT as i64];

/// The totals where a word of the closing changes, one less and one more: settled
/// and the shortfall around 0, the bid, kept at the contract, and the furthest.
fn totals_that_matter(contract: u32, points: i64) -> Vec<i64> {
    let furthest = furthest_total(points);
    let contract = i64::from(contract);
    let kilowatts = [
        -1,
        0,
        1,
        LOWEST_BID - 1,
        LOWEST_BID,
        contract - 1,
        contract,
        contract + 1,
    ];
    let mut totals = vec![-furthest, -furthest + 1, furthest - 1, furthest];
    for kilowatt in kilowatts {
        let whole = kilowatt * WH_OF_A_KW;
        totals.extend([whole - 1, whole, whole + 1]);
    }
    totals.retain(|total| total.abs() <= furthest);
    totals
}

/// The records of all closings at the limits.
pub fn at_limits() -> Vec<Words> {
    let mut records = Vec::new();
    for points in POINTS {
        for contract in CONTRACTS {
            for total in totals_that_matter(contract, points) {
                records.push(Words::closing(total, contract, points));
            }
        }
    }
    records
}
