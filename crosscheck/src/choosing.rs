//! "Choosing four days": the walk over window sums, as document 01 words it, and
//! the days that return after it (change request 5).

use crate::limits::{CHOSEN_DAYS, DAYS_BACK, DAYS_OF_A_ROUND, QUARTER_RULE_FACTOR};
use std::cmp::Reverse;

/// The window sums of the thirty days, day 1 back first.
pub type WindowSums = [u64; DAYS_BACK];

/// Four chosen days as numbers back, 1 to 30, nearest first.
pub type ChosenDays = [u8; CHOSEN_DAYS];

/// The four zeros of a refused adding and of a point that has no baseline of
/// four days (change request 2).
pub const NO_DAYS: ChosenDays = [0; CHOSEN_DAYS];

/// The window sum of a day back.
fn window_sum(sums: &WindowSums, back: u8) -> u64 {
    sums[usize::from(back) - 1]
}

/// The quarter rule of one round: the days whose window sum times 20 is less
/// than the five sums together. All tests use the same five.
pub fn dropped_in_round(five: &[u8; DAYS_OF_A_ROUND], sums: &WindowSums) -> Vec<u8> {
    let together: u64 = five.iter().map(|&back| window_sum(sums, back)).sum();
    five.iter()
        .copied()
        .filter(|&back| window_sum(sums, back) * QUARTER_RULE_FACTOR < together)
        .collect()
}

/// What the walk makes of the eligible days.
#[derive(Clone, Debug, PartialEq, Eq)]
pub struct Walked {
    /// The days standing, nearest first: the five of the first round that drops
    /// none, or what is left when fewer than five are.
    pub standing: Vec<u8>,
    /// The days dropped, those of the first round first.
    pub dropped: Vec<u8>,
}

/// The walk over the eligible days, nearest first.
pub fn walk(eligible: &[u8], sums: &WindowSums) -> Walked {
    let mut left = eligible.to_vec();
    let mut dropped = Vec::new();
    while let Some(five) = left.first_chunk::<DAYS_OF_A_ROUND>() {
        let in_round = dropped_in_round(five, sums);
        if in_round.is_empty() {
            left.truncate(DAYS_OF_A_ROUND);
            break;
        }
        left.retain(|back| !in_round.contains(back));
        dropped.extend(in_round);
    }
    Walked {
        standing: left,
        dropped,
    }
}

/// The dropped days in the order in which they return: the highest window sum
/// first, the nearer of equals first.
fn in_order_of_return(mut dropped: Vec<u8>, sums: &WindowSums) -> Vec<u8> {
    dropped.sort_by_key(|&back| (Reverse(window_sum(sums, back)), back));
    dropped
}

/// The standing days and, where they are fewer than four, those that return
/// until four stand, nearest first.
fn with_returned(Walked { standing, dropped }: Walked, sums: &WindowSums) -> Vec<u8> {
    let missing = CHOSEN_DAYS.saturating_sub(standing.len());
    let returned = in_order_of_return(dropped, sums).into_iter().take(missing);
    let mut days: Vec<u8> = standing.into_iter().chain(returned).collect();
    days.sort();
    days
}

/// The standing day with the lowest window sum, the farthest among equals.
fn lowest_day(standing: &[u8], sums: &WindowSums) -> Option<u8> {
    let order = |back: &u8| (window_sum(sums, *back), Reverse(*back));
    standing.iter().copied().min_by_key(order)
}

/// The four chosen days, nearest first, or none where fewer than four are
/// eligible (rule 18).
pub fn choose_days(eligible: &[u8], sums: &WindowSums) -> Option<ChosenDays> {
    let mut standing = with_returned(walk(eligible, sums), sums);
    if standing.len() == DAYS_OF_A_ROUND {
        let lowest = lowest_day(&standing, sums);
        standing.retain(|&back| Some(back) != lowest);
    }
    standing.try_into().ok()
}
