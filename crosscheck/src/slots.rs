//! "Slot results" of consumers, generators and mixed-firing plants.

use crate::choosing::{ChosenDays, WindowSums};
use crate::limits::*;
use crate::point::{Consumer, Generator, MixedFiring};

/// Six results in Wh, one for each window slot.
pub type SlotResults = [i64; WINDOW_SLOTS];

/// A division: dividend and divisor, which is positive.
pub type Division = (i128, i128);

/// Sums over the four chosen days, kept for the calculation.
#[derive(Clone, Copy, Debug, PartialEq, Eq)]
pub struct FourDaySums {
    /// One for each window slot.
    pub window: [u64; WINDOW_SLOTS],
    /// One for each earlier slot.
    pub earlier: [u64; WINDOW_SLOTS],
}

/// Division rounded toward minus infinity; the divisor is positive.
pub fn divide_down(dividend: i128, divisor: i128) -> i128 {
    let toward_zero = dividend / divisor;
    if dividend % divisor < 0 {
        toward_zero - 1
    } else {
        toward_zero
    }
}

/// The result of a division in Wh.
fn rounded((dividend, divisor): Division) -> i64 {
    divide_down(dividend, divisor) as i64
}

/// The six readings of a day back from a slot on; day 0 back is the test day.
fn six_readings(consumer: &Consumer, back: usize, begin: usize) -> [u64; WINDOW_SLOTS] {
    std::array::from_fn(|slot| consumer.reading(back, begin + slot))
}

/// The first earlier slot, five hours before the window.
fn first_earlier_slot(first_slot: u8) -> usize {
    usize::from(first_slot) - EARLIER_LEAD
}

/// The window sums of the thirty days back.
pub fn window_sums(consumer: &Consumer, first_slot: u8) -> WindowSums {
    std::array::from_fn(|day| {
        six_readings(consumer, day + 1, usize::from(first_slot))
            .iter()
            .sum()
    })
}

/// The six window sums and six earlier sums over the chosen days.
pub fn four_day_sums(consumer: &Consumer, first_slot: u8, days: &ChosenDays) -> FourDaySums {
    let over_days = |slot: usize| -> u64 {
        let of_day = |&back: &u8| consumer.reading(usize::from(back), slot);
        days.iter().map(of_day).sum()
    };
    let begin = usize::from(first_slot);
    let earlier_begin = first_earlier_slot(first_slot);
    FourDaySums {
        window: std::array::from_fn(|slot| over_days(begin + slot)),
        earlier: std::array::from_fn(|slot| over_days(earlier_begin + slot)),
    }
}

/// The baseline of a window slot in twenty-fourths of a Wh: the four-day
/// average with the same-day adjustment, and 0 where that is negative.
pub fn baseline(sums: &FourDaySums, test_day_earlier: u64, slot: usize) -> i128 {
    let earlier_together: u64 = sums.earlier.iter().sum();
    let adjusted = 6 * i128::from(sums.window[slot]) + 4 * i128::from(test_day_earlier)
        - i128::from(earlier_together);
    adjusted.max(0)
}

/// Baseline less use in each window slot, in twenty-fourths of a Wh.
pub fn reductions(consumer: &Consumer, first_slot: u8, days: &ChosenDays) -> [i128; WINDOW_SLOTS] {
    let sums = four_day_sums(consumer, first_slot, days);
    let test_day_earlier = six_readings(consumer, 0, first_earlier_slot(first_slot))
        .iter()
        .sum();
    let usage = six_readings(consumer, 0, usize::from(first_slot));
    std::array::from_fn(|slot| {
        baseline(&sums, test_day_earlier, slot) - PARTS_OF_A_WH * i128::from(usage[slot])
    })
}

/// The division of a consumer's slot result.
pub fn loss_division(reduction: i128, loss: u16) -> Division {
    let dividend = reduction * i128::from(WHOLE);
    let divisor = PARTS_OF_A_WH * i128::from(WHOLE - loss);
    (dividend, divisor)
}

/// The six slot results of a consumer, each rounded toward minus infinity.
pub fn consumer_results(
    consumer: &Consumer,
    first_slot: u8,
    days: &ChosenDays,
    loss: u16,
) -> SlotResults {
    reductions(consumer, first_slot, days).map(|reduction| rounded(loss_division(reduction, loss)))
}

/// The six slot results of a generator: reading − 500 × baseline in kW.
pub fn generator_results(generator: &Generator) -> SlotResults {
    let at_baseline = WH_OF_A_KW_SLOT * i128::from(generator.baseline());
    std::array::from_fn(|slot| (i128::from(generator.reading(slot)) - at_baseline) as i64)
}

/// The division of a mixed-firing plant's slot result: the two readings
/// together × (1,000 − share) ÷ 1,000.
pub fn share_division(plant: &MixedFiring, slot: usize) -> Division {
    let together = i128::from(plant.outside(slot)) + i128::from(plant.inside(slot));
    let whole = i128::from(WHOLE_SHARE);
    (together * (whole - i128::from(plant.share())), whole)
}

/// The six slot results of a mixed-firing plant, each rounded toward minus
/// infinity.
pub fn mixed_firing_results(plant: &MixedFiring) -> SlotResults {
    std::array::from_fn(|slot| rounded(share_division(plant, slot)))
}
