//! What several tests use: shorter calls, and slow settlements by other ways.
#![allow(dead_code)] // each test file uses a part

pub mod records;
pub mod seen;

use settlement::books::fields::*;
use settlement::ledger::{add, open, State};
use settlement::limits::*;

/// A value that no result has, to show places that were not written.
pub const UNWRITTEN: i64 = -7_777_777_777_777;

/// The state of a list's opening, which must be accepted.
pub fn opened(list: &List) -> State {
    let (number, state) = open(&list.head.value(), &list.marks);
    assert_eq!(number, 0);
    state
}

/// Adds a point with six places; the answer, the state and the places.
pub fn add_point(state: &State, point: &PointFields) -> (u32, State, [i64; 6]) {
    let mut places = [UNWRITTEN; 6];
    let added = add(state, point.tag(), &point.value(), &mut places);
    (added.refusal, added.state, places)
}

/// The days that adding a point with six places tells.
pub fn days_told(state: &State, point: &PointFields) -> [u8; 4] {
    add(state, point.tag(), &point.value(), &mut [UNWRITTEN; 6]).days
}

/// The number and the index due for the first large reading of a value, another
/// way: a consumer's test day and its days back are two parts, and the first part
/// that has a large reading counts.
pub fn naive_large_reading(tag: u8, value: &[u8]) -> Option<(u32, u32)> {
    let (first, days_back) = match tag {
        3 => value[23..].split_at(4 * 48),
        4 => value[26..].split_at(4 * 6),
        _ => value[24..].split_at(4 * 12),
    };
    let of_first = lowest_large(first).map(|place| (51, place));
    of_first.or_else(|| lowest_large(days_back).map(|place| (52, 48 + place)))
}

/// The place of the first large one among readings of four bytes, found from the
/// end on. Bytes are compared with those of 1,000,000,000, the high byte first.
fn lowest_large(mut bytes: &[u8]) -> Option<u32> {
    let mut lowest = None;
    while let Some((before, reading)) = bytes.split_last_chunk::<4>() {
        if *reading > [0x3B, 0x9A, 0xCA, 0x00] {
            lowest = Some(before.len() as u32 / 4);
        }
        bytes = before;
    }
    lowest
}

/// A number with the index due beside it: that of the first large reading for 51
/// and 52, and 0 for all others.
pub fn with_index_due(number: u32, tag: u8, value: &[u8]) -> (u32, u32) {
    match number {
        51 | 52 => naive_large_reading(tag, value).expect("a large reading"),
        _ => (number, 0),
    }
}

/// A fraction in lowest terms with a positive denominator.
#[derive(Clone, Copy, Debug, PartialEq, Eq)]
pub struct Fraction {
    pub over: i128,
    pub under: i128,
}

fn common_divisor(a: i128, b: i128) -> i128 {
    if b == 0 {
        a.abs()
    } else {
        common_divisor(b, a % b)
    }
}

impl Fraction {
    pub fn new(over: i128, under: i128) -> Fraction {
        let divisor = common_divisor(over, under) * under.signum();
        Fraction {
            over: over / divisor,
            under: under / divisor,
        }
    }

    pub fn whole(number: i128) -> Fraction {
        Fraction::new(number, 1)
    }

    pub fn plus(self, other: Fraction) -> Fraction {
        let divisor = common_divisor(self.under, other.under);
        let over = self.over * (other.under / divisor) + other.over * (self.under / divisor);
        Fraction::new(over, self.under / divisor * other.under)
    }

    pub fn times(self, over: i128, under: i128) -> Fraction {
        let product = Fraction::new(over, under);
        let first = Fraction::new(self.over, product.under);
        let second = Fraction::new(product.over, self.under);
        Fraction::new(first.over * second.over, first.under * second.under)
    }

    pub fn minus(self, other: Fraction) -> Fraction {
        self.plus(other.times(-1, 1))
    }

    pub fn floor(self) -> i128 {
        self.over.div_euclid(self.under)
    }

    pub fn or_zero_below(self) -> Fraction {
        if self.over < 0 {
            Fraction::whole(0)
        } else {
            self
        }
    }

    pub fn is_whole(self) -> bool {
        self.under == 1
    }
}

/// Weekdays by walking the calendar from Saturday 2000-01-01: 0 Saturday.
pub fn walked_weekday(year: u16, month: u8, day: u8) -> u32 {
    let mut weekday = 0;
    let mut date = (2000, 1, 1);
    while date != (year, month, day) {
        date = next_date(date);
        weekday = (weekday + 1) % 7;
    }
    weekday
}

/// The date after a date, by the lengths of the months.
pub fn next_date((year, month, day): (u16, u8, u8)) -> (u16, u8, u8) {
    let leap = (year % 4 == 0 && year % 100 != 0) || year % 400 == 0;
    let last = match month {
        2 if leap => 29,
        2 => 28,
        4 | 6 | 9 | 11 => 30,
        _ => 31,
    };
    match (month, day) {
        (12, 31) => (year + 1, 1, 1),
        (_, day) if day == last => (year, month + 1, 1),
        _ => (year, month, day + 1),
    }
}

/// The eligible days by stepping the weekday back from the test day.
pub fn naive_eligible(list: &List) -> Vec<u8> {
    let mut weekday = walked_weekday(list.head.year, list.head.month, list.head.day);
    let mut eligible = Vec::new();
    for back in 1..=30u8 {
        weekday = if weekday == 0 { 6 } else { weekday - 1 };
        if weekday > 1 && list.marks[usize::from(back) - 1] == 0 {
            eligible.push(back);
        }
    }
    eligible
}

/// A day back with its window sum.
pub type Day = (u8, u64);

/// The days that stand, less the lowest of five, another way: by recursion,
/// "under 25% of the average" in fractions, the lowest found by sorting.
pub fn naive_standing(mut days: Vec<Day>) -> Vec<Day> {
    if days.len() >= 5 {
        let total: u64 = days[..5].iter().map(|day| day.1).sum();
        let quarter = Fraction::new(i128::from(total), 5).times(25, 100);
        let under = |sum: u64| Fraction::whole(i128::from(sum)).minus(quarter).over < 0;
        let (five, farther) = days.split_at(5);
        let mut kept: Vec<_> = five.iter().copied().filter(|day| !under(day.1)).collect();
        if kept.len() < 5 {
            kept.extend(farther);
            return naive_standing(kept);
        }
        days.truncate(5);
        days.sort_by(|a, b| b.1.cmp(&a.1).then(a.0.cmp(&b.0)));
        days.pop();
        days.sort();
    }
    days
}

/// Whether a dropped day returns before another one.
pub fn returns_before(one: &Day, other: &Day) -> bool {
    one.1 > other.1 || one.1 == other.1 && one.0 < other.0
}

/// The choice of days another way: no order is made of the days that do not
/// stand; one is given back where fewer of them come before it than days are
/// missing. With four standing none is missing; with fewer all others were dropped.
pub fn naive_choice(days: Vec<Day>) -> Option<Vec<u8>> {
    let standing = naive_standing(days.clone());
    let missing = 4 - standing.len();
    let others: Vec<&Day> = days.iter().filter(|day| !standing.contains(day)).collect();
    let before = |day: &Day| {
        let before = |other: &&&Day| returns_before(other, day);
        others.iter().filter(before).count()
    };
    let chosen = days
        .iter()
        .filter(|day| standing.contains(day) || before(day) < missing);
    let chosen: Vec<u8> = chosen.map(|day| day.0).collect();
    (chosen.len() == 4).then_some(chosen)
}

/// The exact slot results of a point in Wh, from averages in fractions; none
/// for a consumer with too few days.
pub fn naive_exact_results(list: &List, point: &PointFields) -> Option<Vec<Fraction>> {
    match point {
        PointFields::Consumer(consumer) => naive_consumer(list, &mut consumer.clone()),
        PointFields::Generator(generator) => {
            let at_baseline = Fraction::whole(i128::from(generator.baseline)).times(500, 1);
            let result = |&reading| Fraction::whole(i128::from(reading)).minus(at_baseline);
            Some(generator.readings.iter().map(result).collect())
        }
        PointFields::MixedFiring(plant) => {
            let (outside, inside) = plant.readings.split_at(6);
            let left = 1_000 - i128::from(plant.share);
            let counted = |&reading: &u32| Fraction::whole(i128::from(reading)).times(left, 1_000);
            let result = |(outside, inside)| counted(outside).plus(counted(inside));
            Some(outside.iter().zip(inside).map(result).collect())
        }
    }
}

fn naive_consumer(list: &List, consumer: &mut ConsumerFields) -> Option<Vec<Fraction>> {
    let first_slot = list.head.first_slot;
    let sum = |readings: &[u32]| readings.iter().map(|&reading| u64::from(reading)).sum();
    let eligible = naive_eligible(list);
    let days = eligible
        .iter()
        .map(|&back| (back, sum(consumer.window(usize::from(back), first_slot))));
    let days = naive_choice(days.collect())?;
    Some(naive_results_of_days(list, consumer, &days))
}

/// The exact slot results of a consumer in Wh, from four days back.
pub fn naive_results_of_days(
    list: &List,
    consumer: &mut ConsumerFields,
    days: &[u8],
) -> Vec<Fraction> {
    let first_slot = list.head.first_slot;
    let average = |consumer: &mut ConsumerFields, slot: usize| {
        let day = |&back: &u8| i128::from(*consumer.reading(usize::from(back), slot));
        Fraction::new(days.iter().map(day).sum(), 4)
    };
    let mut adjustment = Fraction::whole(0);
    for slot in usize::from(first_slot) - 10..usize::from(first_slot) - 4 {
        let today = Fraction::whole(i128::from(*consumer.reading(0, slot)));
        let history = average(consumer, slot);
        adjustment = adjustment.plus(today.minus(history).times(1, 6));
    }
    let loss = i128::from(list.head.losses[usize::from(consumer.class) - 1]);
    let mut results = Vec::new();
    for slot in usize::from(first_slot)..usize::from(first_slot) + 6 {
        let baseline = average(consumer, slot).plus(adjustment).or_zero_below();
        let usage = Fraction::whole(i128::from(*consumer.reading(0, slot)));
        results.push(baseline.minus(usage).times(10_000, 10_000 - loss));
    }
    results
}

/// Example M's head with a count, no marks, no points.
pub fn list_of_count(count: u32) -> List {
    let mut list = List::new(Head::EXAMPLE_M);
    list.head.count = count;
    list
}

/// A point field with its tag and length.
pub fn point_field(point: &PointFields) -> Vec<u8> {
    raw_field(point.tag(), &point.value())
}

/// A generator as a point.
pub fn generator(number: u128, baseline: u32, reading: u32) -> PointFields {
    PointFields::Generator(GeneratorFields::flat(number, baseline, reading))
}

/// A mixed-firing plant as a point.
pub fn plant(number: u128, share: u16, outside: u32, inside: u32) -> PointFields {
    PointFields::MixedFiring(MixedFiringFields::flat(number, share, outside, inside))
}

/// A high voltage consumer with 1,200 everywhere as a point.
pub fn level_consumer(number: u128) -> PointFields {
    PointFields::Consumer(ConsumerFields::flat(number, 2, 1_200))
}

/// An allowed point of each kind, with the number given.
pub fn a_point_of_each_kind(number: u128) -> [PointFields; 3] {
    [
        level_consumer(number),
        generator(number, 0, 1),
        plant(number, 333, 1, 1),
    ]
}

/// The length of a written point.
pub fn written_length(point: &PointFields) -> usize {
    FRONT_LENGTH + point.value().len()
}
