//! Seeded lists for demand 3: shortfalls at its allowance of one kW and two
//! watts a point, and one division alone that leaves a remainder.

use super::fields::*;
use super::lists::*;
use super::random::Random;
use crate::limits::*;

/// The kinds of them with their names.
pub const SHORTFALL_KINDS: [(&str, Kind); 6] = [
    ("consumers near the allowance", consumers_near_allowance),
    ("generators at the allowance", generators_at_allowance),
    ("one remainder", one_remainder),
    ("plants near the allowance", plants_near_allowance),
    ("one remainder of a plant", one_remainder_of_a_plant),
    ("plants whole together", plants_whole_together),
];

/// Two watts a point, in Wh of the window.
const WH_ALLOWED_A_POINT: i64 = 6;

/// A consumer of class 1 and loss 1 whose six divisions each leave nearly a
/// whole Wh, for which a reduction in twenty-fourths is sought.
pub fn consumer_with_large_remainders(list: &List) -> ConsumerFields {
    let divisor = 24 * 9_999;
    let reduction = (0..divisor)
        .max_by_key(|reduction| reduction * 10_000u64 % divisor)
        .unwrap_or(0) as u32;
    let first_slot = list.head.first_slot;
    let mut consumer = ConsumerFields::flat(0, 1, 50_000);
    // Baseline 24 × 50,000 less this; use takes whole watt-hours of it.
    let less = 24 - reduction % 24;
    if let Some(&nearest) = eligible(list).first() {
        consumer.earlier(nearest, first_slot)[0] += less;
    }
    consumer
        .window(0, first_slot)
        .fill(50_000 - (reduction + less) / 24);
    consumer
}

/// Consumers with large remainders and a total one below a multiple of 3,000:
/// the printed shortfall is nearly as far off as it may be.
pub fn consumers_near_allowance(random: &mut Random) -> List {
    let mut list = begun(random);
    list.head.losses = [1, 0, 0];
    list.head.contract = HIGHEST_CONTRACT;
    let first_slot = list.head.first_slot;
    let mut consumer = consumer_with_large_remainders(&list);
    for number in 1..=random.between(1, 4) {
        consumer.number = point_number(u128::from(number));
        list.push(PointFields::Consumer(consumer.clone()));
    }
    // A Wh of use more takes a Wh of the total and little of the remainder.
    let excess = (total_of(&list).unwrap_or(0) + 1).rem_euclid(3_000);
    consumer.window(0, first_slot)[0] += excess as u32;
    list.points.pop();
    list.push(PointFields::Consumer(consumer));
    list
}

/// Generators with a total that leaves, divided by 3,000, the points' part of
/// the allowance, one Wh less or one more: one kW more is just too far off.
pub fn generators_at_allowance(random: &mut Random) -> List {
    let mut list = generators(random, 1, 12);
    list.head.contract = HIGHEST_CONTRACT;
    let due = WH_ALLOWED_A_POINT * list.points.len() as i64 + i64::from(random.between(0, 2)) - 1;
    let missing = (due - total_of(&list).unwrap_or(0)).rem_euclid(3_000);
    if let Some(last) = list.points.last_mut() {
        last.readings()[0] += missing as u32;
    }
    list
}

/// The list with a generator that fills its total to a multiple of 3,000.
fn filled(random: &mut Random, mut list: List) -> List {
    let generator = filling_generator(random, &list);
    list.push(PointFields::Generator(generator));
    list
}

/// A consumer of whose divisions one alone leaves a remainder, in any slot and
/// on either side of zero, and a total that is a multiple of 3,000.
pub fn one_remainder(random: &mut Random) -> List {
    let mut list = begun(random);
    list.head.contract = HIGHEST_CONTRACT;
    // A Wh of use is a whole result with no loss, or with one of a half.
    list.head.losses = [0; CLASSES].map(|_: u16| random.one_of(&[1, 200, 700, HIGHEST_LOSS - 1]));
    let mut consumer = whole_consumer(random, &list);
    consumer.window(0, list.head.first_slot)[random.place(WINDOW_SLOTS)] += 1;
    list.push(PointFields::Consumer(consumer));
    filled(random, list)
}

/// Mixed-firing plants whose six divisions each leave 999 thousandths of a Wh,
/// and a total one below a multiple of 3,000: the printed shortfall is nearly
/// as far off as it may be.
pub fn plants_near_allowance(random: &mut Random) -> List {
    let mut list = begun(random);
    list.head.contract = HIGHEST_CONTRACT;
    // A thousandth of what is metered counts: 5,000.999 Wh in each slot.
    let share = WHOLE_SHARE - 1;
    let inside = random.between(0, 1_000_999);
    for number in 1..=random.between(1, 4) {
        let plant = MixedFiringFields::flat(u128::from(number), share, 5_000_999 - inside, inside);
        list.push(PointFields::MixedFiring(plant));
    }
    let excess = (total_of(&list).unwrap_or(0) + 1).rem_euclid(3_000);
    if let Some(last) = list.points.last_mut() {
        last.readings()[0] -= 1_000 * excess as u32;
    }
    list
}

/// A mixed-firing plant of whose divisions one alone leaves a remainder, by
/// either of its two readings in any slot, and a total that is a multiple of
/// 3,000.
pub fn one_remainder_of_a_plant(random: &mut Random) -> List {
    let mut list = begun(random);
    list.head.contract = HIGHEST_CONTRACT;
    let mut plant = whole_plant(random, &list);
    // With a share of 0 or of the whole a Wh more is a whole result.
    let any = random.between(1, u32::from(WHOLE_SHARE) - 1) as u16;
    plant.share = random.one_of(&[1, 333, 500, WHOLE_SHARE - 1, any, any]);
    plant.readings[random.place(MIXED_FIRING_READINGS)] += 1;
    list.push(PointFields::MixedFiring(plant));
    filled(random, list)
}

/// Mixed-firing plants whose divisions are whole, while each of the two readings
/// divided by itself mostly is not, and a total that is a multiple of 3,000:
/// printed and exact shortfall are the same.
pub fn plants_whole_together(random: &mut Random) -> List {
    let mut list = begun(random);
    list.head.contract = HIGHEST_CONTRACT;
    for _ in 0..random.between(1, 3) {
        let plant = whole_plant(random, &list);
        list.push(PointFields::MixedFiring(plant));
    }
    filled(random, list)
}
