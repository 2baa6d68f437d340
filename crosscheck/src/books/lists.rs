//! Seeded lists, one function for each kind of case. Nothing in them is
//! refused unless the kind says so.

use super::edges;
use super::faults::{head_faults, plant_faults, point_faults};
use super::fields::*;
use super::random::Random;
use super::returning::few_or_returning_days;
use crate::book::settle_fields;
use crate::days::{day_count, is_weekend};
use crate::limits::*;
use crate::terms::{contract_is_allowed, Terms};

/// A kind of list.
pub type Kind = fn(&mut Random) -> List;

/// All kinds with their names.
pub const KINDS: [(&str, Kind); 29] = [
    ("ordinary", ordinary),
    ("boundary head", boundary_head),
    ("boundary calendar", boundary_calendar),
    ("boundary point", boundary_point),
    ("number order", number_order),
    ("count mismatch", count_mismatch),
    ("several edges", several_edges),
    ("ties", ties),
    ("quarter rule limit", quarter_rule_limit),
    ("several dropped", several_dropped),
    ("few standing days", few_or_returning_days),
    ("negative results", negative_results),
    ("baseline at zero", baseline_at_zero),
    ("highest figures", highest_figures),
    ("total near a multiple", total_near_multiple),
    ("without remainder", without_remainder),
    ("contract near settled", contract_near_settled),
    ("many generators", many_generators),
    ("month ends", month_ends),
    (
        "several at the quarter rule limit",
        several_at_quarter_limit,
    ),
    ("sums of the whole range", sums_of_whole_range),
    ("more points than a byte counts", more_than_a_byte),
    ("faults of the head", head_faults),
    ("faults of a point", point_faults),
    ("mixed-firing plants", mixed_firing_plants),
    ("boundary plant", boundary_plant),
    ("highest plants", highest_plants),
    ("contract near plants", contract_near_plants),
    ("faults of a plant", plant_faults),
];

/// A test day that opening accepts.
fn test_date(random: &mut Random) -> (u16, u8, u8) {
    if random.once_in(4) {
        return random.one_of(&edges::ALLOWED_DATES);
    }
    loop {
        let year = random.between(u32::from(FIRST_YEAR), u32::from(LAST_YEAR)) as u16;
        let (month, day) = (random.between(1, 12) as u8, random.between(1, 31) as u8);
        if day_count(year, month, day).is_some_and(|count| !is_weekend(count)) {
            return (year, month, day);
        }
    }
}

/// A loss from 0 to 5,000, often at an edge.
fn loss(random: &mut Random) -> u16 {
    let any = random.between(0, u32::from(HIGHEST_LOSS)) as u16;
    random.one_of(&[
        0,
        1,
        200,
        400,
        700,
        HIGHEST_LOSS - 1,
        HIGHEST_LOSS,
        any,
        any,
    ])
}

/// An allowed contract, often at an edge.
fn contract(random: &mut Random) -> u32 {
    let any = random.between(LOWEST_CONTRACT, HIGHEST_CONTRACT);
    let small = random.between(LOWEST_CONTRACT, 20_000);
    random.one_of(&[0, 0, LOWEST_CONTRACT, HIGHEST_CONTRACT, any, small, small])
}

/// A list with an allowed head, calendar without marks, no points yet.
pub fn begun(random: &mut Random) -> List {
    let (year, month, day) = test_date(random);
    let any = random.between(u32::from(LOWEST_FIRST_SLOT), u32::from(HIGHEST_FIRST_SLOT)) as u8;
    List::new(Head {
        year,
        month,
        day,
        first_slot: random.one_of(&[LOWEST_FIRST_SLOT, HIGHEST_FIRST_SLOT, 24, 32, any, any]),
        losses: [loss(random), loss(random), loss(random)],
        contract: contract(random),
        count: 1,
    })
}

/// Marks some days, seldom enough that most consumers find four days.
fn mark_some(random: &mut Random, list: &mut List) {
    let one_in = random.one_of(&[3, 8, 40]);
    for mark in &mut list.marks {
        if random.once_in(one_in) {
            *mark = random.between(1, u32::from(HIGHEST_MARK)) as u8;
        }
    }
}

/// The eligible days of a list, nearest first.
pub fn eligible(list: &List) -> Vec<usize> {
    let terms = Terms::read(&list.head.value(), &list.marks);
    let days = terms.map(|terms| terms.eligible_days()).unwrap_or_default();
    days.into_iter().map(usize::from).collect()
}

/// The number for the next point of a list, a little above the last.
fn next_number(random: &mut Random, list: &List) -> u128 {
    let last = list.points.last().cloned().map(|mut point| *point.number());
    let last: Option<u128> = last.and_then(|last| String::from_utf8_lossy(&last).parse().ok());
    let step = random.one_of(&[1u128, 1, 2, 9, 1_000_000_007]);
    last.map_or(step - 1, |last| last + step)
}

/// A voltage class.
fn class(random: &mut Random) -> u8 {
    random.between(1, CLASSES as u32) as u8
}

/// A consumer with readings around a level; the window of the test day lower.
pub fn consumer(random: &mut Random, list: &List, level: u32) -> ConsumerFields {
    let mut consumer = ConsumerFields::flat(next_number(random, list), class(random), 0);
    let spread = level / random.one_of(&[2, 10, 100]);
    for reading in &mut consumer.readings {
        *reading = random.between(level - spread, level + spread);
    }
    for usage in consumer.window(0, list.head.first_slot) {
        *usage = random.between(0, level);
    }
    consumer
}

/// A generator with readings up to a level.
pub(super) fn generator(random: &mut Random, list: &List, level: u32) -> GeneratorFields {
    let mut generator = GeneratorFields::flat(next_number(random, list), 0, 0);
    for reading in &mut generator.readings {
        *reading = random.between(0, level);
    }
    if random.once_in(2) {
        generator.baseline = random.between(0, level / 500);
    }
    generator
}

/// A biomass share from 0 to 1,000, often at an edge.
fn share(random: &mut Random) -> u16 {
    let any = random.between(0, u32::from(WHOLE_SHARE)) as u16;
    random.one_of(&[0, 1, 333, 500, WHOLE_SHARE - 1, WHOLE_SHARE, any, any, any])
}

/// A mixed-firing plant with readings up to a level.
pub(super) fn plant(random: &mut Random, list: &List, level: u32) -> MixedFiringFields {
    let number = next_number(random, list);
    let mut plant = MixedFiringFields::flat(number, share(random), 0, 0);
    for reading in &mut plant.readings {
        *reading = random.between(0, level);
    }
    plant
}

/// A point of any kind, every second one a consumer.
fn point(random: &mut Random, list: &List, level: u32) -> PointFields {
    match random.below(6) {
        0 | 1 => PointFields::Generator(generator(random, list, level)),
        2 => PointFields::MixedFiring(plant(random, list, level)),
        _ => PointFields::Consumer(consumer(random, list, level)),
    }
}

/// Puts a few points of one level into a list.
fn push_points(random: &mut Random, list: &mut List, level: u32, most: u32) {
    for _ in 0..random.between(1, most) {
        let point = point(random, list, level);
        list.push(point);
    }
}

/// A level of readings, from some Wh to half the highest reading.
fn level(random: &mut Random) -> u32 {
    random.one_of(&[10, 1_200, 50_000, 2_000_000, 400_000_000])
}

/// Consumers of all classes, generators and mixed-firing plants, with some
/// marks.
pub fn ordinary(random: &mut Random) -> List {
    let mut list = begun(random);
    mark_some(random, &mut list);
    let level = level(random);
    push_points(random, &mut list, level, 4);
    list
}

/// An ordinary list with something of the head at an edge or beyond it.
pub fn boundary_head(random: &mut Random) -> List {
    let mut list = ordinary(random);
    edges::head(random, &mut list);
    list
}

/// An ordinary list on the first day of a month or around its end, whether
/// there is such a date or not.
pub fn month_ends(random: &mut Random) -> List {
    let mut list = ordinary(random);
    let year = random.between(u32::from(FIRST_YEAR), u32::from(LAST_YEAR)) as u16;
    let month = random.between(1, 12) as u8;
    list.head.year = random.one_of(&[year, year - year % 4]);
    list.head.month = random.one_of(&[2, 12, month, month]);
    list.head.day = random.one_of(&[1, 28, 29, 30, 31, 32]);
    list
}

/// An ordinary list with a mark at an edge or beyond it.
pub fn boundary_calendar(random: &mut Random) -> List {
    let mut list = ordinary(random);
    edges::calendar(random, &mut list);
    list
}

/// An ordinary list with something of a point at an edge or beyond it.
pub fn boundary_point(random: &mut Random) -> List {
    let mut list = ordinary(random);
    edges::point(random, &mut list);
    list
}

/// An ordinary list whose last two numbers are near each other.
pub fn number_order(random: &mut Random) -> List {
    let mut list = ordinary(random);
    let level = level(random);
    push_points(random, &mut list, level, 1);
    edges::number_order(random, &mut list);
    list
}

/// An ordinary list whose count is not that of its points.
pub fn count_mismatch(random: &mut Random) -> List {
    let mut list = ordinary(random);
    edges::count(random, &mut list);
    list
}

/// An ordinary list with two to four things at an edge or beyond it.
pub fn several_edges(random: &mut Random) -> List {
    let mut list = ordinary(random);
    for _ in 0..random.between(2, 4) {
        random.one_of(&edges::EDGES)(random, &mut list);
    }
    list
}

/// A consumer whose eligible days have the window sums given, nearest first,
/// and the last of them again for all days farther back.
pub fn consumer_with_sums(random: &mut Random, list: &List, sums: &[u32]) -> ConsumerFields {
    let first_slot = list.head.first_slot;
    let mut consumer = consumer(random, list, 1_200);
    let farther = sums.iter().chain(sums.last().into_iter().cycle());
    for (back, &sum) in eligible(list).into_iter().zip(farther) {
        consumer.set_window_sum(back, first_slot, sum);
    }
    consumer
}

/// Equal lowest window sums among the five.
pub fn ties(random: &mut Random) -> List {
    let mut list = begun(random);
    mark_some(random, &mut list);
    let sums: Vec<u32> = (0..DAYS_BACK)
        .map(|_| random.one_of(&[9_000, 9_001]))
        .collect();
    let consumer = consumer_with_sums(random, &list, &sums);
    list.push(PointFields::Consumer(consumer));
    list
}

/// A window sum times 20 that is exactly the five sums, one below or above.
pub fn quarter_rule_limit(random: &mut Random) -> List {
    let mut list = begun(random);
    mark_some(random, &mut list);
    let low = random.between(1, 40_000);
    let mut sums: Vec<u32> = vec![19 * low / 4; 4];
    sums[3] = 19 * low - 3 * sums[0] + 1;
    sums[3] -= random.between(0, 2);
    sums.insert(random.place(5), low);
    sums.extend([low, 5 * low, low, 5 * low, 4 * low]);
    let consumer = consumer_with_sums(random, &list, &sums);
    list.push(PointFields::Consumer(consumer));
    list
}

/// Two days of the first round under a quarter or near it: the higher one is
/// at the limit, or would be if the lower one were taken from the five sums.
/// Few days stand behind the five, so that it matters which are dropped.
pub fn several_at_quarter_limit(random: &mut Random) -> List {
    let mut list = begun(random);
    let left = random.between(5, 8) as usize;
    leave_eligible(random, &mut list, left);
    let near = random.between(20, 40_000);
    let low = random.between(0, near);
    let together = 20 * near - 1 + random.one_of(&[0, 1, 2, low, low + 1, low + 2]);
    let high = (together - near - low) / 3;
    let mut sums = vec![high, high, together - near - low - 2 * high];
    for sum in [near, low] {
        sums.insert(random.place(sums.len() + 1), sum);
    }
    sums.extend([0; 3].map(|_: u32| random.one_of(&[low, near, high])));
    let consumer = consumer_with_sums(random, &list, &sums);
    list.push(PointFields::Consumer(consumer));
    list
}

/// Rounds that drop up to four days at once, and several rounds.
pub fn several_dropped(random: &mut Random) -> List {
    let mut list = begun(random);
    let low_in = random.one_of(&[2, 3, 5]);
    let sums: Vec<u32> = (0..DAYS_BACK)
        .map(|_| {
            let high = random.between(50_000, 60_000);
            if random.below(low_in) > 0 {
                random.one_of(&[0, 1, 700, 2_000])
            } else {
                high
            }
        })
        .collect();
    let consumer = consumer_with_sums(random, &list, &sums);
    list.push(PointFields::Consumer(consumer));
    list
}

/// Marks all eligible days but so many, after a few that are marked too.
fn leave_eligible(random: &mut Random, list: &mut List, left: usize) {
    let skipped = random.place(4);
    for (order, back) in eligible(list).into_iter().enumerate() {
        if order < skipped || order >= skipped + left {
            list.marks[back - 1] = random.between(1, 3) as u8;
        }
    }
}

/// Marks that leave up to seven eligible days, some of them under a quarter,
/// so that two to five stand; fewer than four eligible give refusal 18.
pub fn few_standing_days(random: &mut Random) -> List {
    let mut list = begun(random);
    let left = random.between(2, 7) as usize;
    leave_eligible(random, &mut list, left);
    let sums: Vec<u32> = (0..left)
        .map(|_| random.one_of(&[30_000, 30_000, 31_000, 32_000, 10]))
        .collect();
    let consumer = consumer_with_sums(random, &list, &sums);
    list.push(PointFields::Consumer(consumer));
    list
}

/// Use above the baseline and generation below it.
pub fn negative_results(random: &mut Random) -> List {
    let mut list = begun(random);
    let level = level(random);
    for _ in 0..random.between(1, 3) {
        let mut consumer = consumer(random, &list, level);
        for usage in consumer.window(0, list.head.first_slot) {
            *usage = random.between(level, 2 * level + 7);
        }
        list.push(PointFields::Consumer(consumer));
    }
    let mut generator = generator(random, &list, level);
    generator.baseline = random.between(0, HIGHEST_GENERATOR_BASELINE.min(level / 100));
    list.push(PointFields::Generator(generator));
    list
}

/// An adjustment that takes the baseline to zero, just above or below it.
pub fn baseline_at_zero(random: &mut Random) -> List {
    let mut list = begun(random);
    let first_slot = list.head.first_slot;
    let reading = random.between(6, 5_000);
    let mut consumer = ConsumerFields::flat(next_number(random, &list), class(random), reading);
    consumer.earlier(0, first_slot).fill(0);
    let back = eligible(&list)[random.place(CHOSEN_DAYS)];
    let change = random.between(0, 12);
    *consumer.reading(back, usize::from(first_slot) - EARLIER_LEAD) = reading + change - 6;
    consumer
        .window(0, first_slot)
        .fill(random.between(0, reading));
    list.push(PointFields::Consumer(consumer));
    list
}

/// Readings 0 or the highest, losses 0 or the highest: results at the limit.
pub fn highest_figures(random: &mut Random) -> List {
    let mut list = begun(random);
    list.head.losses = [0, 0, 0].map(|_: u16| random.one_of(&[0, HIGHEST_LOSS]));
    for _ in 0..random.between(1, 3) {
        let number = next_number(random, &list);
        let mut consumer = ConsumerFields::flat(number, class(random), 0);
        set_ends(random, &mut consumer, list.head.first_slot);
        list.push(PointFields::Consumer(consumer));
    }
    list
}

/// Readings for the highest result, for the lowest, or any of the ends.
fn set_ends(random: &mut Random, consumer: &mut ConsumerFields, first_slot: u8) {
    let aim = random.below(3);
    for back in 0..=DAYS_BACK {
        let any = [0, 0].map(|_: u32| random.one_of(&[0, HIGHEST_READING]));
        let [window, earlier] = match (aim, back) {
            (0, 0) => [0, HIGHEST_READING],
            (0, _) => [HIGHEST_READING, 0],
            (1, 0) => [HIGHEST_READING, 0],
            (1, _) => [0, HIGHEST_READING],
            _ => any,
        };
        consumer.window(back, first_slot).fill(window);
        consumer.earlier(back, first_slot).fill(earlier);
    }
}

/// Window readings of each day up to a level of its own, from 0 to the highest:
/// window sums on both sides of 32 bits, in any order.
pub fn sums_of_whole_range(random: &mut Random) -> List {
    let mut list = begun(random);
    mark_some(random, &mut list);
    let mut consumer = consumer(random, &list, 400_000_000);
    for back in 1..=DAYS_BACK {
        let level = random.between(0, HIGHEST_READING);
        for reading in consumer.window(back, list.head.first_slot) {
            *reading = random.between(level / 2, level);
        }
    }
    list.push(PointFields::Consumer(consumer));
    list
}

/// A generator whose total is a multiple of 3,000, one less or one more, also
/// around zero and below it.
pub fn total_near_multiple(random: &mut Random) -> List {
    let mut list = begun(random);
    list.head.contract = random.one_of(&[0, 1_000, 1_001]);
    let capacity = random.one_of(&[1, 2, 999, 1_000, 1_001, 1_002]);
    let baseline = random.one_of(&[0, 0, 1, 2, capacity, capacity + 1]);
    let number = next_number(random, &list);
    let mut generator = GeneratorFields::flat(number, baseline, 500 * capacity);
    let slot = random.place(WINDOW_SLOTS);
    generator.readings[slot] -= 1;
    generator.readings[slot] += random.between(0, 2);
    list.push(PointFields::Generator(generator));
    list
}

/// A consumer whose six divisions are whole: level history, and use below or
/// above it by a multiple of (10,000 − loss).
pub(super) fn whole_consumer(random: &mut Random, list: &List) -> ConsumerFields {
    let reading = 5_000_000;
    let number = next_number(random, list);
    let mut consumer = ConsumerFields::flat(number, class(random), reading);
    let loss = list.head.losses[usize::from(consumer.class) - 1];
    let step = u32::from(WHOLE - loss);
    for usage in consumer.window(0, list.head.first_slot) {
        let times = random.between(0, 300);
        *usage = if random.once_in(4) {
            reading + times * step
        } else {
            reading - times * step
        };
    }
    consumer
}

/// A mixed-firing plant whose six divisions are whole: its two readings
/// together are a multiple of 1,000, each by itself mostly not.
pub(super) fn whole_plant(random: &mut Random, list: &List) -> MixedFiringFields {
    let number = next_number(random, list);
    let mut plant = MixedFiringFields::flat(number, share(random), 0, 0);
    for slot in 0..WINDOW_SLOTS {
        let together = u32::from(WHOLE_SHARE) * random.between(1, 5_000);
        plant.readings[slot] = random.between(0, together);
        plant.readings[WINDOW_SLOTS + slot] = together - plant.readings[slot];
    }
    plant
}

/// A generator that makes the total a multiple of 3,000.
pub(super) fn filling_generator(random: &mut Random, list: &List) -> GeneratorFields {
    let total = total_of(list).unwrap_or(0);
    let number = next_number(random, list);
    let mut generator = GeneratorFields::flat(number, 0, 3_000);
    generator.readings[0] = 3_000 - total.rem_euclid(3_000) as u32;
    generator
}

/// No division leaves a remainder, or only that of the total does.
pub fn without_remainder(random: &mut Random) -> List {
    let mut list = begun(random);
    for _ in 0..random.between(1, 3) {
        let point = if random.once_in(3) {
            PointFields::MixedFiring(whole_plant(random, &list))
        } else {
            PointFields::Consumer(whole_consumer(random, &list))
        };
        list.push(point);
    }
    let mut generator = filling_generator(random, &list);
    generator.readings[1] += random.one_of(&[0, 0, 1, 2_999]);
    list.push(PointFields::Generator(generator));
    list
}

/// The total of a list as it stands, where its book gives 0.
pub(super) fn total_of(list: &List) -> Option<i64> {
    settle_fields(&list.book())
        .ok()
        .map(|settled| settled.figures.total)
}

/// A contract at the settled capacity, one below or one above, sometimes with a
/// total that is a multiple of 3,000.
pub fn contract_near_settled(random: &mut Random) -> List {
    let mut list = begun(random);
    list.head.contract = 0;
    let level = random.one_of(&[2_000_000, 30_000_000]);
    push_points(random, &mut list, level, 3);
    let number = next_number(random, &list);
    let mut filling = GeneratorFields::flat(number, 0, 1_000_000);
    let total = total_of(&list).unwrap_or(0);
    if random.once_in(2) {
        filling.readings[0] -= (total + 6_000_000).rem_euclid(3_000) as u32;
    }
    list.push(PointFields::Generator(filling));
    set_contract_near_settled(random, &mut list);
    list
}

/// The contract becomes the settled capacity, one below or one above, where
/// that is allowed.
fn set_contract_near_settled(random: &mut Random, list: &mut List) {
    let settled = total_of(list).unwrap_or(0).div_euclid(3_000);
    let near = settled + i64::from(random.between(0, 2)) - 1;
    let contract = u32::try_from(near).unwrap_or(0);
    if contract_is_allowed(contract) {
        list.head.contract = contract;
    }
}

/// A list of generators, numbers rising in steps.
pub(super) fn generators(random: &mut Random, least: u32, most: u32) -> List {
    let mut list = begun(random);
    for _ in 0..random.between(least, most) {
        let generator = generator(random, &list, 3_000_000);
        list.push(PointFields::Generator(generator));
    }
    list
}

/// A longer list of generators.
pub fn many_generators(random: &mut Random) -> List {
    generators(random, 20, 60)
}

/// Around 256 generators.
pub fn more_than_a_byte(random: &mut Random) -> List {
    generators(random, 254, 260)
}

/// Mixed-firing plants alone.
pub fn mixed_firing_plants(random: &mut Random) -> List {
    let mut list = begun(random);
    let level = level(random);
    for _ in 0..random.between(1, 8) {
        let plant = plant(random, &list, level);
        list.push(PointFields::MixedFiring(plant));
    }
    list
}

/// A mixed-firing plant with its share or some of its readings at an edge or
/// beyond it, alone or behind other points.
pub fn boundary_plant(random: &mut Random) -> List {
    let mut list = begun(random);
    if random.once_in(2) {
        push_points(random, &mut list, 50_000, 2);
    }
    let mut plant = plant(random, &list, 2_000_000);
    if random.once_in(2) {
        plant.share = random.one_of(&edges::SHARES);
    }
    for _ in 0..random.between(0, 3) {
        let place = random.place(MIXED_FIRING_READINGS);
        let beyond = HIGHEST_READING + 1;
        plant.readings[place] = random.one_of(&[0, 1, HIGHEST_READING, HIGHEST_READING, beyond]);
    }
    list.push(PointFields::MixedFiring(plant));
    list
}

/// Mixed-firing plants with readings 0, 1 or the highest: results up to twice
/// the highest reading.
pub fn highest_plants(random: &mut Random) -> List {
    let mut list = begun(random);
    for _ in 0..random.between(1, 4) {
        let mut plant = plant(random, &list, 0);
        for reading in &mut plant.readings {
            *reading = random.one_of(&[0, 1, HIGHEST_READING, HIGHEST_READING]);
        }
        list.push(PointFields::MixedFiring(plant));
    }
    list
}

/// Mixed-firing plants alone with a contract at the settled capacity, one below
/// or one above.
pub fn contract_near_plants(random: &mut Random) -> List {
    let mut list = begun(random);
    list.head.contract = 0;
    for _ in 0..random.between(1, 3) {
        let mut plant = plant(random, &list, 9_000_000);
        plant.share = random.between(0, 900) as u16;
        list.push(PointFields::MixedFiring(plant));
    }
    set_contract_near_settled(random, &mut list);
    list
}
