//! The books that are timed, and what is seen of them before.

use settlement::books::fields::{GeneratorFields, Head, List, PointFields};
use settlement::books::lists::{consumer, consumer_with_sums, eligible};
use settlement::books::random::Random;
use settlement::choosing::{dropped_in_round, walk, WindowSums};
use settlement::limits::{CHOSEN_DAYS, DAYS_OF_A_ROUND};
use settlement::point::Point;
use settlement::slots::window_sums;

/// A kind of book.
pub struct Kind {
    /// Its name in the report.
    pub name: &'static str,
    /// A list of so many points.
    pub list: fn(u32) -> List,
    /// How many days each round of a consumer's walk drops, but for the round that drops none.
    drops: &'static [usize],
    /// How many days return after it.
    returned: usize,
}

/// Of 30 days back from 2024-08-07 twenty-two are eligible. Where each round drops one, eighteen rounds leave four.
const MOST_ROUNDS: usize = 18;

/// The same rounds, but the last of them drops four and leaves one.
const ROUNDS_LEAVING_ONE: [usize; MOST_ROUNDS] = {
    let mut drops = [1; MOST_ROUNDS];
    drops[MOST_ROUNDS - 1] = CHOSEN_DAYS;
    drops
};

/// Consumers of all classes with readings around a level: no day is dropped.
pub const ORDINARY: Kind = Kind {
    name: "ordinary",
    list: ordinary,
    drops: &[],
    returned: 0,
};

/// Consumers that drop one day in every round, in as many rounds as thirty days allow.
pub const DROPPING: Kind = Kind {
    name: "dropping",
    list: dropping,
    drops: &[1; MOST_ROUNDS],
    returned: 0,
};

/// Consumers of as many rounds, the last of which leaves one day: three of twenty-one dropped days return.
pub const RETURNING: Kind = Kind {
    name: "returning",
    list: returning,
    drops: &ROUNDS_LEAVING_ONE,
    returned: CHOSEN_DAYS - 1,
};

/// Generators alone.
pub const GENERATORS: Kind = Kind {
    name: "generators",
    list: generators,
    drops: &[],
    returned: 0,
};

fn begun() -> (Random, List) {
    (Random::new(2024), List::new(Head::EXAMPLE_M))
}

fn ordinary(points: u32) -> List {
    let (mut random, mut list) = begun();
    for _ in 0..points {
        let level = random.between(500, 50_000);
        let consumer = consumer(&mut random, &list, level);
        list.push(PointFields::Consumer(consumer));
    }
    list
}

/// Consumers whose eligible days have window sums of some form, nearest first.
fn with_sums(points: u32, sums: fn(&mut Random) -> Vec<u32>) -> List {
    let (mut random, mut list) = begun();
    for _ in 0..points {
        let sums = sums(&mut random);
        let consumer = consumer_with_sums(&mut random, &list, &sums);
        list.push(PointFields::Consumer(consumer));
    }
    list
}

fn dropping(points: u32) -> List {
    with_sums(points, |random| dropping_sums(random, MOST_ROUNDS))
}

fn returning(points: u32) -> List {
    with_sums(points, returning_sums)
}

/// Window sums of which so many rounds each drop one. Four sums stand as 1 to 2 to 4 to 8, in any order. A further day
/// has either half the lowest and goes at once, or twice the highest and the lowest goes.
fn dropping_sums(random: &mut Random, rounds: usize) -> Vec<u32> {
    let mut standing = vec![60, 120, 240, 480];
    let mut sums: Vec<u32> = Vec::new();
    let mut order = standing.clone();
    while !order.is_empty() {
        sums.push(order.remove(random.place(order.len())));
    }
    for _ in 0..rounds {
        if random.once_in(2) {
            sums.push(standing[0] / 2);
        } else {
            standing = standing.iter().map(|sum| 2 * sum).collect();
            sums.push(standing[CHOSEN_DAYS - 1]);
        }
    }
    sums
}

/// The same with a last day so high that all four standing go.
fn returning_sums(random: &mut Random) -> Vec<u32> {
    let mut sums = dropping_sums(random, MOST_ROUNDS - 1);
    sums.extend(sums.iter().max().map(|highest| 32 * highest));
    sums
}

fn generators(points: u32) -> List {
    let (mut random, mut list) = begun();
    for number in 1..=points {
        let (baseline, reading) = (random.between(0, 5), random.between(0, 50_000));
        let generator = GeneratorFields::flat(u128::from(number), baseline, reading);
        list.push(PointFields::Generator(generator));
    }
    list
}

/// How many days each round of a walk drops, but for the round that drops none.
fn dropped_in_rounds(eligible: &[u8], sums: &WindowSums) -> Vec<usize> {
    let (mut left, mut rounds) = (eligible.to_vec(), Vec::new());
    while let Some(five) = left.first_chunk::<DAYS_OF_A_ROUND>() {
        let dropped = dropped_in_round(five, sums);
        if dropped.is_empty() {
            break;
        }
        left.retain(|back| !dropped.contains(back));
        rounds.push(dropped.len());
    }
    rounds
}

/// By the separate settlement's own choosing: each consumer of the list drops days, and has days back, as its kind says.
pub fn check(kind: &Kind, list: &List) -> Result<(), String> {
    let days: Vec<u8> = eligible(list).into_iter().map(|back| back as u8).collect();
    for point in &list.points {
        let value = point.value();
        let Ok(Point::Consumer(consumer)) = Point::cut(point.tag(), &value) else {
            continue;
        };
        let sums = window_sums(&consumer, list.head.first_slot);
        let drops = dropped_in_rounds(&days, &sums);
        let returned = CHOSEN_DAYS.saturating_sub(walk(&days, &sums).standing.len());
        if drops != kind.drops || returned != kind.returned {
            return Err(format!(
                "of a consumer of the {} book the rounds drop {drops:?} days and {returned} return",
                kind.name
            ));
        }
    }
    Ok(())
}
