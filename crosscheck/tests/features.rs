//! What the first 20,000 seeded books hold, by the settlement's own looking:
//! every feature named here must occur.

mod common;

use common::seen::Seen;
use settlement::book::PointValue;
use settlement::books::damages::{field_begins, FIRST_OF_POINT};
use settlement::books::lending::{lent_bytes, to_write};
use settlement::books::{seeded_book, SeededBook};
use settlement::choosing::{choose_days, dropped_in_round, walk, WindowSums};
use settlement::days::is_weekend;
use settlement::ledger::{add, close, open, State};
use settlement::limits::*;
use settlement::point::{MixedFiring, Point};
use settlement::refusals::{Told, READING, READING_OF_A_DAY_BACK};
use settlement::slots::{window_sums, SlotResults};
use settlement::terms::{contract_is_allowed, Terms};
use settlement::writing::write_point;
use std::collections::BTreeSet;

const BOOKS: u64 = 20_000;

/// The fields of an undamaged book: head, calendar, then tag and value of each
/// point.
fn fields(book: &[u8]) -> (&[u8], &[u8], Vec<PointValue<'_>>) {
    let begins = field_begins(book);
    let ends = begins.iter().copied().skip(1).chain([book.len()]);
    let mut fields: Vec<PointValue> = begins
        .iter()
        .zip(ends)
        .map(|(&begin, end)| (book[begin], &book[begin + FRONT_LENGTH..end]))
        .collect();
    let points = fields.split_off(2);
    (fields[0].1, fields[1].1, points)
}

/// Looks at all undamaged books.
fn look_at_books(look: impl Fn(&mut Seen, &[u8])) -> Seen {
    let mut seen = Seen::default();
    for number in 0..BOOKS {
        let seeded = seeded_book(number);
        if seeded.damage.is_none() {
            look(&mut seen, &seeded.book);
        }
    }
    seen
}

fn look_at_head(seen: &mut Seen, book: &[u8]) {
    let (head, calendar, _) = fields(book);
    let Terms { head, marks } = Terms::cut(head, calendar).unwrap();
    let date = format!("{}-{}-{}", head.year, head.month, head.day);
    let dates = ["2019-12-31", "2020-1-1", "2099-12-31", "2100-1-1"];
    let ends = ["2024-2-29", "2023-2-29", "2024-2-30", "2025-4-31"];
    seen.note_value("date", date.as_str(), &dates);
    seen.note_value("date", date.as_str(), &ends);
    seen.note_value("month", head.month, &[0, 1, 12, 13]);
    seen.note_value("day", head.day, &[0, 1, 28, 29, 30, 31, 32]);
    seen.note_value("s", head.first_slot, &[17, 18, 34, 35]);
    for (class, loss) in head.losses.into_iter().enumerate() {
        seen.note_value(&format!("loss {class}"), loss, &[0, 5_000, 5_001]);
    }
    let contracts = [0, 1, 999, 1_000, 10_000_000, 10_000_001];
    seen.note_value("contract", head.contract, &contracts);
    seen.note_value("count", head.count, &[0, 1, 256, 257, 10_000, 10_001]);
    for (day, mark) in (1..).zip(marks) {
        seen.note_value(&format!("mark {day} back"), mark, &[0, 1, 2, 3, 4]);
    }
    let day = head.test_day();
    let losses = head.losses.iter().any(|&loss| loss > 5_000);
    seen.note_faults(&[
        (2, day.is_none()),
        (3, day.is_some_and(is_weekend)),
        (4, !(18..=34).contains(&head.first_slot)),
        (5, losses),
        (6, !contract_is_allowed(head.contract)),
        (7, !(1..=10_000).contains(&head.count)),
        (8, marks.iter().any(|&mark| mark > 3)),
    ]);
}

#[test]
fn heads_and_calendars() {
    look_at_books(look_at_head).all_occur(215);
}

/// The days of a consumer's walk; those dropped in each round.
fn look_at_walk(seen: &mut Seen, eligible: &[u8], sums: &WindowSums) -> Vec<Vec<u8>> {
    let of_day = |&back: &u8| sums[usize::from(back) - 1];
    seen.note_value("days at the start", eligible.len(), &[3, 4, 5, 6]);
    let mut left = eligible.to_vec();
    let mut rounds = 0;
    let mut in_rounds = Vec::new();
    while let Some(five) = left.first_chunk::<5>() {
        rounds += 1;
        let together: u64 = five.iter().map(of_day).sum();
        let beside = |sum: u64| sum as i64 * 20 - together as i64;
        for aim in [-1, 0, 1] {
            let met = together > 0 && five.iter().any(|back| beside(of_day(back)) == aim);
            seen.note(&format!("times 20 beside the five sums by {aim}"), met);
        }
        let dropped = dropped_in_round(five, sums);
        seen.note_value("dropped in a round", dropped.len(), &[0, 1, 2, 3, 4]);
        if dropped.is_empty() {
            break;
        }
        left.retain(|back| !dropped.contains(back));
        in_rounds.push(dropped);
    }
    seen.note_value("rounds", rounds, &[0, 1, 2, 3, 4]);
    let standing = walk(eligible, sums).standing;
    seen.note_value("standing", standing.len(), &[0, 1, 2, 3, 4, 5]);
    let lowest = standing.iter().map(of_day).min();
    let lowest = standing.iter().filter(|back| Some(of_day(back)) == lowest);
    let tie = standing.len() == 5 && lowest.count() > 1;
    seen.note("tie for the lowest of five", tie);
    let high = standing
        .iter()
        .any(|back| of_day(back) > u64::from(u32::MAX));
    seen.note("window sum beyond 32 bits", high);
    in_rounds
}

/// A consumer's window sums, the days standing after its walk, and of those dropped
/// the days that return and the days that stay away.
struct Returning<'a> {
    sums: &'a WindowSums,
    standing: Vec<u8>,
    returned: Vec<u8>,
    away: Vec<u8>,
}

impl Returning<'_> {
    fn sum(&self, back: u8) -> u64 {
        self.sums[usize::from(back) - 1]
    }

    /// Whether days of one list and of another have the same sum.
    fn equal(&self, one: &[u8], other: &[u8]) -> bool {
        let sums: Vec<u64> = other.iter().map(|&back| self.sum(back)).collect();
        one.iter().any(|&back| sums.contains(&self.sum(back)))
    }

    /// The rounds that dropped the days that return.
    fn look_at_rounds(&self, seen: &mut Seen, in_rounds: &[Vec<u8>]) {
        let (first, later) = in_rounds.split_at(in_rounds.len().min(1));
        let of = |days: &[u8], rounds: &[Vec<u8>]| -> Vec<u8> {
            let dropped = |day: &u8| rounds.concat().contains(day);
            days.iter().copied().filter(dropped).collect()
        };
        let [of_first, of_later] = [first, later].map(|rounds| of(&self.returned, rounds));
        let several = !later.is_empty();
        let from = (!of_first.is_empty(), !of_later.is_empty());
        seen.note(
            "first of several rounds alone",
            several && from == (true, false),
        );
        seen.note("later rounds alone", from == (false, true));
        seen.note("first round and later ones", from == (true, true));
        let both = self.equal(&of_first, &of_later);
        let one = self.equal(&of_first, &of(&self.away, later));
        seen.note("equal ones of two rounds return", both);
        seen.note("of equal ones of two rounds one returns", one);
    }

    /// Where the days that return lie, and beside what.
    fn look_at_days(&self, seen: &mut Seen) {
        let standing = &self.standing;
        let any = |test: &dyn Fn(u8) -> bool| self.returned.iter().any(|&back| test(back));
        let nearest = |back| standing.iter().all(|&other| back < other);
        let farthest = |back| standing.iter().all(|&other| back > other);
        seen.note("nearest of the four", any(&nearest));
        seen.note("farthest of the four", any(&farthest));
        let behind = |back| self.away.iter().any(|&other| other < back);
        seen.note("farther than one away", any(&behind));
        seen.note("with a window sum of 0", any(&|back| self.sum(back) == 0));
        seen.note(
            "as high as one away",
            self.equal(&self.returned, &self.away),
        );
        let below = |&day: &u8| {
            self.away
                .iter()
                .any(|&other| self.sum(other) > self.sum(day))
        };
        let lower = standing.iter().any(below);
        let return_some = !self.returned.is_empty();
        seen.note("a standing day lower than one away", lower && return_some);
        let four = standing.len() == CHOSEN_DAYS;
        seen.note("one of four standing lower than one away", lower && four);
    }
}

/// The days that return to a consumer, with those dropped in each round.
fn look_at_return(seen: &mut Seen, state: &State, sums: &WindowSums, in_rounds: &[Vec<u8>]) {
    let eligible = state.terms.eligible_days();
    let days = choose_days(&eligible, sums).unwrap_or_default();
    let told = |back: &u8| days.contains(back);
    let (returned, away) = in_rounds.concat().into_iter().partition(told);
    let returning = Returning {
        sums,
        standing: walk(&eligible, sums).standing,
        returned,
        away,
    };
    seen.note_value("days that return", returning.returned.len(), &[0, 1, 2, 3]);
    returning.look_at_rounds(seen, in_rounds);
    returning.look_at_days(seen);
    look_at_days_kept_out(seen, state, &returning);
}

/// Days that are not eligible and higher than one that returns.
fn look_at_days_kept_out(seen: &mut Seen, state: &State, returning: &Returning) {
    let Returning { returned, .. } = returning;
    let test_day = state.terms.head.test_day().unwrap();
    for mark in 0..=3 {
        let mut kept_out = [false; 2];
        for back in (1..=30).filter(|back| state.terms.marks[usize::from(*back) - 1] == mark) {
            let lower = |&day: &u8| returning.sum(day) < returning.sum(back);
            let higher = returned.iter().any(lower);
            kept_out[usize::from(is_weekend(test_day - u32::from(back)))] |= higher;
        }
        let [working_day, weekend] = kept_out;
        seen.note(&format!("a weekend kept out, mark {mark}"), weekend);
        if mark > 0 {
            seen.note(&format!("a working day kept out, mark {mark}"), working_day);
        }
    }
}

/// How many days a consumer has that nothing but 18 refuses.
fn look_at_eligible(seen: &mut Seen, eligible: &[u8], sums: &WindowSums, refusal: u32) {
    let zeros = eligible
        .iter()
        .all(|&back| sums[usize::from(back) - 1] == 0);
    for days in 0..=5 {
        let due = if days < 4 { 18 } else { 0 };
        let so_many = eligible.len() == days && refusal == due;
        seen.note(&format!("{days} eligible, {due}"), so_many);
        if days > 2 {
            seen.note(&format!("{days} eligible, all 0, {due}"), so_many && zeros);
        }
    }
}

/// A point with the state before it; the state after it.
fn look_at_point(seen: &mut Seen, state: &State, tag: u8, value: &[u8]) -> State {
    let mut results = [0; WINDOW_SLOTS];
    let added = add(state, tag, value, &mut results);
    let (refusal, after) = (added.refusal, added.state);
    let point = Point::cut(tag, value).unwrap();
    let mut few_days = false;
    let mut at_16 = 16;
    match point {
        Point::Consumer(consumer) => {
            let eligible = state.terms.eligible_days();
            let sums = window_sums(&consumer, state.terms.head.first_slot);
            few_days = eligible.len() < 4;
            seen.note_value("class", consumer.class(), &[0, 1, 2, 3, 4]);
            if refusal == 0 || refusal == 18 {
                let in_rounds = look_at_walk(seen, &eligible, &sums);
                look_at_return(seen, state, &sums, &in_rounds);
                look_at_eligible(seen, &eligible, &sums, refusal);
            }
            let negative = results.iter().any(|&result| result < 0);
            seen.note("result of a consumer below zero", negative);
        }
        Point::Generator(generator) => {
            let matter = [0, 1_000_000, 1_000_001];
            seen.note_value("generator's baseline", generator.baseline(), &matter);
            let negative = results.iter().any(|&result| result < 0);
            seen.note("result of a generator below zero", negative);
        }
        Point::MixedFiring(plant) => {
            at_16 = 50;
            look_at_plant(seen, &plant, &results);
        }
    }
    let number = point.number();
    seen.note("number of zeros", number == [b'0'; 22]);
    seen.note("number of nines", number == NOT_YET_ISSUED);
    let mut faults = faults_of_value(state, &point, at_16);
    if at_16 == 16 {
        faults.push((18, few_days)); // a plant has no days
    }
    seen.note_faults(&faults);
    let told = Told {
        refusal,
        index: added.index,
    };
    look_at_large_readings(seen, "added", &point, told);
    after
}

/// The faults 14 to 17 of a point, with the number at the place of 16. Those at
/// the place of 17 are each looked for by themselves.
fn faults_of_value(state: &State, point: &Point, at_16: u32) -> Vec<(u32, bool)> {
    let [first, days_back] = cases_of_readings(point);
    let mut faults = vec![
        (14, point.check_number().is_err()),
        (15, state.points > 0 && point.number() <= state.last),
        (at_16, point.check_class_baseline_or_share().is_err()),
        (51, first),
    ];
    if at_16 == 16 {
        faults.push((52, days_back)); // a plant has no days back
    }
    faults
}

/// Whether a large reading occurs where 51 is due, and where 52 is.
fn cases_of_readings(point: &Point) -> [bool; 2] {
    let large: Vec<bool> = point
        .readings()
        .map(|reading| reading > HIGHEST_READING)
        .collect();
    let (first, days_back) = large.split_at(large.len().min(SLOTS_OF_A_DAY));
    [first, days_back].map(|part| part.contains(&true))
}

/// The reading that 51 or 52 concerns, and what stands behind it.
fn look_at_large_readings(seen: &mut Seen, call: &str, point: &Point, told: Told) {
    let (kind, matter) = match point {
        Point::Consumer(_) => ("consumer", vec![0, 47, 48, 1_487]),
        Point::Generator(_) => ("generator", (0..6).collect()),
        Point::MixedFiring(_) => ("plant", (0..12).collect()),
    };
    let concerned = [READING, READING_OF_A_DAY_BACK].contains(&told.refusal);
    let index = concerned.then_some(told.index as usize);
    for place in matter {
        let feature = format!("{kind} {call}, first large reading {place}");
        seen.note(&feature, index == Some(place));
    }
    let readings: Vec<u32> = point.readings().collect();
    let (first, behind) = match index {
        Some(index) => (readings[index], &readings[index + 1..]),
        None => (0, &[][..]),
    };
    let another = behind.iter().any(|&reading| reading > HIGHEST_READING);
    let higher = behind.iter().any(|&reading| reading > first);
    let both = concerned && cases_of_readings(point) == [true; 2];
    seen.note(&format!("{kind} {call}, several large readings"), another);
    seen.note(&format!("{kind} {call}, a higher one behind"), higher);
    if kind == "consumer" {
        seen.note(&format!("{kind} {call}, both cases"), both);
        let second = told.refusal == READING_OF_A_DAY_BACK && another;
        seen.note(&format!("{kind} {call}, several of the days back"), second);
    }
}

/// What is written of a seeded book, damaged or not.
#[test]
fn large_readings_written() {
    let mut seen = Seen::default();
    for number in 0..BOOKS {
        let book = seeded_book(number).book;
        let given = to_write(&book, number);
        let told = write_point(given.tag, given.value, &mut lent_bytes(given.room));
        if let Ok(point) = Point::cut(given.tag, given.value) {
            look_at_large_readings(&mut seen, "written", &point, told);
        }
    }
    seen.all_occur(30);
}

/// The share and the twelve readings of a plant, and its divisions.
fn look_at_plant(seen: &mut Seen, plant: &MixedFiring, results: &SlotResults) {
    let shares = [0, 1, 333, 500, 999, 1_000, 1_001, 65_535];
    seen.note_value("share", plant.share(), &shares);
    let (mut left, mut apart) = ([false; 2], false);
    for (slot, &result) in results.iter().enumerate() {
        let (outside, inside) = (plant.outside(slot), plant.inside(slot));
        let matter = [0, 1, 1_000_000_000, 1_000_000_001];
        seen.note_value(&format!("reading {slot} outside"), outside, &matter);
        seen.note_value(&format!("reading {slot} inside"), inside, &matter);
        let part = 1_000u64.saturating_sub(u64::from(plant.share()));
        let [outside, inside] = [outside, inside].map(|reading| u64::from(reading) * part);
        left[usize::from((outside + inside) % 1_000 != 0)] = true;
        apart |= outside / 1_000 + inside / 1_000 != (outside + inside) / 1_000;
        seen.note(
            "result of a plant of 2,000,000,000",
            result == 2_000_000_000,
        );
    }
    let accepted = plant.share() <= 1_000;
    seen.note("plant without remainder", accepted && !left[1]);
    seen.note(
        "plant with remainder in some slots",
        accepted && left == [true; 2],
    );
    seen.note("plant with remainder in every slot", accepted && !left[0]);
    seen.note("plant whose readings apart give less", accepted && apart);
}

/// The points up to the first that is refused, then the total.
fn look_at_points(seen: &mut Seen, book: &[u8]) {
    let (head, calendar, points) = fields(book);
    let (refusal, mut state) = open(head, calendar);
    if refusal != 0 {
        return;
    }
    let plants = points.iter().filter(|point| point.0 == 5).count();
    seen.note("plants alone", plants > 0 && plants == points.len());
    seen.note("several plants", plants > 1);
    seen.note("plants among others", plants > 0 && plants < points.len());
    for (tag, value) in points {
        let after = look_at_point(seen, &state, tag, value);
        if after.points == state.points {
            return;
        }
        state = after;
    }
    let (refusal, figures) = close(&state);
    if refusal == 0 {
        for (side, here) in [("above", figures.total > 0), ("below", figures.total < 0)] {
            let rest = if here {
                figures.total.rem_euclid(3_000)
            } else {
                -1
            };
            seen.note_value(
                &format!("total {side} zero, remainder"),
                rest,
                &[0, 1, 2_999],
            );
        }
        seen.note_value("total", figures.total, &[-1, 0]);
        seen.note_value("expected", figures.expected, &[999, 1_000]);
    }
}

#[test]
fn points_walks_and_totals() {
    look_at_books(look_at_points).all_occur(192);
}

#[test]
fn cuts_at_every_byte_of_the_first_fields() {
    let mut lengths = BTreeSet::new();
    for number in 0..BOOKS {
        let SeededBook { damage, book, .. } = seeded_book(number);
        if damage.is_some_and(|damage| damage.starts_with("cut")) {
            lengths.insert(book.len());
        }
    }
    let first = 0..=WRITTEN_HEAD_LENGTH + FIRST_OF_POINT;
    let missing: Vec<usize> = first.filter(|length| !lengths.contains(length)).collect();
    assert!(missing.is_empty(), "{missing:?}");
}
