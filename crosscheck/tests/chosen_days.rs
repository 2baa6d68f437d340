//! The four days that the answer of adding tells (change request 2): in the
//! stored calls, by a second way and in every shape of the choice, and as all
//! that a baseline takes of the days back.

mod common;

use common::*;
use settlement::books::fields::{ConsumerFields, List, PointFields};
use settlement::books::lists::KINDS;
use settlement::books::random::Random;
use settlement::calls::vectors::stored_calls;
use settlement::calls::Call;
use settlement::days::{day_count, weekday};
use settlement::ledger::{open, State};
use std::collections::BTreeMap;

/// A stored adding: what it is given, its number and the days of its line.
struct Adding {
    state: State,
    tag: u8,
    value: Vec<u8>,
    refusal: u32,
    days: [u8; 4],
}

/// The days of an adding's line: four numbers between `last` and `places`.
fn days_of_line(line: &str) -> [u8; 4] {
    let (before, behind) = line.split_once(" days ").expect("the word days");
    let (days, _) = behind.split_once(" places").expect("the word places");
    let (before, last) = before.rsplit_once(' ').expect("a number");
    assert!(before.ends_with(" last") && last.len() == 44, "{line}");
    let days = days.split(' ').map(|day| day.parse().expect("a number"));
    let days: Vec<u8> = days.collect();
    days.try_into().expect("four numbers")
}

fn stored_addings() -> Vec<Adding> {
    let adding = |call: Call| {
        let (refusal, line) = call.answer();
        match call {
            Call::Adding {
                state, tag, value, ..
            } => Some(Adding {
                state,
                tag,
                value,
                refusal,
                days: days_of_line(&line),
            }),
            _ => None,
        }
    };
    stored_calls().into_iter().filter_map(adding).collect()
}

/// The count of a state's test day, if there is such a date.
fn test_day(state: &State) -> Option<u32> {
    let head = state.terms.head;
    day_count(head.year, head.month, head.day)
}

/// The eligible days with the window sums of a consumer's value, nearest first,
/// by stepping back and by the bytes.
fn eligible_with_sums(state: &State, value: &[u8]) -> Vec<Day> {
    let list = List {
        head: state.terms.head,
        marks: state.terms.marks,
        points: Vec::new(),
    };
    let sum = |back: u8| -> u64 {
        let first = 48 * usize::from(back) + usize::from(list.head.first_slot);
        let readings = value[23 + 4 * first..].chunks(4).take(6);
        let number = |bytes: &[u8]| u64::from(u32::from_be_bytes(bytes.try_into().unwrap()));
        readings.map(number).sum()
    };
    let eligible = naive_eligible(&list).into_iter();
    eligible.map(|back| (back, sum(back))).collect()
}

#[test]
fn every_stored_line_tells_the_days_due() {
    let mut told = 0;
    for adding in stored_addings() {
        let due = match (adding.refusal, adding.tag) {
            (0, 3) => naive_choice(eligible_with_sums(&adding.state, &adding.value)).unwrap(),
            _ => vec![0; 4],
        };
        assert_eq!(adding.days[..], due[..]);
        told += u32::from(due != [0; 4]);
    }
    assert!(told > 250, "{told}");
}

/// How often each shape was seen.
#[derive(Default)]
struct Shown(BTreeMap<String, u32>);

impl Shown {
    fn note(&mut self, shape: String) {
        *self.0.entry(shape).or_default() += 1;
    }

    /// Each of the shapes must have been seen.
    fn hold(&self, shapes: impl IntoIterator<Item = String>) {
        for shape in shapes {
            assert!(self.0.contains_key(&shape), "never: {shape}");
        }
    }

    /// The rounds of a walk, and the days standing after it.
    fn walk(&mut self, mut left: Vec<Day>) -> Vec<Day> {
        let eligible = left.len();
        let mut rounds = 0;
        while left.len() >= 5 {
            let together: u64 = left[..5].iter().map(|day| day.1).sum();
            let low = |place: usize| left[place].1 * 20 < together;
            let dropped: Vec<usize> = (0..5).filter(|&place| low(place)).collect();
            if dropped.is_empty() {
                break;
            }
            rounds += 1;
            self.note(format!("round {rounds} drops {dropped:?}"));
            for place in dropped.into_iter().rev() {
                left.remove(place);
            }
        }
        left.truncate(5);
        self.note(format!("{rounds} rounds"));
        let by = if rounds > 0 { "drops" } else { "the calendar" };
        self.note(format!("{} standing by {by}", left.len()));
        self.note(format!("{} standing of {eligible}", left.len()));
        left
    }

    /// The places of the lowest sum among five standing days.
    fn lowest(&mut self, standing: &[Day]) {
        let lowest = standing.iter().map(|day| day.1).min();
        let is_lowest = |&place: &usize| Some(standing[place].1) == lowest;
        let places: Vec<usize> = (0..standing.len()).filter(is_lowest).collect();
        if standing.len() == 5 {
            self.note(format!("lowest {places:?}"));
        }
    }

    /// What lies between the days told of an accepted consumer.
    fn between(&mut self, adding: &Adding, eligible: &[Day], standing: &[Day]) {
        let [nearest, .., farthest] = adding.days;
        let test_day = test_day(&adding.state).unwrap();
        let among = |days: &[Day], back: u8| days.iter().any(|day| day.0 == back);
        for back in nearest..farthest {
            let mark = adding.state.terms.marks[usize::from(back) - 1];
            let between = match weekday(test_day - u32::from(back)) {
                _ if adding.days.contains(&back) => continue,
                0 | 1 => format!("a weekend with mark {mark}"),
                _ if mark > 0 => format!("a working day with mark {mark}"),
                _ if among(standing, back) => "the lowest of five".to_string(),
                _ if among(eligible, back) => "a dropped day".to_string(),
                _ => panic!("{back}: nothing keeps it out"),
            };
            self.note(format!("between: {between}"));
        }
    }

    /// The days told of an accepted consumer.
    fn told(&mut self, adding: &Adding, eligible: &[Day], standing: &[Day]) {
        let (nearest, farthest) = (adding.days[0], adding.days[3]);
        let weekday = weekday(test_day(&adding.state).unwrap());
        self.note(format!("weekday {weekday}"));
        for day in adding.days {
            self.note(format!("day {day}"));
        }
        let count = standing.len();
        self.note(format!("{count} standing, nearest {nearest}"));
        self.note(format!("{count} standing, farthest {farthest}"));
        let told = eligible.iter().filter(|day| adding.days.contains(&day.0));
        let sums: Vec<u64> = told.map(|day| day.1).collect();
        let (rising, falling) = (sums.is_sorted(), sums.iter().rev().is_sorted());
        self.note(format!("sums rising {rising}, falling {falling}"));
        let first = adding.state.points == 0;
        self.note(format!("first point {first}"));
    }

    /// The days that return to an accepted consumer.
    fn returned(&mut self, adding: &Adding, eligible: &[Day], standing: &[Day]) {
        let told = |day: &Day| adding.days.contains(&day.0);
        let dropped = eligible.iter().filter(|day| !standing.contains(day));
        let (returned, away): (Vec<Day>, Vec<Day>) = dropped.copied().partition(told);
        if standing.len() >= 4 {
            return assert!(returned.is_empty());
        }
        self.note(format!("{} return", returned.len()));
        let first_five = |day: &Day| eligible[..5].contains(day);
        let places: Vec<usize> = (0..eligible.len())
            .filter(|&place| returned.contains(&eligible[place]))
            .collect();
        if eligible.len() == 5 {
            self.note(format!("of five return {places:?}"));
        }
        let near = returned.iter().filter(|day| first_five(day)).count();
        let behind = returned.len() - near;
        self.note(format!(
            "return of the five {}, behind {}",
            near > 0,
            behind > 0
        ));
        let any_away = |test: &dyn Fn(&Day) -> bool| away.iter().any(test);
        let equal = |day: &Day| returned.iter().any(|other| other.1 == day.1);
        let higher = |day: &Day| standing.iter().any(|other| other.1 < day.1);
        self.note(format!("away: equal {}", any_away(&equal)));
        self.note(format!(
            "away: higher than a standing one {}",
            any_away(&higher)
        ));
    }

    /// An adding of a point that is no consumer, or a refused one.
    fn other(&mut self, adding: &Adding) {
        let tag = adding.tag;
        let enough = adding.state.terms.eligible_days().len() >= 4;
        if adding.refusal == 0 && enough {
            self.note(format!("tag {tag} accepted on enough days"));
        }
        let whole = adding.value.len() >= 5_974; // the last byte is of day 30, slot 47
        if adding.refusal > 0 && whole && test_day(&adding.state).is_some() {
            let days = eligible_with_sums(&adding.state, &adding.value);
            let refusal = adding.refusal;
            let standing = naive_standing(days.clone()).len();
            match naive_choice(days) {
                Some(_) if standing < 4 => self.note(format!("{refusal} with days to return")),
                Some(_) => self.note(format!("{refusal} with four days")),
                None => self.note(format!("{refusal} without")),
            }
        }
    }

    fn look_at(&mut self, adding: &Adding) {
        if adding.tag != 3 || ![0, 18].contains(&adding.refusal) {
            return self.other(adding);
        }
        let eligible = eligible_with_sums(&adding.state, &adding.value);
        let standing = self.walk(eligible.clone());
        self.note(format!(
            "{} with {} eligible",
            adding.refusal,
            eligible.len()
        ));
        if adding.refusal == 0 {
            self.returned(adding, &eligible, &standing);
            self.lowest(&standing);
            self.told(adding, &eligible, &standing);
            self.between(adding, &eligible, &standing);
        }
    }
}

fn shown_by_stored_calls() -> Shown {
    let mut shown = Shown::default();
    for adding in stored_addings() {
        shown.look_at(&adding);
    }
    shown
}

/// Every set of the five places but that of none, and that of all if it is not
/// wanted.
fn sets_of_five(all: bool) -> Vec<Vec<usize>> {
    let last = if all { 31 } else { 30 };
    let places = |set: u32| (0..5).filter(|place| set >> place & 1 == 1).collect();
    (1..=last).map(places).collect()
}

#[test]
fn every_walk_of_the_stored_calls() {
    let shown = shown_by_stored_calls();
    shown.hold(
        sets_of_five(true)
            .iter()
            .map(|set| format!("lowest {set:?}")),
    );
    let first_rounds = sets_of_five(false);
    shown.hold(
        first_rounds
            .iter()
            .map(|set| format!("round 1 drops {set:?}")),
    );
    shown.hold((0..=5).map(|rounds| format!("{rounds} rounds")));
    shown.hold((0..=5).map(|standing| format!("{standing} standing by the calendar")));
    shown.hold((1..=5).map(|standing| format!("{standing} standing by drops")));
    for eligible in [5, 6] {
        shown.hold((3..=5).map(|standing| format!("{standing} standing of {eligible}")));
    }
    shown.hold((2..=6).map(|weekday| format!("weekday {weekday}")));
}

#[test]
fn every_return_of_the_stored_calls() {
    let shown = shown_by_stored_calls();
    shown.hold((1..=3).map(|days| format!("{days} return")));
    let of_five = sets_of_five(false).into_iter().filter(|set| set.len() < 4);
    shown.hold(of_five.map(|set| format!("of five return {set:?}")));
    for (five, behind) in [(true, false), (false, true), (true, true)] {
        shown.hold([format!("return of the five {five}, behind {behind}")]);
    }
    for seen in [true, false] {
        shown.hold([format!("away: equal {seen}")]);
        shown.hold([format!("away: higher than a standing one {seen}")]);
    }
    shown.hold((0..=3).map(|eligible| format!("18 with {eligible} eligible")));
    shown.hold((4..=8).map(|eligible| format!("0 with {eligible} eligible")));
    let refusals = (9..=16).chain([51, 52]);
    shown.hold(refusals.map(|refusal| format!("{refusal} with days to return")));
}

#[test]
fn every_day_told_by_the_stored_calls() {
    let shown = shown_by_stored_calls();
    shown.hold((1..=30).map(|day| format!("day {day}")));
    shown.hold([4, 5].map(|standing| format!("{standing} standing, farthest 30")));
    shown.hold([1, 2, 3].map(|nearest| format!("5 standing, nearest {nearest}")));
    shown.hold([1, 26, 27].map(|nearest| format!("4 standing, nearest {nearest}")));
    for mark in 0..=3 {
        shown.hold([format!("between: a weekend with mark {mark}")]);
    }
    for mark in 1..=3 {
        shown.hold([format!("between: a working day with mark {mark}")]);
    }
    let between = ["the lowest of five", "a dropped day"];
    shown.hold(between.map(|between| format!("between: {between}")));
    for (rising, falling) in [(false, false), (true, false), (false, true)] {
        shown.hold([format!("sums rising {rising}, falling {falling}")]);
    }
    shown.hold([true, false].map(|first| format!("first point {first}")));
}

#[test]
fn every_refusal_of_the_stored_calls_with_four_days() {
    let shown = shown_by_stored_calls();
    let refusals = (9..=16).chain([51, 52]);
    shown.hold(refusals.map(|refusal| format!("{refusal} with four days")));
    shown.hold([4, 5].map(|tag| format!("tag {tag} accepted on enough days")));
}

/// The seeded lists whose first point is an accepted consumer: the list, the
/// consumer, the days told and the results.
fn accepted_consumers() -> Vec<(List, ConsumerFields, [u8; 4], [i64; 6])> {
    let mut random = Random::new(30);
    let mut accepted = Vec::new();
    for (_, make) in KINDS.iter().cycle().take(40 * KINDS.len()) {
        let list = make(&mut random);
        let (_, state) = open(&list.head.value(), &list.marks);
        let point = list.points[0].clone();
        let (number, _, results) = add_point(&state, &point);
        if let (0, PointFields::Consumer(consumer)) = (number, &point) {
            let days = days_told(&state, &point);
            accepted.push((list.clone(), consumer.clone(), days, results));
        }
    }
    accepted
}

#[test]
fn the_days_told_make_the_baseline() {
    let accepted = accepted_consumers();
    assert!(accepted.len() > 400, "{}", accepted.len());
    for (list, mut consumer, days, results) in accepted {
        let exact = naive_results_of_days(&list, &mut consumer, &days);
        let floors: Vec<i64> = exact.iter().map(|result| result.floor() as i64).collect();
        assert_eq!(results[..], floors[..]);
    }
}

/// Other readings on all days back but these; the window sums stay.
fn change_other_days(random: &mut Random, list: &List, consumer: &mut ConsumerFields, days: &[u8]) {
    let window = usize::from(list.head.first_slot)..usize::from(list.head.first_slot) + 6;
    for back in (1..=30).filter(|back| !days.contains(back)) {
        for slot in (0..48).filter(|slot| !window.contains(slot)) {
            *consumer.reading(usize::from(back), slot) = random.between(0, 1_000_000_000);
        }
        let readings = consumer.window(usize::from(back), list.head.first_slot);
        readings.rotate_left(1 + usize::from(back) % 5);
    }
}

#[test]
fn nothing_else_of_the_days_back_makes_it() {
    let mut random = Random::new(26);
    let mut changed = 0;
    for (list, mut consumer, days, results) in accepted_consumers() {
        let before = consumer.clone();
        change_other_days(&mut random, &list, &mut consumer, &days);
        changed += u32::from(before != consumer);
        let (_, state) = open(&list.head.value(), &list.marks);
        let point = PointFields::Consumer(consumer);
        assert_eq!(days_told(&state, &point), days);
        assert_eq!(add_point(&state, &point).2, results);
    }
    assert!(changed > 400, "{changed}");
}

#[test]
fn a_change_of_a_told_day_is_seen() {
    let mut seen = 0;
    for (list, mut consumer, days, results) in accepted_consumers() {
        let (_, state) = open(&list.head.value(), &list.marks);
        let farthest = usize::from(days[3]);
        let earlier = consumer.earlier(farthest, list.head.first_slot);
        earlier.iter_mut().for_each(|reading| *reading /= 2);
        let point = PointFields::Consumer(consumer);
        assert_eq!(days_told(&state, &point), days);
        seen += u32::from(add_point(&state, &point).2 != results);
    }
    assert!(seen > 300, "{seen}");
}
