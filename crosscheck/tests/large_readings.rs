//! Which reading is too large (change request 3): the number and the index that
//! adding and writing a point tell, in the stored calls by a second way and in
//! every shape, at every place, and as one reading after the other is set right.

mod common;

use common::*;
use settlement::account::Account;
use settlement::book::settle;
use settlement::books::fields::{List, PointFields};
use settlement::books::lending::{lent_bytes, to_write};
use settlement::books::random::Random;
use settlement::books::seeded_book;
use settlement::calls::vectors::stored_calls;
use settlement::calls::Call;
use settlement::ledger::{add, State};
use settlement::text::settle_book_text;
use settlement::writing::write_point;
use std::collections::{BTreeMap, BTreeSet};

/// The highest reading that is allowed.
const HIGHEST: u32 = 1_000_000_000;

/// A stored adding or writing of a point: what it is given, and the number and
/// index of its line.
struct Line {
    operation: &'static str,
    /// The state of an adding.
    state: Option<State>,
    tag: u8,
    value: Vec<u8>,
    /// The lent bytes of a writing.
    lent: usize,
    told: (u32, u32),
}

/// Number and index of a line, between the words given.
fn number_and_index(line: &str, before: &str, behind: &str) -> (u32, u32) {
    let line = line.strip_prefix(before).expect("the operation");
    let (numbers, _) = line.split_once(behind).expect("the word behind");
    let (number, index) = numbers.split_once(" index ").expect("the word index");
    let number_of = |word: &str| word.parse().expect("a number");
    (number_of(number), number_of(index))
}

/// The stored addings and writings of points. No other line has an index.
fn stored_lines() -> Vec<Line> {
    let mut lines = Vec::new();
    for call in stored_calls() {
        let (refusal, line) = call.answer();
        let line = match call {
            Call::Adding {
                state, tag, value, ..
            } => Line {
                operation: "adding",
                state: Some(state),
                tag,
                value,
                lent: 0,
                told: number_and_index(&line, "adding ", " year "),
            },
            Call::WritingPoint { tag, value, lent } => Line {
                operation: "writing",
                state: None,
                tag,
                value,
                lent: lent.len(),
                told: number_and_index(&line, "writing point ", " lent"),
            },
            _ => {
                assert!(!line.contains("index"), "{line}");
                continue;
            }
        };
        assert_eq!(line.told.0, refusal);
        lines.push(line);
    }
    lines
}

#[test]
fn every_stored_line_tells_the_index_due() {
    let mut told: BTreeMap<(&str, u32), u32> = BTreeMap::new();
    for line in stored_lines() {
        let (number, _) = line.told;
        let due = with_index_due(number, line.tag, &line.value);
        assert_eq!(line.told, due, "{}", line.operation);
        if [0, 18, 40].contains(&number) {
            assert_eq!(naive_large_reading(line.tag, &line.value), None);
        }
        *told.entry((line.operation, number)).or_default() += 1;
    }
    for operation in ["adding", "writing"] {
        assert!(told[&(operation, 51)] > 300, "{told:?}");
        assert!(told[&(operation, 52)] > 40, "{told:?}");
        assert!(!told.contains_key(&(operation, 17)));
    }
}

/// The kind of a value by its length, a byte more or less allowed, with the
/// place where its readings begin.
fn kind_of(value: &[u8]) -> Option<(&'static str, usize)> {
    match value.len() {
        5_974..=5_976 => Some(("consumer", 23)),
        49..=51 => Some(("generator", 26)),
        71..=73 => Some(("plant", 24)),
        _ => None,
    }
}

/// The large readings of a value with their places, from its front on.
fn large_of(value: &[u8], begin: usize) -> Vec<(usize, u32)> {
    let readings = value[begin..].chunks_exact(4).enumerate();
    let number = |bytes: &[u8]| {
        bytes
            .iter()
            .fold(0, |high, &low| high << 8 | u32::from(low))
    };
    readings
        .map(|(place, bytes)| (place, number(bytes)))
        .filter(|&(_, reading)| reading > HIGHEST)
        .collect()
}

/// The shapes that were seen.
#[derive(Default)]
struct Shown(BTreeSet<String>);

impl Shown {
    fn note(&mut self, operation: &str, shape: String) {
        self.0.insert(format!("{operation} {shape}"));
    }

    /// Each of the shapes must have been seen in both operations.
    fn hold(&self, shapes: impl IntoIterator<Item = String>) {
        for shape in shapes {
            for operation in ["adding", "writing"] {
                self.hold_of(operation, &shape);
            }
        }
    }

    fn hold_of(&self, operation: &str, shape: &str) {
        let shape = format!("{operation} {shape}");
        assert!(self.0.contains(&shape), "never: {shape}");
    }

    fn look_at(&mut self, line: &Line) {
        let Some((kind, begin)) = kind_of(&line.value) else {
            return;
        };
        let large = large_of(&line.value, begin);
        match line.told.0 {
            51 | 52 => self.large(line, kind, &large),
            number if large.first().is_some_and(|&(place, _)| place > 0) => {
                self.note(line.operation, format!("{kind} {number} beside"));
            }
            number => {
                let beside = [[0x3B, 0x9A, 0xCA, 0x00]; 6].concat();
                if line.value.ends_with(&beside) {
                    self.note(line.operation, format!("{kind} {number} at the highest"));
                }
            }
        }
    }

    /// A line of 51 or 52.
    fn large(&mut self, line: &Line, kind: &str, large: &[(usize, u32)]) {
        let (number, index) = line.told;
        let name = format!("{kind} {number}");
        let (first, behind) = (large[0].1, &large[1..]);
        if behind.is_empty() {
            let more = first - HIGHEST;
            self.note(line.operation, format!("{name} at {index} by {more}"));
        }
        for &(place, reading) in behind {
            let of_days_back = kind == "consumer" && place > 47;
            let case = if of_days_back { 52 } else { 51 };
            let order = if reading > first { "higher" } else { "lower" };
            self.note(line.operation, format!("{name}, then a {order} {case}"));
        }
        if index > 255 {
            self.note(line.operation, format!("{name} beyond a byte"));
        }
        let state = line.state.as_ref();
        if state.is_some_and(|state| state.terms.eligible_days().len() < 4) {
            self.note(line.operation, format!("{name} with too few days"));
        }
        if state.is_none() {
            let enough = line.lent >= 3 + line.value.len();
            let room = if enough { "enough" } else { "too few" };
            self.note(line.operation, format!("{name} with {room} lent bytes"));
        }
    }
}

fn shown_by_stored_calls() -> Shown {
    let mut shown = Shown::default();
    for line in stored_lines() {
        shown.look_at(&line);
    }
    shown
}

#[test]
fn every_place_of_the_stored_calls() {
    let shown = shown_by_stored_calls();
    for more in [1, u32::MAX - HIGHEST] {
        shown.hold([0, 47].map(|place| format!("consumer 51 at {place} by {more}")));
        shown.hold([48, 1_487].map(|place| format!("consumer 52 at {place} by {more}")));
        shown.hold((0..6).map(|place| format!("generator 51 at {place} by {more}")));
        shown.hold((0..12).map(|place| format!("plant 51 at {place} by {more}")));
    }
    for order in ["higher", "lower"] {
        let kinds = ["consumer 51", "generator 51", "plant 51"];
        shown.hold(kinds.map(|kind| format!("{kind}, then a {order} 51")));
        let kinds = ["consumer 51", "consumer 52"];
        shown.hold(kinds.map(|kind| format!("{kind}, then a {order} 52")));
    }
    shown.hold(["consumer 52 beyond a byte".to_string()]);
    for never in [
        "generator 52",
        "plant 52",
        "52, then a higher 51",
        "52, then a lower 51",
    ] {
        assert!(!shown.0.iter().any(|shape| shape.contains(never)));
    }
}

#[test]
fn every_other_refusal_of_the_stored_calls() {
    let shown = shown_by_stored_calls();
    for (kind, at_16) in [("consumer", 16), ("generator", 16), ("plant", 50)] {
        for number in (9..=15).chain([at_16]) {
            shown.hold_of("adding", &format!("{kind} {number} beside"));
        }
        for number in [11, 12, 14, at_16] {
            shown.hold_of("writing", &format!("{kind} {number} beside"));
        }
        shown.hold([format!("{kind} 0 at the highest")]);
        shown.hold_of("writing", &format!("{kind} 40 at the highest"));
    }
    shown.hold_of("adding", "consumer 18 at the highest");
    for number in [51, 52] {
        shown.hold_of("adding", &format!("consumer {number} with too few days"));
        for room in ["too few", "enough"] {
            let shape = format!("consumer {number} with {room} lent bytes");
            shown.hold_of("writing", &shape);
        }
    }
}

/// What adding and writing a point tell, which is the same here.
fn told_by_both(point: &PointFields) -> (u32, u32) {
    let (tag, value) = (point.tag(), point.value());
    let state = opened(&list_of_count(1));
    let added = add(&state, tag, &value, &mut [UNWRITTEN; 6]);
    let written = write_point(tag, &value, &mut vec![0; written_length(point)]);
    assert_eq!(
        (added.refusal, added.index),
        (written.refusal, written.index)
    );
    (added.refusal, added.index)
}

/// What is due where the first large reading of a kind stands at a place.
fn due_at(tag: u8, place: usize) -> (u32, u32) {
    let number = if tag == 3 && place > 47 { 52 } else { 51 };
    (number, place as u32)
}

#[test]
fn one_large_reading_at_every_place() {
    for mut point in a_point_of_each_kind(1) {
        assert_eq!(told_by_both(&point), (0, 0));
        for place in 0..point.readings().len() {
            let before = point.readings()[place];
            for large in [HIGHEST + 1, u32::MAX] {
                point.readings()[place] = large;
                assert_eq!(told_by_both(&point), due_at(point.tag(), place));
            }
            point.readings()[place] = before;
        }
        point.readings().fill(HIGHEST);
        assert_eq!(told_by_both(&point), (0, 0));
    }
}

#[test]
fn the_first_of_two_large_readings() {
    let places = [
        0, 1, 5, 6, 11, 26, 46, 47, 48, 49, 95, 96, 743, 1_486, 1_487,
    ];
    for mut point in a_point_of_each_kind(1) {
        let readings = point.readings().len();
        let places: Vec<usize> = places.into_iter().filter(|&at| at < readings).collect();
        for (order, &first) in places.iter().enumerate() {
            for &second in &places[order + 1..] {
                for (one, other) in [(HIGHEST + 1, u32::MAX), (u32::MAX, HIGHEST + 1)] {
                    let mut point = point.clone();
                    point.readings()[first] = one;
                    point.readings()[second] = other;
                    assert_eq!(told_by_both(&point), due_at(point.tag(), first));
                }
            }
        }
    }
}

/// Good points, and the places of up to forty readings that become large.
fn points_and_places() -> Vec<(PointFields, BTreeSet<usize>)> {
    let mut random = Random::new(51);
    let mut points = Vec::new();
    for _ in 0..200 {
        for mut point in a_point_of_each_kind(1) {
            let readings = point.readings().len();
            let mut places = BTreeSet::new();
            for _ in 0..random.between(0, 40) {
                let (near, any) = (random.place(readings.min(60)), random.place(readings));
                places.insert(random.one_of(&[near, any]));
            }
            points.push((point, places));
        }
    }
    points
}

/// Set right in the order in which they are told, the readings are told one
/// after the other from the front; 52 says that the test day is clean.
#[test]
fn each_large_reading_is_told_once() {
    let mut random = Random::new(52);
    let mut both_cases = 0;
    for (mut good, places) in points_and_places() {
        let mut point = good.clone();
        for &place in &places {
            point.readings()[place] = random.between(HIGHEST + 1, u32::MAX);
        }
        let mut told = Vec::new();
        while let (number @ 51.., index) = told_by_both(&point) {
            let place = index as usize;
            told.push((number, index));
            point.readings()[place] = good.readings()[place];
        }
        assert_eq!(told_by_both(&point), (0, 0));
        let due = places.iter().map(|&place| due_at(good.tag(), place));
        assert!(told.iter().copied().eq(due));
        let numbers: BTreeSet<u32> = told.iter().map(|told| told.0).collect();
        both_cases += u32::from(numbers.len() == 2);
    }
    assert!(both_cases > 100, "{both_cases}");
}

/// A list of one consumer with a large reading.
fn list_with_large(place: usize) -> List {
    let mut list = list_of_count(1);
    let mut point = level_consumer(1);
    point.readings()[place] = HIGHEST + 1;
    list.push(point);
    list
}

#[test]
fn the_whole_book_gives_the_number_alone() {
    for (place, due) in [(0, 51), (30, 51), (47, 51), (48, 52), (1_487, 52)] {
        let book = list_with_large(place).book();
        let mut result = lent_bytes(64);
        assert_eq!(settle(&book, &mut result), due);
        assert_eq!(result, lent_bytes(64));
        assert_eq!(settle_book_text(&book), format!("refused {due}\n"));
    }
}

#[test]
fn the_account_refuses_both_cases() {
    for place in [0, 47, 48, 1_487] {
        let list = list_with_large(place);
        let mut account = Account::opening(&list.head.value(), &list.marks);
        let value = list.points[0].value();
        assert!(account.adding(3, &value, 6).is_none());
        assert!(account.adding(3, &level_consumer(1).value(), 6).is_some());
    }
}

#[test]
fn seventeen_is_given_by_nothing() {
    let mut given = BTreeSet::new();
    for call in stored_calls() {
        given.insert(call.answer().0);
    }
    for number in 0..20_000 {
        let book = seeded_book(number).book;
        given.insert(settle(&book, &mut lent_bytes(64)));
        let write = to_write(&book, number);
        let mut lent = lent_bytes(write.room);
        let told = write_point(write.tag, write.value, &mut lent);
        if ![51, 52].contains(&told.refusal) {
            assert_eq!(told.index, 0);
        }
        given.insert(told.refusal);
        assert_ne!(settle_book_text(&book), "refused 17\n");
    }
    assert!(!given.contains(&17));
    assert!([50, 51, 52].iter().all(|number| given.contains(number)));
}
