//! Every refusal of opening, adding, closing and writing: at its boundary, in
//! its order, and with nothing written.

mod common;

use common::*;
use settlement::books::fields::*;
use settlement::ledger::{add, close, open, Added, Figures, State};
use settlement::refusals::Told;
use settlement::terms::Terms;
use settlement::writing::{write_head, write_point};

/// A refusal with what brings it about.
type Fault<T> = (u32, fn(&mut T));

/// Every pair of faults told apart: the first of the table is told.
fn assert_order<T: Clone>(faultless: &T, faults: &[Fault<T>], answer: impl Fn(&T) -> u32) {
    assert_eq!(answer(faultless), 0);
    for (order, (number, fault)) in faults.iter().enumerate() {
        let mut single = faultless.clone();
        fault(&mut single);
        assert_eq!(answer(&single), *number);
        for (later_number, later_fault) in &faults[order + 1..] {
            let mut both = faultless.clone();
            later_fault(&mut both);
            fault(&mut both);
            assert_eq!(answer(&both), *number, "{number} before {later_number}");
        }
    }
}

/// What opening takes, and the bytes lent to writing.
#[derive(Clone)]
struct Opening {
    head: Vec<u8>,
    calendar: Vec<u8>,
    lent: usize,
}

fn opening() -> Opening {
    Opening {
        head: Head::EXAMPLE_M.value(),
        calendar: vec![0; 30],
        lent: 60,
    }
}

/// Faults in the order of document 01; 40 is told by writing alone.
const OPENING_FAULTS: [Fault<Opening>; 9] = [
    (1, |opening| opening.calendar.push(0)),
    (2, |opening| opening.head[2] = 13),
    (3, |opening| opening.head[3] = 3),
    (4, |opening| opening.head[4] = 35),
    (5, |opening| opening.head[9] = 0xFF),
    (6, |opening| opening.head[14] -= 1),
    (7, |opening| opening.head[16] = 0),
    (8, |opening| opening.calendar[29] = 4),
    (40, |opening| opening.lent = 52),
];

/// "A refused opening gives a state of zeros".
const ZEROS: State = State {
    terms: Terms {
        head: Head {
            year: 0,
            month: 0,
            day: 0,
            first_slot: 0,
            losses: [0; 3],
            contract: 0,
            count: 0,
        },
        marks: [0; 30],
    },
    points: 0,
    totals: [0; 6],
    last: [0; 22],
};

/// The answer of opening; a refused one must give a state of zeros.
fn answer_of_opening(opening: &Opening) -> u32 {
    let (number, state) = open(&opening.head, &opening.calendar);
    assert_eq!(state == ZEROS, number != 0);
    number
}

#[test]
fn opening_tells_the_first_refusal() {
    assert_order(&opening(), &OPENING_FAULTS[..8], answer_of_opening);
}

#[test]
fn opening_gives_no_points_and_no_last_number() {
    let mut list = List::new(Head::EXAMPLE_M);
    list.head.losses = [1, 2, 5_000];
    list.head.contract = 0x0012_3456;
    list.head.count = 0x0203;
    for (mark, value) in list.marks.iter_mut().zip([0, 1, 2, 3].into_iter().cycle()) {
        *mark = value;
    }
    let state = opened(&list);
    let due = State {
        terms: Terms {
            head: Head {
                year: 2024,
                month: 8,
                day: 7,
                first_slot: 26,
                losses: [1, 2, 5_000],
                contract: 0x0012_3456,
                count: 0x0203,
            },
            marks: list.marks,
        },
        points: 0,
        totals: [0; 6],
        last: [b'0'; 22],
    };
    assert_eq!(state, due);
}

#[test]
fn opening_refuses_other_lengths() {
    for head in 0..40 {
        for calendar in [0, 17, 29, 30, 31, 60] {
            let mut opening = opening();
            opening.head.resize(head, 0);
            opening.calendar.resize(calendar, 0);
            let due = if head == 17 && calendar == 30 { 0 } else { 1 };
            assert_eq!(answer_of_opening(&opening), due);
        }
    }
}

/// The answer of opening to a changed head of example M.
fn answer_to_head(change: impl Fn(&mut Head)) -> u32 {
    let mut head = Head::EXAMPLE_M;
    change(&mut head);
    open(&head.value(), &[0; 30]).0
}

#[test]
fn opening_at_the_edges_of_the_dates() {
    let dates = [
        ((2019, 12, 31), 2),
        ((2020, 1, 1), 0),
        ((2099, 12, 31), 0),
        ((2100, 1, 1), 2),
        ((2019, 12, 28), 2), // a Saturday out of range
        ((2100, 1, 2), 2),   // a Saturday out of range
        ((2024, 2, 29), 0),
        ((2024, 2, 30), 2),
        ((2023, 2, 28), 0),
        ((2023, 2, 29), 2),
        ((2024, 8, 2), 0),
        ((2024, 8, 3), 3),
        ((2024, 8, 4), 3),
        ((2024, 8, 5), 0),
        ((2024, 0, 5), 2),
        ((2024, 8, 0), 2),
        ((2024, 7, 31), 0),
        ((2024, 6, 31), 2),
        ((2024, 12, 32), 2),
    ];
    for (date, due) in dates {
        let number = answer_to_head(|head| (head.year, head.month, head.day) = date);
        assert_eq!(number, due, "{date:?}");
    }
}

#[test]
fn opening_at_the_edges_of_the_numbers() {
    for (first_slot, due) in [(0, 4), (17, 4), (18, 0), (34, 0), (35, 4), (255, 4)] {
        assert_eq!(answer_to_head(|head| head.first_slot = first_slot), due);
    }
    for class in 0..3 {
        for (loss, due) in [(0, 0), (5_000, 0), (5_001, 5), (10_000, 5), (65_535, 5)] {
            assert_eq!(answer_to_head(|head| head.losses[class] = loss), due);
        }
    }
    let contracts = [
        (0, 0),
        (1, 6),
        (999, 6),
        (1_000, 0),
        (10_000_000, 0),
        (10_000_001, 6),
        (u32::MAX, 6),
    ];
    for (contract, due) in contracts {
        assert_eq!(answer_to_head(|head| head.contract = contract), due);
    }
    for (count, due) in [(0, 7), (1, 0), (10_000, 0), (10_001, 7), (65_535, 7)] {
        assert_eq!(answer_to_head(|head| head.count = count), due);
    }
}

#[test]
fn opening_refuses_a_mark_above_3_on_any_day() {
    for day in 0..30 {
        for (mark, due) in [(3, 0), (4, 8), (255, 8)] {
            let mut opening = opening();
            opening.calendar[day] = mark;
            assert_eq!(answer_of_opening(&opening), due);
        }
    }
}

/// What adding takes, and the bytes lent to writing.
#[derive(Clone)]
struct Adding {
    state: State,
    tag: u8,
    value: Vec<u8>,
    places: usize,
    lent: usize,
}

/// An adding of a point to a test with one of three points taken, number 5.
fn adding_of(point: PointFields) -> Adding {
    let (_, state, _) = add_point(&opened(&list_of_count(3)), &generator(5, 0, 1));
    Adding {
        state,
        tag: point.tag(),
        value: point.value(),
        places: 6,
        lent: 6_000,
    }
}

/// The answer of adding; a refused one must leave places and state alone, only
/// an accepted consumer has days to tell, and only 51 and 52 have an index.
fn answer_of_adding(adding: &Adding) -> u32 {
    let mut places = vec![UNWRITTEN; adding.places];
    let Added {
        refusal: number,
        index,
        state,
        days,
    } = add(&adding.state, adding.tag, &adding.value, &mut places);
    let due = with_index_due(number, adding.tag, &adding.value);
    assert_eq!((number, index), due);
    if number == 0 {
        assert_eq!(state.points, adding.state.points + 1);
        assert_eq!(state.last[..], adding.value[..22]);
        for (slot, result) in places.iter().enumerate() {
            assert_ne!(*result, UNWRITTEN);
            assert_eq!(state.totals[slot], adding.state.totals[slot] + result);
        }
        assert_eq!(days == [0; 4], adding.tag != 3);
    } else {
        assert_eq!(state, adding.state);
        assert_eq!(places, vec![UNWRITTEN; adding.places]);
        assert_eq!(days, [0; 4]);
    }
    number
}

/// Faults in the order of document 01, for all kinds alike but for 16 and 50,
/// which are one place, and 52 and 18, which only a consumer has; 40 is told by
/// writing alone.
const ADDING_FAULTS: [Fault<Adding>; 13] = [
    (9, |adding| adding.state.terms.head.first_slot = 35),
    (10, |adding| adding.state.points = 3),
    (11, |adding| adding.tag = 6),
    (12, |adding| adding.value.truncate(49)),
    (13, |adding| adding.places = 7),
    (14, |adding| adding.value[0] = b'/'),
    (15, |adding| {
        adding.value[..22].copy_from_slice(&point_number(5))
    }),
    (16, |adding| adding.value[22] = 0xFF), // class, or baseline's high byte
    (50, |adding| adding.value[22] = 0xFF), // share's high byte
    (51, |adding| adding.value[46..49].fill(0xFF)), // a reading's high byte
    (52, |adding| adding.value[5_971] = 0xFF), // that of a consumer's last reading
    (18, |adding| adding.state.terms.marks = [1; 30]),
    (40, |adding| adding.lent = 52),
];

/// The faults with the numbers given.
fn faults_of(numbers: &[u32]) -> Vec<Fault<Adding>> {
    let named = |fault: &&Fault<Adding>| numbers.contains(&fault.0);
    ADDING_FAULTS.iter().filter(named).copied().collect()
}

#[test]
fn adding_a_consumer_tells_the_first_refusal() {
    let faults = faults_of(&[9, 10, 11, 12, 13, 14, 15, 16, 51, 52, 18]);
    assert_order(&adding_of(level_consumer(7)), &faults, answer_of_adding);
}

#[test]
fn adding_a_generator_tells_the_first_refusal() {
    let faults = faults_of(&[9, 10, 11, 12, 13, 14, 15, 16, 51]);
    assert_order(&adding_of(generator(7, 0, 1)), &faults, answer_of_adding);
}

#[test]
fn adding_a_plant_tells_the_first_refusal() {
    let faults = faults_of(&[9, 10, 11, 12, 13, 14, 15, 50, 51]);
    assert_order(&adding_of(plant(7, 500, 1, 1)), &faults, answer_of_adding);
}

#[test]
fn adding_a_generator_or_a_plant_needs_no_days() {
    for point in [generator(7, 0, 100), plant(7, 1, 100, 0)] {
        let mut adding = adding_of(point);
        adding.state.terms.marks = [1; 30];
        assert_eq!(answer_of_adding(&adding), 0);
    }
}

#[test]
fn a_plant_is_one_point() {
    let state = opened(&list_of_count(2));
    let (_, state, _) = add_point(&state, &plant(1, 500, 400, 600));
    assert_eq!((state.points, state.totals), (1, [500; 6]));
    assert_eq!(state.last, point_number(1));
    assert_eq!(close(&state).0, 20);
    let (number, state, _) = add_point(&state, &plant(2, 0, 1, 2));
    assert_eq!((number, state.points, state.totals), (0, 2, [503; 6]));
    let (number, figures) = close(&state);
    assert_eq!((number, figures.points, figures.total), (0, 2, 3_018));
    assert_eq!(add_point(&state, &plant(3, 0, 1, 2)).0, 10);
}

#[test]
fn adding_when_the_count_is_reached() {
    let mut state = opened(&list_of_count(2));
    for (number, due) in [(1, 0), (2, 0), (3, 10), (4, 10)] {
        let (answer, after, _) = add_point(&state, &generator(number, 0, 1));
        assert_eq!(answer, due);
        state = after;
    }
    assert_eq!(state.points, 2);
    assert_eq!(state.last, point_number(2));
}

#[test]
fn adding_knows_three_tags() {
    for tag in 0..=255 {
        for point in a_point_of_each_kind(7) {
            let mut adding = adding_of(point);
            let due = match tag {
                3..=5 if tag == adding.tag => 0,
                3..=5 => 12,
                _ => 11,
            };
            adding.tag = tag;
            assert_eq!(answer_of_adding(&adding), due);
        }
    }
}

#[test]
fn adding_refuses_other_lengths_and_places() {
    let lengths = [
        0, 1, 21, 22, 49, 50, 51, 71, 72, 73, 5_974, 5_975, 5_976, 70_000,
    ];
    for point in a_point_of_each_kind(7) {
        let right = adding_of(point.clone()).value.len();
        assert!(lengths.contains(&right));
        for length in lengths {
            let mut adding = adding_of(point.clone());
            adding.value.resize(length, 0);
            let due = if length == right { 0 } else { 12 };
            assert_eq!(answer_of_adding(&adding), due, "{length}");
        }
        for places in 0..=12 {
            let mut adding = adding_of(point.clone());
            adding.places = places;
            let due = if places == 6 { 0 } else { 13 };
            assert_eq!(answer_of_adding(&adding), due);
        }
    }
}

#[test]
fn adding_takes_digits_only() {
    for place in 0..22 {
        for byte in 0..=255 {
            let mut adding = adding_of(generator(7, 0, 1));
            adding.value[..22].copy_from_slice(&point_number(1_111_111_111_111_111_111_111));
            adding.value[place] = byte;
            let due = if byte.is_ascii_digit() { 0 } else { 14 };
            assert_eq!(answer_of_adding(&adding), due, "byte {byte} at {place}");
        }
    }
}

#[test]
fn adding_refuses_numbers_not_yet_issued() {
    let numbers = [
        (9_999_999_999_999_999_999_999u128, 14),
        (9_999_999_999_999_999_999_998, 0),
        (8_999_999_999_999_999_999_999, 0),
        (9_999_999_999_899_999_999_999, 0),
    ];
    for (number, due) in numbers {
        for point in a_point_of_each_kind(number) {
            assert_eq!(answer_of_adding(&adding_of(point)), due);
        }
    }
}

#[test]
fn adding_takes_rising_numbers_across_kinds() {
    for (number, due) in [(0, 15), (4, 15), (5, 15), (6, 0), (10, 0), (1 << 70, 0)] {
        for point in a_point_of_each_kind(number) {
            assert_eq!(answer_of_adding(&adding_of(point)), due, "{number}");
        }
    }
    let mut adding = adding_of(generator(2_000_000_000_000_000_000_000, 0, 1));
    adding.state.last = point_number(1_999_999_999_999_999_999_999);
    assert_eq!(answer_of_adding(&adding), 0);
    adding.state.last = point_number(2_000_000_000_000_000_000_001);
    assert_eq!(answer_of_adding(&adding), 15);
}

#[test]
fn the_first_point_has_none_before_it() {
    for last in [[b'0'; 22], [b'9'; 22], [0; 22], [255; 22]] {
        let mut adding = adding_of(generator(0, 0, 1));
        adding.state.points = 0;
        adding.state.totals = [0; 6];
        adding.state.last = last;
        assert_eq!(answer_of_adding(&adding), 0);
    }
}

#[test]
fn adding_at_the_edges_of_class_and_baseline() {
    for (class, due) in [(0, 16), (1, 0), (2, 0), (3, 0), (4, 16), (255, 16)] {
        let consumer = ConsumerFields::flat(7, class, 1);
        assert_eq!(
            answer_of_adding(&adding_of(PointFields::Consumer(consumer))),
            due
        );
    }
    for (baseline, due) in [(0, 0), (1_000_000, 0), (1_000_001, 16), (u32::MAX, 16)] {
        assert_eq!(answer_of_adding(&adding_of(generator(7, baseline, 1))), due);
    }
}

/// Biomass shares with the refusal that is due.
const SHARES: [(u16, u32); 10] = [
    (0, 0),
    (1, 0),
    (333, 0),
    (500, 0),
    (999, 0),
    (1_000, 0),
    (1_001, 50),
    (1_024, 50),
    (1_280, 50),
    (65_535, 50),
];

#[test]
fn adding_at_the_edges_of_the_share() {
    for (share, due) in SHARES {
        assert_eq!(answer_of_adding(&adding_of(plant(7, share, 1, 1))), due);
        // 50 is told before 51, and 15 and 14 before 50.
        let mut adding = adding_of(plant(7, share, 1_000_000_001, 1));
        let in_order = if due == 0 { 51 } else { 50 };
        assert_eq!(answer_of_adding(&adding), in_order);
        adding.value[..22].copy_from_slice(&point_number(5));
        assert_eq!(answer_of_adding(&adding), 15);
        adding.value[21] = b':';
        assert_eq!(answer_of_adding(&adding), 14);
    }
}

#[test]
fn adding_tests_every_reading() {
    for (reading, due) in [(1_000_000_000, 0), (1_000_000_001, 51), (u32::MAX, 51)] {
        for place in 0..1_488 {
            let mut consumer = ConsumerFields::flat(7, 1, 1_000_000_000);
            consumer.readings[place] = reading;
            let adding = adding_of(PointFields::Consumer(consumer));
            let due = if place < 48 || due == 0 { due } else { 52 };
            assert_eq!(answer_of_adding(&adding), due, "place {place}");
        }
        for place in 0..6 {
            let mut generator = GeneratorFields::flat(7, 0, 0);
            generator.readings[place] = reading;
            let adding = adding_of(PointFields::Generator(generator));
            assert_eq!(answer_of_adding(&adding), due, "place {place}");
        }
        for place in 0..12 {
            // A share of 1,000 lets no reading count, but each is tested.
            let mut plant = MixedFiringFields::flat(7, 1_000, 0, 1_000_000_000);
            plant.readings[place] = reading;
            let adding = adding_of(PointFields::MixedFiring(plant));
            assert_eq!(answer_of_adding(&adding), due, "place {place}");
        }
    }
}

#[test]
fn adding_with_three_and_four_days() {
    for (days, due) in [(0, 18), (3, 18), (4, 0), (5, 0)] {
        let mut adding = adding_of(level_consumer(7));
        let mut eligible = [1, 2, 5, 6, 7].iter().take(days);
        adding.state.terms.marks = [2; 30];
        eligible
            .by_ref()
            .for_each(|&back: &usize| adding.state.terms.marks[back - 1] = 0);
        assert_eq!(answer_of_adding(&adding), due);
    }
}

#[test]
fn closing_tells_9_then_20() {
    let (_, full, _) = add_point(&opened(&list_of_count(1)), &generator(5, 0, 550_000));
    assert_eq!(close(&full).0, 0);
    assert_ne!(close(&full).1, Figures::default());
    let open_still = opened(&list_of_count(1));
    assert_eq!(close(&open_still), (20, Figures::default()));
    for mut broken in [open_still, full] {
        broken.terms.head.first_slot = 17;
        assert_eq!(close(&broken), (9, Figures::default()));
    }
    assert_eq!(close(&ZEROS), (9, Figures::default()));
    assert_eq!(Figures::default().words(), [0; 8]);
}

/// Lent bytes before a call, all different from their neighbours.
fn lent_bytes(length: usize) -> Vec<u8> {
    (0..length).map(|place| place as u8 ^ 0xA5).collect()
}

/// The answer of writing a head; every lent byte is looked at.
fn answer_of_head_writing(opening: &Opening) -> u32 {
    let mut lent = lent_bytes(opening.lent);
    let number = write_head(&opening.head, &opening.calendar, &mut lent);
    let mut due = lent_bytes(opening.lent);
    if number == 0 {
        due[..20].copy_from_slice(&raw_field(1, &opening.head));
        due[20..53].copy_from_slice(&raw_field(2, &opening.calendar));
    }
    assert_eq!(lent, due);
    number
}

#[test]
fn writing_a_head_tells_the_first_refusal() {
    assert_order(&opening(), &OPENING_FAULTS, answer_of_head_writing);
}

#[test]
fn writing_a_head_needs_53_bytes() {
    for lent in 0..120 {
        let due = if lent < 53 { 40 } else { 0 };
        let opening = Opening { lent, ..opening() };
        assert_eq!(answer_of_head_writing(&opening), due);
    }
}

/// The answer of writing a point; every lent byte is looked at, and the index.
fn answer_of_point_writing(adding: &Adding) -> u32 {
    let mut lent = lent_bytes(adding.lent);
    let Told {
        refusal: number,
        index,
    } = write_point(adding.tag, &adding.value, &mut lent);
    let due = with_index_due(number, adding.tag, &adding.value);
    assert_eq!((number, index), due);
    let mut due = lent_bytes(adding.lent);
    if number == 0 {
        let field = raw_field(adding.tag, &adding.value);
        due[..field.len()].copy_from_slice(&field);
    }
    assert_eq!(lent, due);
    number
}

#[test]
fn writing_a_point_tells_the_first_refusal() {
    for (point, numbers) in [
        (level_consumer(7), &[11, 12, 14, 16, 51, 52, 40][..]),
        (generator(7, 0, 1), &[11, 12, 14, 16, 51, 40]),
        (plant(7, 500, 1, 1), &[11, 12, 14, 50, 51, 40]),
    ] {
        let faults = faults_of(numbers);
        assert_order(&adding_of(point), &faults, answer_of_point_writing);
    }
}

#[test]
fn writing_a_point_needs_its_field() {
    for point in a_point_of_each_kind(7) {
        let needed = written_length(&point);
        for lent in [0, 1, 52, 53, needed - 1, needed, needed + 1, 7_000] {
            let due = if lent < needed { 40 } else { 0 };
            let mut adding = adding_of(point.clone());
            adding.lent = lent;
            assert_eq!(answer_of_point_writing(&adding), due);
        }
    }
}

#[test]
fn writing_a_point_at_the_edges() {
    for (class, due) in [(0, 16), (1, 0), (3, 0), (4, 16)] {
        let consumer = PointFields::Consumer(ConsumerFields::flat(7, class, 1));
        assert_eq!(answer_of_point_writing(&adding_of(consumer)), due);
    }
    for (baseline, reading, due) in [
        (1_000_000, 1_000_000_000, 0),
        (1_000_001, 0, 16),
        (0, 1_000_000_001, 51),
    ] {
        let point = generator(7, baseline, reading);
        assert_eq!(answer_of_point_writing(&adding_of(point)), due);
    }
    for (share, due) in SHARES {
        let point = plant(7, share, 1_000_000_000, 1_000_000_000);
        assert_eq!(answer_of_point_writing(&adding_of(point)), due);
        let point = plant(7, share, 0, 1_000_000_001);
        let in_order = if due == 0 { 51 } else { 50 };
        assert_eq!(answer_of_point_writing(&adding_of(point)), in_order);
    }
    for number in [0, 9_999_999_999_999_999_999_998] {
        for point in a_point_of_each_kind(number) {
            assert_eq!(answer_of_point_writing(&adding_of(point)), 0);
        }
    }
    for not_issued in a_point_of_each_kind(9_999_999_999_999_999_999_999) {
        assert_eq!(answer_of_point_writing(&adding_of(not_issued)), 14);
    }
}
