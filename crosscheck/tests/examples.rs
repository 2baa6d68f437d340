//! The checked examples of document 01, A to M.

mod common;

use common::*;
use settlement::book::settle;
use settlement::books::examples::{consumer_of_example_h, example_m};
use settlement::books::fields::*;
use settlement::choosing::{choose_days, dropped_in_round, walk};
use settlement::days::{day_count, eligible_days, weekday};
use settlement::ledger::{close, closing_figures, open};
use settlement::text::settle_book_text;

/// Nearest five eligible days of example B, and a sixth.
const DAYS: [u8; 6] = [1, 2, 5, 6, 7, 8];
const FIVE: [u8; 5] = [1, 2, 5, 6, 7];

/// Window sums for [`DAYS`], nearest first.
fn sums(of_days: &[u64]) -> [u64; 30] {
    let mut sums = [0; 30];
    for (back, sum) in DAYS.iter().zip(of_days) {
        sums[usize::from(*back) - 1] = *sum;
    }
    sums
}

#[test]
fn a_2024_01_31_is_day_8796_a_wednesday() {
    let count = day_count(2024, 1, 31).unwrap();
    assert_eq!(count, 8796);
    assert_eq!(weekday(count), 4); // Saturday is 0
}

#[test]
fn b_nearest_five_of_2024_08_07() {
    let count = day_count(2024, 8, 7).unwrap();
    assert_eq!(eligible_days(count, &[0; 30])[..5], FIVE);
}

#[test]
fn c_thirty_marks_of_1_give_18() {
    let mut list = list_of_count(1);
    list.marks = [1; 30];
    let (number, _, places) = add_point(&opened(&list), &level_consumer(1));
    assert_eq!(number, 18);
    assert_eq!(places, [UNWRITTEN; 6]);
    assert_eq!(days_told(&opened(&list), &level_consumer(1)), [0; 4]);
}

#[test]
fn d_the_farther_of_equal_lowest_days_goes() {
    let sums = sums(&[100, 90, 90, 120, 130]);
    assert_eq!(choose_days(&FIVE, &sums), Some([1, 2, 6, 7]));
}

#[test]
fn e_the_fifth_is_dropped_and_a_sixth_sought() {
    let sums = sums(&[100, 100, 100, 100, 21, 100]);
    assert_eq!(dropped_in_round(&FIVE, &sums), [7]);
    assert_eq!(walk(&DAYS, &sums).standing, [1, 2, 5, 6, 8]);
}

#[test]
fn f_with_22_it_stays_in_that_round() {
    let sums = sums(&[100, 100, 100, 100, 22, 100]);
    assert!(dropped_in_round(&FIVE, &sums).is_empty());
    assert_eq!(walk(&DAYS, &sums).standing, FIVE);
}

#[test]
fn g_exactly_a_quarter_is_not_dropped() {
    let sums = sums(&[19, 19, 19, 19, 4]);
    assert!(dropped_in_round(&FIVE, &sums).is_empty());
}

/// The days told of a consumer field on 2024-08-07 with window sums for
/// [`DAYS`], nearest first; any other day has a higher one.
fn days_with_sums(of_days: &[u32]) -> [u8; 4] {
    let mut consumer = ConsumerFields::flat(1, 2, 1_200);
    for (back, sum) in DAYS.iter().zip(of_days) {
        consumer.set_window_sum(usize::from(*back), 26, *sum);
    }
    days_told(&opened(&list_of_count(1)), &PointFields::Consumer(consumer))
}

/// The nearest five are days 1, 2, 5, 6, 7 back (B). D: the third, day 5, goes.
/// E: the fifth is dropped, the sixth is day 8, of five equal ones it goes as
/// the farthest. F and G: the fifth stays in the round and goes as the lowest.
#[test]
fn days_told_of_d_to_g() {
    assert_eq!(days_with_sums(&[100, 90, 90, 120, 130, 500]), [1, 2, 6, 7]);
    assert_eq!(days_with_sums(&[100, 100, 100, 100, 21, 100]), [1, 2, 5, 6]);
    assert_eq!(days_with_sums(&[100, 100, 100, 100, 21, 101]), [1, 2, 5, 8]);
    assert_eq!(days_with_sums(&[100, 100, 100, 100, 22, 101]), [1, 2, 5, 6]);
    assert_eq!(days_with_sums(&[19, 19, 19, 19, 4, 19]), [1, 2, 5, 6]);
}

/// H to K on the other days of that week: the nearest five but the farthest.
#[test]
fn days_told_of_h_on_each_day_of_the_week() {
    for (day, due) in [
        (5, [3, 4, 5, 6]), // Monday: Friday to Tuesday
        (6, [1, 4, 5, 6]),
        (7, [1, 2, 5, 6]),
        (8, [1, 2, 3, 6]),
        (9, [1, 2, 3, 4]), // Friday: Thursday to Monday
    ] {
        let mut list = list_of_count(1);
        list.head.day = day;
        let point = PointFields::Consumer(consumer_of_example_h(1, 240));
        assert_eq!(days_told(&opened(&list), &point), due);
    }
}

#[test]
fn days_told_of_m() {
    let state = opened(&list_of_count(1));
    assert_eq!(days_told(&state, &generator(1, 0, 550_000)), [0; 4]);
}

/// The six results of a consumer field on 2024-08-07, s 26, losses 700, 400,
/// 200; they must all be the same. The readings of all days back are equal, so
/// that of days 1, 2, 5, 6, 7 back the farthest goes.
fn result_of(consumer: ConsumerFields) -> i64 {
    let point = PointFields::Consumer(consumer);
    assert_eq!(point.value().len(), 5_975);
    let (number, state, places) = add_point(&opened(&list_of_count(1)), &point);
    let days = days_told(&opened(&list_of_count(1)), &point);
    assert_eq!((number, days), (0, [1, 2, 5, 6]));
    assert_eq!(state.totals, places);
    assert_eq!(places, [places[0]; 6]);
    places[0]
}

#[test]
fn h_use_240_gives_1000() {
    assert_eq!(result_of(consumer_of_example_h(1, 240)), 1_000);
}

#[test]
fn i_use_241_gives_998() {
    assert_eq!(result_of(consumer_of_example_h(1, 241)), 998);
}

#[test]
fn use_1200_gives_0() {
    assert_eq!(result_of(consumer_of_example_h(1, 1_200)), 0);
}

#[test]
fn j_use_1201_gives_minus_2() {
    assert_eq!(result_of(consumer_of_example_h(1, 1_201)), -2);
}

#[test]
fn k_earlier_readings_of_0_give_minus_250() {
    let mut consumer = consumer_of_example_h(1, 240);
    consumer.earlier(0, 26).fill(0);
    assert_eq!(result_of(consumer), -250);
}

#[test]
fn l_totals_around_zero_and_the_bid() {
    assert_eq!(closing_figures(2_999, 0, 1).settled, 0);
    assert_eq!(closing_figures(-1, 0, 1).settled, -1);
    let below = closing_figures(3_000 * 1_000 - 1, 0, 1);
    assert_eq!((below.expected, below.bid), (999, false));
    let enough = closing_figures(3_000 * 1_000, 0, 1);
    assert_eq!((enough.expected, enough.bid), (1_000, true));
}

/// The closing figures of one generator whose readings give a total.
fn closed_with_total(baseline: u32, readings: [u32; 6]) -> settlement::ledger::Figures {
    let mut list = list_of_count(1);
    list.head.contract = 0;
    let mut generator = GeneratorFields::flat(1, baseline, 0);
    generator.readings = readings;
    let (_, state, _) = add_point(&opened(&list), &PointFields::Generator(generator));
    let (number, figures) = close(&state);
    assert_eq!(number, 0);
    figures
}

#[test]
fn l_through_adding_and_closing() {
    let figures = closed_with_total(0, [2_999, 0, 0, 0, 0, 0]);
    assert_eq!((figures.total, figures.settled), (2_999, 0));
    let figures = closed_with_total(1, [500, 500, 500, 500, 500, 499]);
    assert_eq!((figures.total, figures.settled), (-1, -1));
    let figures = closed_with_total(0, [2_999_999, 0, 0, 0, 0, 0]);
    assert_eq!((figures.expected, figures.bid), (999, false));
    let figures = closed_with_total(0, [3_000_000, 0, 0, 0, 0, 0]);
    assert_eq!((figures.expected, figures.bid), (1_000, true));
}

#[test]
fn count_and_first_slot_at_their_limits() {
    let answer = |change: fn(&mut Head)| {
        let mut head = Head::EXAMPLE_M;
        change(&mut head);
        open(&head.value(), &[0; 30]).0
    };
    assert_eq!(answer(|head| head.count = 10_000), 0);
    assert_eq!(answer(|head| head.count = 10_001), 7);
    assert_eq!(answer(|head| head.first_slot = 34), 0);
    assert_eq!(answer(|head| head.first_slot = 35), 4);
}

#[test]
fn empty_book_gives_31() {
    assert_eq!(settle(&[], &mut [0; 64]), 31);
    assert_eq!(settle_book_text(&[]), "refused 31\n");
}

const TEXT_OF_M: &str = "\
date 2024-08-07 slot 26
points 1
slot 1 550000
slot 2 550000
slot 3 550000
slot 4 550000
slot 5 550000
slot 6 550000
total 3300000
settled 1100
shortfall 0
expected 1100
kept 1000
surplus 100
bid yes
";

#[test]
fn m_as_text() {
    assert_eq!(settle_book_text(&example_m()), TEXT_OF_M);
}

#[test]
fn m_as_the_64_bytes_of_the_screen() {
    let mut result = [0xAA; 64];
    assert_eq!(settle(&example_m(), &mut result), 0);
    let words = [3_300_000u64, 1_100, 0, 1_100, 1_000, 100, 1, 1];
    let bytes: Vec<u8> = words.iter().flat_map(|word| word.to_be_bytes()).collect();
    assert_eq!(result[..], bytes[..]);
}

#[test]
fn m_as_bytes_of_the_book() {
    let mut book = vec![1, 0, 17, 0x07, 0xE8, 8, 7, 26];
    book.extend([0x02, 0xBC, 0x01, 0x90, 0x00, 0xC8]); // 700, 400, 200
    book.extend([0, 0, 0x03, 0xE8, 0, 1]); // contract 1,000, count 1
    book.extend([2, 0, 30]);
    book.extend([0; 30]);
    book.extend([4, 0, 50]);
    book.extend(b"0000000000000000000001");
    book.extend([0; 4]);
    for _ in 0..6 {
        book.extend([0x00, 0x08, 0x64, 0x70]); // 550,000
    }
    assert_eq!(example_m(), book);
}

#[test]
fn text_of_figures_below_zero() {
    let mut list = List::new(Head::EXAMPLE_M);
    (list.head.year, list.head.month, list.head.day) = (2025, 12, 30);
    list.push(generator(1, 1, 499));
    let text = settle_book_text(&list.book());
    let lines: Vec<&str> = text.lines().collect();
    assert_eq!(lines[0], "date 2025-12-30 slot 26");
    assert_eq!(lines[2], "slot 1 -1");
    assert_eq!(
        lines[8..],
        [
            "total -6",
            "settled -1",
            "shortfall 1001",
            "expected 0",
            "kept 0",
            "surplus 0",
            "bid no"
        ]
    );
    assert!(text.ends_with("bid no\n"));
}

// "Wrong readings of the manual": those that no example above tells apart.

#[test]
fn days_are_not_ranked_by_rounded_averages() {
    // 100 ÷ 6 and 101 ÷ 6 are both 16 when rounded down, 17 when rounded.
    let sums = sums(&[100, 101, 101, 101, 101]);
    assert_eq!(choose_days(&FIVE, &sums), Some([2, 5, 6, 7]));
}

#[test]
fn a_class_is_not_added_up_before_dividing() {
    // Twice 998.96 is 1,997.92.
    let consumer = |number| PointFields::Consumer(consumer_of_example_h(number, 241));
    let (_, state, _) = add_point(&opened(&list_of_count(2)), &consumer(1));
    let (_, state, _) = add_point(&state, &consumer(2));
    assert_eq!(state.totals, [1_996; 6]);
}

#[test]
fn a_result_below_zero_is_not_set_to_zero() {
    let (_, state, _) = add_point(&opened(&list_of_count(2)), &generator(1, 0, 10));
    let (_, state, _) = add_point(&state, &generator(2, 1, 460));
    assert_eq!(state.totals, [-30; 6]);
}
