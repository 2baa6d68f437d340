//! Days that return (change request 5): worked by hand, one case for each form of
//! the walk, through the choice, adding, the whole book and the exact account.

mod common;

use common::*;
use settlement::account::{parts_of_a_kw, Account};
use settlement::book::settle_fields;
use settlement::books::examples;
use settlement::books::fields::{ConsumerFields, List, PointFields};
use settlement::books::lists::KINDS;
use settlement::books::random::Random;
use settlement::books::sequences::adding;
use settlement::choosing::{choose_days, dropped_in_round, walk, WindowSums};
use settlement::demand3::{demand3, Call};
use settlement::ledger::{add, close, open};

/// The eligible days of 2024-08-07 without marks, nearest first (example B).
const DAYS: [u8; 22] = [
    1, 2, 5, 6, 7, 8, 9, 12, 13, 14, 15, 16, 19, 20, 21, 22, 23, 26, 27, 28, 29, 30,
];

/// A window sum above all others here.
const HIGH: u32 = 1_000_000;

/// A list of one consumer on 2024-08-07 with these window sums on the nearest of
/// [`DAYS`]. All other days have higher ones and cannot be taken: the working days
/// have the marks 1, 2 and 3 in turns, the weekends any.
fn list_with(of_days: &[u32]) -> List {
    let mut list = list_of_count(1);
    let first_slot = list.head.first_slot;
    let mut consumer = ConsumerFields::flat(1, 2, 1_200);
    list.marks = std::array::from_fn(|day| (day % 4) as u8);
    for (order, back) in DAYS.into_iter().enumerate() {
        list.marks[usize::from(back) - 1] = 1 + (order % 3) as u8;
    }
    for back in 1..=30 {
        consumer.set_window_sum(back, first_slot, HIGH);
    }
    for (&back, &sum) in DAYS.iter().zip(of_days) {
        list.marks[usize::from(back) - 1] = 0;
        consumer.set_window_sum(usize::from(back), first_slot, sum);
    }
    list.push(PointFields::Consumer(consumer));
    list
}

/// The exact shortfall of a list's closing in kW, or none where the account
/// refuses a point.
fn account_of(list: &List) -> Option<Fraction> {
    let mut account = Account::opening(&list.head.value(), &list.marks);
    for point in &list.points {
        account.adding(point.tag(), &point.value(), 6)?;
    }
    let parts = parts_of_a_kw(account.terms()?);
    Some(Fraction::new(account.closing()?, parts))
}

/// The exact shortfall due where a list's one consumer has these four days.
fn shortfall_with(list: &List, days: &[u8]) -> Fraction {
    let mut consumer = match &list.points[0] {
        PointFields::Consumer(consumer) => consumer.clone(),
        other => panic!("{other:?}"),
    };
    let results = naive_results_of_days(list, &mut consumer, days);
    let total = results.into_iter().fold(Fraction::whole(0), Fraction::plus);
    let contract = Fraction::whole(i128::from(list.head.contract));
    contract.minus(total.times(1, 3_000)).or_zero_below()
}

/// The four days of [`list_with`]: adding tells them, the whole book is settled,
/// and the exact account has their sum.
fn days_of(of_days: &[u32]) -> [u8; 4] {
    let list = list_with(of_days);
    let state = opened(&list);
    let (number, after, results) = add_point(&state, &list.points[0]);
    let days = days_told(&state, &list.points[0]);
    assert_eq!((number, after.points), (0, 1), "{of_days:?}");
    assert_ne!(days, [0; 4], "{of_days:?}");
    let book = list.book();
    let settled = settle_fields(&book).expect("a book that is settled");
    assert_eq!(settled.figures.total, results.iter().sum::<i64>());
    assert_eq!(account_of(&list), Some(shortfall_with(&list, &days)));
    days
}

/// [`list_with`] has too few days: adding, the whole book and the account refuse.
fn is_refused(of_days: &[u32]) {
    let list = list_with(of_days);
    let state = opened(&list);
    let answer = add_point(&state, &list.points[0]);
    assert_eq!(answer, (18, state, [UNWRITTEN; 6]), "{of_days:?}");
    assert_eq!(days_told(&state, &list.points[0]), [0; 4]);
    assert_eq!(settle_fields(&list.book()).err(), Some(18));
    assert_eq!(account_of(&list), None);
}

#[test]
fn with_three_standing_one_returns() {
    // 319 together: 15 × 20 = 300 and 4 × 20 = 80 are less. Days 1, 2, 5 stand,
    // and of 15 and 4 the 15 returns, wherever it lies.
    assert_eq!(days_of(&[100, 100, 100, 15, 4]), [1, 2, 5, 6]);
    assert_eq!(days_of(&[100, 100, 100, 4, 15]), [1, 2, 5, 7]);
    assert_eq!(days_of(&[15, 100, 4, 100, 100]), [1, 2, 6, 7]);
    assert_eq!(days_of(&[4, 100, 15, 100, 100]), [2, 5, 6, 7]);
}

#[test]
fn with_two_standing_two_return() {
    // 209 together: 4 × 20 = 80 is less, so 4, 3 and 2 are dropped. 4 and 3 return.
    assert_eq!(days_of(&[100, 100, 4, 3, 2]), [1, 2, 5, 6]);
    assert_eq!(days_of(&[2, 100, 4, 3, 100]), [2, 5, 6, 7]);
    assert_eq!(days_of(&[3, 2, 100, 100, 4]), [1, 5, 6, 7]);
    assert_eq!(days_of(&[100, 3, 4, 2, 100]), [1, 2, 5, 7]);
}

#[test]
fn with_one_standing_three_return() {
    // 110 together: 4 × 20 = 80 is less, so that 100 stands alone. All but the
    // lowest, 1, return.
    assert_eq!(days_of(&[100, 4, 1, 3, 2]), [1, 2, 6, 7]);
    assert_eq!(days_of(&[1, 2, 3, 4, 100]), [2, 5, 6, 7]);
    assert_eq!(days_of(&[4, 3, 100, 2, 1]), [1, 2, 5, 6]);
}

/// No round drops the highest of its five: they are at most five times it
/// together, and 20 times it is more unless all are 0, when none is dropped. So
/// where one day is eligible one stands, and with none there is nothing to return.
#[test]
fn none_standing_is_none_eligible() {
    let mut random = Random::new(51);
    for length in 0..=22 {
        for _ in 0..300 {
            let scale = random.one_of(&[1, 2, 60, 6_000_000_000u64]);
            let low_in = random.one_of(&[1, 2, 4]);
            let mut sums: WindowSums = [0; 30];
            for sum in &mut sums {
                let low = random.once_in(low_in);
                *sum = random.below(if low { scale / 6 + 1 } else { scale + 1 });
            }
            let standing = walk(&DAYS[..length], &sums).standing;
            assert_eq!(standing.is_empty(), length == 0, "{sums:?}");
        }
    }
    is_refused(&[]);
}

#[test]
fn of_equal_days_the_nearer_return_first() {
    // 860 together: 20 × 20 = 400 is less. The two of 400 stand, then with the day
    // of 1 behind the five three do, and one of three equal days returns.
    assert_eq!(days_of(&[400, 20, 400, 20, 20, 1]), [1, 2, 5, 8]);
    assert_eq!(days_of(&[400, 400, 20, 20, 20, 1]), [1, 2, 5, 8]);
    // Without a sixth day two return: the second has an equal one on both sides.
    assert_eq!(days_of(&[20, 400, 20, 400, 20]), [1, 2, 5, 6]);
    assert_eq!(days_of(&[20, 20, 20, 400, 400]), [1, 2, 6, 7]);
    // Of four equal days, the nearest three.
    assert_eq!(days_of(&[5, 5, 400, 5, 5]), [1, 2, 5, 6]);
    assert_eq!(days_of(&[5, 5, 5, 5, 400]), [1, 2, 5, 7]);
}

#[test]
fn a_higher_day_between_equal_ones_returns_first() {
    // 861 together: 21 × 20 = 420 is less. 21 on day 5 has a 20 on both sides; with
    // a day of 1 behind the five it returns alone, without it the nearer 20 too.
    assert_eq!(days_of(&[400, 20, 21, 20, 400, 1]), [1, 5, 7, 8]);
    assert_eq!(days_of(&[400, 20, 21, 20, 400]), [1, 2, 5, 7]);
    // A lower one between them waits for both.
    assert_eq!(days_of(&[400, 20, 19, 20, 400]), [1, 2, 6, 7]);
}

#[test]
fn days_of_the_first_round_return_before_lower_ones_of_the_last() {
    // First round, 2,240 together: 90, 80 and 70 are dropped (90 × 20 = 1,800).
    // Second, with days 8, 9 and 12: 2,016 together, 10, 5 and 1 are dropped. Days
    // 1 and 2 stand; 90 and 80 return.
    assert_eq!(days_of(&[1_000, 1_000, 90, 80, 70, 10, 5, 1]), [1, 2, 5, 6]);
}

#[test]
fn days_of_the_last_round_return_before_lower_ones_of_the_first() {
    // First round, 504 together: 24 × 20 = 480 is less, day 1 is dropped. Second,
    // with day 8: 2,480 together, and 120 × 20 = 2,400 is less, so that day 8 stands
    // alone. Three of the 120 return, 24 does not.
    assert_eq!(days_of(&[24, 120, 120, 120, 120, 2_000]), [2, 5, 6, 8]);
}

#[test]
fn days_of_both_rounds_return() {
    // As above, but 85 on day 8: of 90, 80, 70 and 85, 5, 1 the days of 90 and 85
    // return, one from each round.
    assert_eq!(days_of(&[1_000, 1_000, 90, 80, 70, 85, 5, 1]), [1, 2, 5, 8]);
    // 85 on days 6 and 8: both return.
    assert_eq!(days_of(&[1_000, 1_000, 80, 85, 70, 85, 5, 1]), [1, 2, 6, 8]);
    // 85 on days 5 and 9, and day 8 stands too: one returns, the nearer.
    assert_eq!(
        days_of(&[1_000, 1_000, 85, 80, 70, 1_000, 85, 5]),
        [1, 2, 5, 8]
    );
}

#[test]
fn days_of_three_rounds() {
    // 50 of 4,050, then 60 of 4,060, then all four 1,000 of 34,000 are dropped. Day 9
    // stands alone, and three of the 1,000 return.
    let sums = [1_000, 50, 1_000, 1_000, 1_000, 60, 30_000];
    assert_eq!(days_of(&sums), [1, 5, 6, 9]);
    // The same behind a day of 5, which goes with the 50 of 3,055.
    let sums = [5, 1_000, 50, 1_000, 1_000, 1_000, 60, 30_000];
    assert_eq!(days_of(&sums), [2, 6, 7, 12]);
}

#[test]
fn a_day_never_in_a_round_stands_whatever_its_sum() {
    // The day of 1 is behind the five, and fewer than five are left. It stands though
    // the 20 that do not return are higher (READING.md, 88).
    assert_eq!(days_of(&[400, 400, 20, 20, 20, 1]), [1, 2, 5, 8]);
    assert_eq!(days_of(&[20, 400, 20, 400, 20, 1]), [1, 2, 6, 8]);
    assert_eq!(days_of(&[400, 400, 20, 20, 20, 0]), [1, 2, 5, 8]);
}

#[test]
fn four_standing_are_not_replaced() {
    // 1,290 together: 50 × 20 = 1,000 is less. Days 1, 2, 5 and 8 stand, the last
    // with 1; 50 and 40 do not return.
    assert_eq!(days_of(&[400, 400, 400, 50, 40, 1]), [1, 2, 5, 8]);
    // 404 together: the 4 is dropped, four stand, it does not return.
    assert_eq!(days_of(&[100, 4, 100, 100, 100]), [1, 5, 6, 7]);
}

#[test]
fn five_standing_lose_the_lowest_and_none_returns() {
    // 430 together: 21 × 20 = 420 is less. Then 430 + 69 − 21: none of 100, 109, 69
    // is under a quarter. 69 goes as the lowest, and 21 does not return.
    assert_eq!(days_of(&[100, 21, 100, 100, 109, 69]), [1, 5, 6, 7]);
}

#[test]
fn the_quarter_rule_is_not_applied_again() {
    // The four of each case have a day under a quarter of their average.
    assert_eq!(days_of(&[100, 100, 100, 15, 4]), [1, 2, 5, 6]);
    assert_eq!(days_of(&[6_000, 0, 1, 0, 0]), [1, 2, 5, 6]);
}

#[test]
fn days_of_0_return_too() {
    // 5 together: 0 is less than a quarter of 1. Nearest first of equal days.
    assert_eq!(days_of(&[5, 0, 0, 0, 0]), [1, 2, 5, 6]);
    assert_eq!(days_of(&[0, 0, 0, 0, 5]), [1, 2, 5, 7]);
    assert_eq!(days_of(&[0, 5, 0, 0, 5, 0]), [1, 2, 7, 8]);
}

#[test]
fn with_all_sums_0_none_is_dropped() {
    // None of five is less than 0: the farthest goes, as the lowest of equals. Of
    // four all are used, of three none.
    assert_eq!(days_of(&[0; 22]), [1, 2, 5, 6]);
    assert_eq!(days_of(&[0; 5]), [1, 2, 5, 6]);
    assert_eq!(days_of(&[0; 4]), [1, 2, 5, 6]);
    is_refused(&[0; 3]);
}

#[test]
fn exactly_four_eligible_are_the_four() {
    for sums in [[400, 20, 1, 0], [0, 0, 0, 400], [1, 1, 1, 1]] {
        assert_eq!(days_of(&sums), [1, 2, 5, 6]);
    }
}

/// The other 27 to 30 days have the highest sums: they never return.
#[test]
fn fewer_than_four_eligible_are_refused() {
    for sums in [&[][..], &[400], &[400, 400], &[400, 400, 400], &[400, 1, 0]] {
        is_refused(sums);
    }
}

/// Every order of one, two or three low days among five: the four are told nearest
/// first, whichever of them returned.
#[test]
fn the_four_are_told_nearest_first() {
    let mut returned_nearest = 0;
    for set in 1u32..31 {
        let sums: Vec<u32> = (0..5)
            .map(|place| if set >> place & 1 == 1 { 3 } else { 90 })
            .collect();
        let days = days_of(&sums);
        assert!(days.is_sorted_by(|near, far| near < far), "{days:?}");
        let lows = set.count_ones();
        returned_nearest += u32::from(lows > 1 && sums[0] == 3 && days[0] == 1);
    }
    // Of the sets of two to four low days those with the nearest among them.
    assert_eq!(returned_nearest, 4 + 6 + 4);
}

/// The sentence of the papers before change request 5, as it stood here.
fn choice_before(eligible: &[u8], sums: &WindowSums) -> Option<[u8; 4]> {
    let sum = |back: u8| sums[usize::from(back) - 1];
    let mut left = eligible.to_vec();
    while let Some(five) = left.first_chunk::<5>() {
        let dropped = dropped_in_round(five, sums);
        if dropped.is_empty() {
            left.truncate(5);
            let lowest = left.iter().copied();
            let lowest = lowest.min_by_key(|&back| (sum(back), 31 - back));
            left.retain(|&back| Some(back) != lowest);
            break;
        }
        left.retain(|back| !dropped.contains(back));
    }
    left.try_into().ok()
}

/// Eligible days with sums of some scale, of which some are low, or most.
fn any_days(random: &mut Random) -> (Vec<u8>, WindowSums) {
    let one_in = random.one_of(&[1, 2, 3, 4]);
    let eligible = DAYS.into_iter().filter(|_| random.once_in(one_in));
    let eligible = eligible.collect();
    let scale = random.one_of(&[2, 60, 6_000_000_000u64]);
    let high_in = random.one_of(&[1, 2, 4, 8]);
    let mut sums: WindowSums = [0; 30];
    for sum in &mut sums {
        let high = random.once_in(high_in);
        *sum = random.below(if high { scale + 1 } else { scale / 8 + 1 });
    }
    (eligible, sums)
}

#[test]
fn who_had_four_days_keeps_them() {
    let mut random = Random::new(52);
    let mut kept = 0;
    let mut given_back = 0;
    for _ in 0..30_000 {
        let (eligible, sums) = any_days(&mut random);
        let before = choice_before(&eligible, &sums);
        let now = choose_days(&eligible, &sums);
        match before {
            Some(_) => assert_eq!(now, before, "{eligible:?} {sums:?}"),
            None => assert_eq!(now.is_some(), eligible.len() >= 4),
        }
        kept += u32::from(before.is_some());
        given_back += u32::from(before.is_none() && now.is_some());
    }
    assert!(kept > 10_000 && given_back > 3_000, "{kept} {given_back}");
}

/// Every standing day is among the four, the others were dropped, and no dropped
/// day that stays away has a better claim than one that returns.
#[test]
fn those_that_return_have_the_best_claim() {
    let mut random = Random::new(53);
    let mut returned_days = [0; 4];
    for _ in 0..30_000 {
        let (eligible, sums) = any_days(&mut random);
        let walked = walk(&eligible, &sums);
        let chosen = choose_days(&eligible, &sums);
        let (Some(days), true) = (chosen, walked.standing.len() < 4) else {
            continue;
        };
        assert!(walked.standing.iter().all(|back| days.contains(back)));
        let of_day = |back: &u8| (*back, sums[usize::from(*back) - 1]);
        let (returned, away): (Vec<u8>, Vec<u8>) =
            walked.dropped.iter().partition(|back| days.contains(back));
        assert_eq!(returned.len() + walked.standing.len(), 4);
        for one in &returned {
            let yields = |other: &u8| returns_before(&of_day(one), &of_day(other));
            assert!(away.iter().all(yields), "{eligible:?} {sums:?}");
        }
        returned_days[returned.len()] += 1;
    }
    let [none, one, two, three] = returned_days;
    assert_eq!(none, 0);
    assert!(one > 500 && two > 500 && three > 300, "{returned_days:?}");
}

/// So none of five standing days is ever at stake (docs/MUTATIONS.md has the reason).
#[test]
fn no_dropped_day_is_as_high_as_one_of_five_standing() {
    let mut random = Random::new(55);
    let mut seen = 0;
    for _ in 0..30_000 {
        let (eligible, sums) = any_days(&mut random);
        let walked = walk(&eligible, &sums);
        let of_days = |days: &[u8]| -> Vec<u64> {
            let of_day = |&back: &u8| sums[usize::from(back) - 1];
            days.iter().map(of_day).collect()
        };
        let highest_dropped = of_days(&walked.dropped).into_iter().max();
        let lowest_standing = of_days(&walked.standing).into_iter().min();
        if walked.standing.len() == 5 && highest_dropped.is_some() {
            assert!(highest_dropped < lowest_standing, "{eligible:?} {sums:?}");
            seen += 1;
        }
    }
    assert!(seen > 3_000, "{seen}");
}

/// Seeded lists of every kind, their first point a consumer that nothing else
/// refuses: 18 exactly where fewer than four of the thirty days are eligible.
#[test]
fn number_18_exactly_with_fewer_than_four_eligible() {
    let mut random = Random::new(54);
    let mut seen = [0; 6]; // by eligible days, 5 and more in one
    for (_, make) in KINDS.iter().cycle().take(150 * KINDS.len()) {
        let list = make(&mut random);
        let (opening, state) = open(&list.head.value(), &list.marks);
        if opening != 0 || list.points[0].tag() != 3 {
            continue;
        }
        let number = add_point(&state, &list.points[0]).0;
        let eligible = naive_eligible(&list).len();
        if matches!(number, 0 | 18) {
            assert_eq!(number == 18, eligible < 4);
            seen[eligible.min(5)] += 1;
        }
    }
    assert!(seen[2] > 10 && seen[3] > 10 && seen[4] > 10 && seen[5] > 500);
}

/// Per slot 1,200 on days 1, 2 and 5, 180 on day 6 and 100 on day 7; 3,880 × 6
/// together, and 180 × 6 × 20 = 21,600 is less than 23,280. Day 6 returns. Four-day
/// sum of a slot: 3 × 1,200 + 180 = 3,780; the earlier readings are all the same, so
/// the baseline is 945. Less 240, times 10,000 ÷ 9,600: 734.375 in each slot, 734
/// printed. 4,406.25 Wh are 1.46875 kW exactly; 4,404 Wh are 1 kW.
#[test]
fn results_and_shortfalls_with_a_day_returned() {
    let mut list = list_with(&[7_200, 7_200, 7_200, 1_080, 600]);
    for reading in &mut list.points[0].readings()[26..32] {
        *reading = 240;
    }
    let (number, state, results) = add_point(&opened(&list), &list.points[0]);
    assert_eq!((number, results), (0, [734; 6]));
    assert_eq!(days_told(&opened(&list), &list.points[0]), [1, 2, 5, 6]);
    let (number, figures) = close(&state);
    let words = [figures.total, figures.settled, figures.shortfall];
    assert_eq!((number, words), (0, [4_404, 1, 999]));
    let exact = Fraction::new(100_000 * 1_000 - 146_875, 100_000);
    assert_eq!(account_of(&list), Some(exact));
    let calls = [adding(&list.points[0]), Call::Closing];
    let seen = demand3(&list.head.value(), &list.marks, &calls).unwrap();
    assert_eq!((seen.accepted_addings, seen.greater), (1, 1));
}

/// The points of a book from its bytes, one behind the other.
fn points_of(book: &[u8]) -> Vec<(u8, &[u8])> {
    let mut rest = &book[53..];
    let mut points = Vec::new();
    while let [tag, high, low, behind @ ..] = rest {
        let length = usize::from(*high) << 8 | usize::from(*low);
        let (value, next) = behind.split_at(length);
        points.push((*tag, value));
        rest = next;
    }
    points
}

/// The example book, by hand; window readings in kWh, nearest day first.
///
/// High: 400, 400, 20, 20, 20 | 1. 20 × 20 is less than 860: the three go, 400, 400
/// and 1 stand, the nearest 20 returns. 821 ÷ 4 less 5.25 are 200 kWh, times 10,000 ÷
/// 9,600 = 208,333.3 Wh.
///
/// Extra-high: 1, 30, 40, 50, 60 | 2,000. 1 × 20 is less than 181 and goes, then 60 ×
/// 20 is less than 2,180 and four go. 2,000 stands, 60, 50 and 40 return. 2,150 ÷ 4
/// less 37.5 are 500 kWh, times 10,000 ÷ 9,800 = 510,204.08 Wh.
///
/// Low: 0, 90, 0, 90, 0 | 0. 0 is less than a quarter of 36. The nearest 0 returns
/// to 90, 90 and the farthest 0. 45 kWh, times 10,000 ÷ 9,300 = 48,387.1 Wh.
///
/// With the generator's 30,001 a slot has 796,925 Wh, six have 4,781,550: 1,593.85 kW.
#[test]
fn the_example_book_by_hand() {
    let book = examples::returning();
    let (number, mut state) = open(&book[3..20], &book[23..53]);
    assert_eq!(number, 0);
    let mut told = Vec::new();
    for (tag, value) in points_of(&book) {
        let mut results = [0; 6];
        let added = add(&state, tag, value, &mut results);
        assert_eq!((added.refusal, results), (0, [results[0]; 6]));
        told.push((added.days, results[0]));
        state = added.state;
    }
    let due = [
        ([1, 2, 5, 8], 208_333),
        ([5, 6, 7, 8], 510_204),
        ([1, 2, 6, 8], 48_387),
        ([0; 4], 30_001),
    ];
    assert_eq!(told, due);
    let (number, figures) = close(&state);
    let words = [4_781_550, 1_593, 407, 1_593, 1_593, 0, 4, 1];
    assert_eq!((number, figures.words()), (0, words));
}
