//! The seeded lists show what their kinds promise.

mod common;

use common::*;
use settlement::books::fields::*;
use settlement::books::lists::{self, Kind};
use settlement::books::random::Random;
use settlement::books::returning::returning_days;
use settlement::choosing::{choose_days, dropped_in_round, walk};
use settlement::ledger::Figures;
use std::collections::BTreeMap;

/// How often each answer came, over lists of one kind.
fn counted<K: Ord>(kind: Kind, answer: impl Fn(&List) -> K) -> BTreeMap<K, u32> {
    let mut random = Random::new(99);
    let mut counts = BTreeMap::new();
    for _ in 0..1_000 {
        *counts.entry(answer(&kind(&mut random))).or_insert(0) += 1;
    }
    counts
}

/// Eligible days and window sums of a list's first point, a consumer.
fn days_and_sums(list: &List) -> (Vec<u8>, [u64; 30]) {
    let PointFields::Consumer(consumer) = &list.points[0] else {
        panic!("a consumer is due");
    };
    let mut consumer = consumer.clone();
    let mut sums = [0; 30];
    for (back, sum) in (1..).zip(&mut sums) {
        let window = consumer.window(back, list.head.first_slot);
        *sum = window.iter().map(|&reading| u64::from(reading)).sum();
    }
    (naive_eligible(list), sums)
}

/// The sums of the five days that the first round looks at.
fn first_five(list: &List) -> Option<Vec<u64>> {
    let (eligible, sums) = days_and_sums(list);
    let five = eligible.get(..5)?;
    Some(
        five.iter()
            .map(|&back| sums[usize::from(back) - 1])
            .collect(),
    )
}

#[test]
fn ties_have_equal_lowest_sums() {
    let counts = counted(lists::ties, |list| {
        let Some(mut five) = first_five(list) else {
            return false;
        };
        five.sort();
        five[0] == five[1]
    });
    assert!(counts[&true] > 300, "{counts:?}");
}

#[test]
fn the_quarter_rule_is_met_exactly_and_missed_by_one() {
    let counts = counted(lists::quarter_rule_limit, |list| {
        let five = first_five(list)?;
        let lowest = *five.iter().min()?;
        Some(five.iter().sum::<u64>() as i64 - 20 * lowest as i64)
    });
    for beside in [-1, 0, 1] {
        assert!(counts[&Some(beside)] > 200, "{counts:?}");
    }
}

#[test]
fn a_dropped_day_would_stand_without_the_other() {
    let counts = counted(lists::several_at_quarter_limit, |list| {
        let five = first_five(list)?;
        let together: u64 = five.iter().sum();
        let (mut dropped, standing): (Vec<u64>, Vec<u64>) =
            five.iter().partition(|&sum| 20 * sum < together);
        dropped.sort();
        let lowest = *dropped.first()?;
        let highest = *dropped.last()?;
        Some((standing.len(), 20 * highest >= together - lowest))
    });
    for stands in [false, true] {
        assert!(counts[&Some((3, stands))] > 100, "{counts:?}");
    }
    assert!(counts[&Some((4, false))] > 100, "{counts:?}");
}

#[test]
fn rounds_drop_up_to_four_days() {
    let counts = counted(lists::several_dropped, |list| {
        let (eligible, sums) = days_and_sums(list);
        let five = eligible.first_chunk::<5>().unwrap();
        dropped_in_round(five, &sums).len()
    });
    for dropped in 1..=4 {
        assert!(counts[&dropped] > 50, "{counts:?}");
    }
}

#[test]
fn two_to_five_days_stand() {
    let counts = counted(lists::few_standing_days, |list| {
        let (eligible, sums) = days_and_sums(list);
        let standing = walk(&eligible, &sums).standing.len();
        let chosen = choose_days(&eligible, &sums);
        assert_eq!(chosen.is_some(), eligible.len() >= 4);
        (eligible.len(), standing)
    });
    for eligible in 2..=7 {
        let standing = counts.keys().filter(|key| key.0 == eligible).count();
        assert!(standing >= if eligible < 5 { 1 } else { 2 }, "{counts:?}");
    }
    for standing in 2..=5 {
        assert!(counts.keys().any(|key| key.1 == standing), "{counts:?}");
    }
}

#[test]
fn one_to_three_days_return() {
    let counts = counted(returning_days, |list| {
        let (eligible, sums) = days_and_sums(list);
        let standing = walk(&eligible, &sums).standing.len();
        (eligible.len().min(5), 4_usize.saturating_sub(standing))
    });
    for eligible in 0..4 {
        assert!(counts[&(eligible, 4 - eligible)] > 20, "{counts:?}");
    }
    assert!(counts[&(4, 0)] > 20, "{counts:?}");
    for returned in 0..=3 {
        assert!(counts[&(5, returned)] > 20, "{counts:?}");
    }
    assert!(!counts.contains_key(&(5, 4)), "{counts:?}");
}

/// The closing figures of a list that gives 0.
fn figures_of(list: &List) -> Option<Figures> {
    let book = list.book();
    let settled = settlement::book::settle_fields(&book).ok()?;
    Some(settled.figures)
}

#[test]
fn totals_lie_beside_multiples_of_3000() {
    let counts = counted(lists::total_near_multiple, |list| {
        let figures = figures_of(list).unwrap();
        (figures.total < 0, figures.total.rem_euclid(3_000))
    });
    assert_eq!(counts.len(), 6, "{counts:?}");
    assert!(counts.values().all(|&times| times > 20), "{counts:?}");
    assert!(counts.keys().all(|key| [0, 1, 2_999].contains(&key.1)));
}

/// Contracts of a kind of list are one above the settled capacity, at it and one
/// below it.
fn contracts_lie_beside_the_settled(kind: Kind) {
    let counts = counted(kind, |list| {
        let figures = figures_of(list)?;
        (list.head.contract > 0).then(|| figures.settled - i64::from(list.head.contract))
    });
    for beside in [-1, 0, 1] {
        assert!(counts[&Some(beside)] > 200, "{counts:?}");
    }
}

#[test]
fn contracts_lie_beside_the_settled_capacity() {
    contracts_lie_beside_the_settled(lists::contract_near_settled);
}

#[test]
fn results_below_zero_and_at_the_limit() {
    let counts = counted(lists::negative_results, |list| {
        figures_of(list).is_some_and(|figures| figures.total < 0)
    });
    assert!(counts[&true] > 500, "{counts:?}");
    let counts = counted(lists::highest_figures, |list| {
        add_point(&opened(list), &list.points[0]).2[0]
    });
    assert!(counts[&4_000_000_000] > 100, "{counts:?}");
    assert!(counts[&-2_000_000_000] > 100, "{counts:?}");
}

/// The plants of a list.
fn plants_of(list: &List) -> Vec<&MixedFiringFields> {
    fn plant(point: &PointFields) -> Option<&MixedFiringFields> {
        match point {
            PointFields::MixedFiring(plant) => Some(plant),
            _ => None,
        }
    }
    list.points.iter().filter_map(plant).collect()
}

#[test]
fn plants_alone_and_behind_other_points() {
    let counts = counted(lists::mixed_firing_plants, |list| plants_of(list).len());
    assert!(counts.keys().copied().eq(1..=8), "{counts:?}");
    let counts = counted(lists::boundary_plant, |list| list.points.len() > 1);
    assert!(counts.values().all(|&times| times > 400), "{counts:?}");
    let counts = counted(lists::ordinary, |list| !plants_of(list).is_empty());
    assert!(counts[&true] > 200, "{counts:?}");
}

#[test]
fn plants_at_the_edges_are_refused_or_taken() {
    let counts = counted(lists::boundary_plant, |list| {
        settlement::book::settle_fields(&list.book()).err()
    });
    for answer in [None, Some(50), Some(51)] {
        assert!(counts[&answer] > 100, "{counts:?}");
    }
    let counts = counted(lists::highest_plants, |list| {
        add_point(&opened(list), &list.points[0]).2[0]
    });
    for result in [0, 1, 2_000_000_000] {
        assert!(counts[&result] > 10, "{counts:?}");
    }
}

#[test]
fn contracts_lie_beside_the_settled_capacity_of_plants() {
    contracts_lie_beside_the_settled(lists::contract_near_plants);
    let plants_alone = counted(lists::contract_near_plants, |list| {
        plants_of(list).len() == list.points.len()
    });
    assert_eq!(plants_alone[&true], 1_000);
}

#[test]
fn plants_without_remainder_have_one_in_each_part() {
    let counts = counted(lists::without_remainder, |list| {
        let parts = |plant: &MixedFiringFields| {
            let left = 1_000 - u64::from(plant.share);
            let rest = |&reading: &u32| u64::from(reading) * left % 1_000;
            let (outside, inside) = plant.readings.split_at(6);
            let both = |(one, other)| (rest(one) + rest(other)) % 1_000;
            let together: u64 = outside.iter().zip(inside).map(both).sum();
            assert_eq!(together, 0);
            outside.iter().map(rest).sum::<u64>() > 0
        };
        plants_of(list).into_iter().any(parts)
    });
    assert!(counts[&true] > 200, "{counts:?}");
}
