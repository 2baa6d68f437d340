//! Demand 3 over many sequences of calls, and faulty programs that break it.

mod common;

use common::*;
use settlement::account::{parts_of_a_kw, Account};
use settlement::books::examples::consumer_of_example_h;
use settlement::books::fields::*;
use settlement::books::lists::KINDS;
use settlement::books::random::Random;
use settlement::books::sequences::{adding, seeded_sequence, Sequence};
use settlement::books::shortfalls::*;
use settlement::demand3::{demand3, demand3_of, Breach, Call, Program, Seen, Settlement};
use settlement::ledger::{self, Added, Figures, State};
use std::collections::BTreeSet;

const SEQUENCES: u64 = 60_000;

#[test]
fn demand_3_holds_over_many_sequences() {
    let mut seen = [Seen::default(); 2]; // without plants, with plants
    let mut kinds = BTreeSet::new();
    for seed in 0..SEQUENCES {
        let sequence = seeded_sequence(seed);
        let held = demand3(&sequence.head, &sequence.calendar, &sequence.calls);
        let held = held.unwrap_or_else(|breach| panic!("seed {seed}: {breach:?}"));
        let of_its_kind = &mut seen[usize::from(has_plants(&sequence))];
        *of_its_kind = of_its_kind.and(held);
        kinds.insert(sequence.kind);
    }
    println!("{SEQUENCES} sequences of {} kinds: {seen:?}", kinds.len());
    assert_eq!(kinds.len(), KINDS.len() + SHORTFALL_KINDS.len());
    for (seen, least) in seen.iter().zip([300, 50]) {
        let counts = counts_of(seen);
        assert!(counts.iter().all(|&times| times >= least), "{seen:?}");
    }
}

/// Whether a sequence adds a mixed-firing plant.
fn has_plants(sequence: &Sequence) -> bool {
    let of_plant = |call: &Call| matches!(call, Call::Adding { tag: 5, .. });
    sequence.calls.iter().any(of_plant)
}

/// All counts of what was seen.
fn counts_of(seen: &Seen) -> [u64; 10] {
    [
        seen.refused_openings,
        seen.accepted_addings,
        seen.refused_addings,
        seen.refused_closings,
        seen.equal_contract_reached,
        seen.equal_without_remainder,
        seen.greater,
        seen.greater_by_points_alone,
        seen.greater_by_total_alone,
        seen.settled_below_zero,
    ]
}

/// The exact shortfall of a list in kW, from naive fractions of every point.
fn naive_shortfall(list: &List) -> Option<Fraction> {
    let mut sum = Fraction::whole(0);
    for point in &list.points {
        for result in naive_exact_results(list, point)? {
            sum = sum.plus(result);
        }
    }
    let contract = Fraction::whole(i128::from(list.head.contract));
    Some(contract.minus(sum.times(1, 3_000)).or_zero_below())
}

/// An account that has taken the points of a list.
fn account_of(list: &List) -> Account {
    let mut account = Account::opening(&list.head.value(), &list.marks);
    for point in &list.points {
        account.adding(point.tag(), &point.value(), 6);
    }
    account
}

#[test]
fn the_account_counts_fractions() {
    let mut random = Random::new(3);
    let mut compared = 0;
    for _ in 0..120 {
        for (kind, make) in KINDS {
            let list = make(&mut random);
            let account = account_of(&list);
            let Some(shortfall) = account.closing() else {
                continue;
            };
            if account.points() as usize != list.points.len() {
                continue;
            }
            let parts = parts_of_a_kw(account.terms().unwrap());
            let exact = Fraction::new(shortfall, parts);
            assert_eq!(Some(exact), naive_shortfall(&list), "{kind}");
            compared += 1;
        }
    }
    assert!(compared > 1_000, "{compared}");
}

/// The exact shortfall of a list with a contract of 1,000 kW, from its exact total
/// in Wh. The printed one is greater, and not by the points' divisions alone.
fn has_exact_total(list: &List, total: Fraction) {
    let account = account_of(list);
    let parts = parts_of_a_kw(account.terms().unwrap());
    assert_eq!(parts, 72_000_000 * 9_300 * 9_600 * 9_800);
    let exact = Fraction::new(account.closing().unwrap(), parts);
    let sold = total.times(1, 3_000);
    assert_eq!(exact, Fraction::whole(1_000).minus(sold));
    let seen = seen_of(list);
    assert_eq!((seen.greater, seen.greater_by_points_alone), (1, 0));
}

#[test]
fn example_i_by_hand() {
    // Six slots of 998.958333… make 5,993.75 Wh: 1.997916… kW; printed is 1 kW.
    let mut list = list_of_count(1);
    list.push(PointFields::Consumer(consumer_of_example_h(1, 241)));
    has_exact_total(&list, Fraction::new(599_375, 100));
}

#[test]
fn a_plant_by_hand() {
    // 100 × 0.667 = 66.7 in five slots and 102 × 0.667 = 68.034 in one make
    // 401.534 Wh; printed is 0 kW.
    let mut list = list_of_count(1);
    list.push(plant(1, 333, 50, 50));
    list.points[0].readings()[3] = 52;
    has_exact_total(&list, Fraction::new(401_534, 1_000));
}

#[test]
fn every_list_counts_in_the_same_parts() {
    let kw: i128 = 72_000_000 * 1_000_000_000_000;
    // 0; 6 × 1 Wh; 6 × 2 × 0.667 Wh.
    let sold = [0, 6 * kw / 3_000, 12 * 667 * kw / 3_000_000];
    for (point, sold) in a_point_of_each_kind(1).into_iter().zip(sold) {
        let mut list = list_of_count(1);
        list.head.losses = [0; 3];
        list.push(point);
        assert_eq!(account_of(&list).closing(), Some(1_000 * kw - sold));
    }
}

#[test]
fn plants_with_and_without_remainder() {
    let seen = |points: &[PointFields], contract: u32| {
        let mut list = List::new(Head::EXAMPLE_M);
        points.iter().for_each(|point| list.push(point.clone()));
        list.head.contract = contract;
        seen_of(&list)
    };
    // 250.5 and 249.5 are whole together: 500 in each slot, 1 kW in all.
    let whole = plant(1, 500, 501, 499);
    assert_eq!(seen(&[whole], 1_000).equal_without_remainder, 1);
    // 500.5 in each slot: 500 are printed, and 3,000 Wh leave no remainder.
    let with_remainder = [plant(1, 500, 501, 500)];
    let by_points = seen(&with_remainder, 1_000);
    assert_eq!(
        (by_points.greater, by_points.greater_by_points_alone),
        (1, 1)
    );
    // A share of 1,000 gives 0 with no remainder.
    let nothing = plant(1, 1_000, 777, 3);
    assert_eq!(seen(&[nothing], 1_000).equal_without_remainder, 1);
    // 501 in each slot leaves only the total's remainder.
    let by_total = seen(&[plant(1, 500, 502, 500)], 1_000);
    assert_eq!((by_total.greater, by_total.greater_by_total_alone), (1, 1));
    // Settled reaches the contract: equal, whatever is left.
    let reached = [plant(1, 1, 500_501, 0)]; // 500,000.499 a slot: 1,000 kW
    assert_eq!(seen(&reached, 1_000).equal_contract_reached, 1);
    assert_eq!(seen(&reached, 1_001).greater_by_points_alone, 1);
    assert_eq!(seen(&with_remainder, 0).equal_contract_reached, 1);
    // A remainder of the first point counts behind a generator without one.
    let behind = [plant(1, 500, 501, 500), generator(2, 0, 500)];
    assert_eq!(seen(&behind, 1_000).greater_by_points_alone, 1);
}

#[test]
fn the_account_refuses_like_the_paper() {
    let list = list_of_count(2);
    let mut account = account_of(&list);
    let first = generator(0, 0, 1).value();
    assert!(account.adding(4, &first, 5).is_none()); // 13
    assert!(account.adding(4, &first, 6).is_some());
    assert!(account.adding(4, &first, 6).is_none()); // 15
    assert_eq!((account.points(), account.closing()), (1, None));
    assert!(account.adding(4, &generator(1, 0, 1).value(), 6).is_some());
    assert!(account.closing().is_some());
    assert!(account.adding(4, &generator(2, 0, 1).value(), 6).is_none()); // 10
    let mut never = Account::opening(&list.head.value(), &[4; 30]);
    assert!(never.adding(4, &first, 6).is_none());
    assert_eq!(never.closing(), None);
}

#[test]
fn ten_thousand_points_come_near_the_allowance() {
    let mut list = list_of_count(10_000);
    list.head.losses = [1, 0, 0];
    list.head.contract = 10_000_000;
    let mut consumer = consumer_with_large_remainders(&list);
    let (_, first, places) = add_point(&opened(&list), &PointFields::Consumer(consumer.clone()));
    assert_eq!(first.points, 1);
    let mut calls = Vec::new();
    for number in 0..9_999 {
        consumer.number = point_number(number);
        calls.push(adding(&PointFields::Consumer(consumer.clone())));
    }
    let total: i64 = 9_999 * places.iter().sum::<i64>();
    let mut last = GeneratorFields::flat(9_999, 0, 0);
    last.readings[0] = (2_999 - total.rem_euclid(3_000)) as u32;
    calls.push(adding(&PointFields::Generator(last)));
    calls.push(Call::Closing);
    let seen = demand3(&list.head.value(), &list.marks, &calls).unwrap();
    assert_eq!((seen.accepted_addings, seen.greater), (10_000, 1));
    assert!(printed_less_exact(&list, &calls) > 20.99); // allowed: below 21
}

#[test]
fn ten_thousand_plants_come_near_the_allowance() {
    // Each slot of a plant gives 5,000.999 Wh, of which 5,000 are counted; the
    // last plant has 1 Wh less, so that the total is 299,999,999 Wh. Exactly it
    // is 59,940 Wh more: 100,019.97966.. kW beside 99,999 kW.
    let mut list = list_of_count(10_000);
    list.head.contract = 10_000_000;
    let mut calls = Vec::new();
    for number in 0..9_999 {
        calls.push(adding(&plant(number, 999, 5_000_000, 999)));
    }
    let mut last = plant(9_999, 999, 5_000_000, 999);
    last.readings()[0] -= 1_000;
    calls.push(adding(&last));
    let off = printed_less_exact(&list, &calls);
    assert!((20.97966..20.97967).contains(&off), "{off}"); // allowed: below 21
    calls.push(Call::Closing);
    let seen = demand3(&list.head.value(), &list.marks, &calls).unwrap();
    assert_eq!((seen.accepted_addings, seen.greater), (10_000, 1));
}

/// Printed less exact shortfall in kW after a sequence of accepted addings.
fn printed_less_exact(list: &List, calls: &[Call]) -> f64 {
    let mut state = opened(list);
    let mut account = Account::opening(&list.head.value(), &list.marks);
    for call in calls {
        if let Call::Adding { tag, value, .. } = call {
            state = ledger::add(&state, *tag, value, &mut [0; 6]).state;
            account.adding(*tag, value, 6);
        }
    }
    let parts = parts_of_a_kw(account.terms().unwrap());
    let printed = i128::from(ledger::close(&state).1.shortfall) * parts;
    (printed - account.closing().unwrap()) as f64 / parts as f64
}

/// Printed less exact shortfall of a list of accepted points, less what demand
/// 3 allows, in kW.
fn beyond_the_allowance(list: &List) -> f64 {
    let calls: Vec<Call> = list.points.iter().map(adding).collect();
    printed_less_exact(list, &calls) - 1.0 - 0.002 * list.points.len() as f64
}

#[test]
fn lists_at_the_allowance_come_near_it() {
    for seed in 0..200 {
        for near in [consumers_near_allowance, plants_near_allowance] {
            let beyond = beyond_the_allowance(&near(&mut Random::new(seed)));
            assert!((-0.0005..0.0).contains(&beyond), "{seed}: {beyond}");
        }
        // One kW more is a Wh of 3,000 below, at or above it.
        let beyond = beyond_the_allowance(&generators_at_allowance(&mut Random::new(seed))) + 1.0;
        assert!((-0.0004..0.0004).contains(&beyond), "{seed}: {beyond}");
    }
}

/// What demand 3 shows of a list whose points are added and then closed.
fn seen_of(list: &List) -> Seen {
    let mut calls: Vec<Call> = list.points.iter().map(adding).collect();
    calls.push(Call::Closing);
    demand3(&list.head.value(), &list.marks, &calls).unwrap()
}

#[test]
fn one_remainder_alone_makes_the_printed_one_greater() {
    for seed in 0..200 {
        for make in [one_remainder, one_remainder_of_a_plant] {
            let seen = seen_of(&make(&mut Random::new(seed)));
            assert_eq!(seen.greater_by_points_alone, 1, "{seed}");
        }
        let seen = seen_of(&plants_whole_together(&mut Random::new(seed)));
        assert_eq!(seen.equal_without_remainder, 1, "{seed}");
    }
}

/// A program that does something else after an accepted adding.
struct Altered<F: Fn(&State, &State, &[i64]) -> State>(F);

impl<F: Fn(&State, &State, &[i64]) -> State> Program for Altered<F> {
    fn open(&self, head: &[u8], calendar: &[u8]) -> (u32, State) {
        ledger::open(head, calendar)
    }

    fn add(&self, state: &State, tag: u8, value: &[u8], places: &mut [i64]) -> Added {
        let mut added = ledger::add(state, tag, value, places);
        if added.refusal == 0 {
            added.state = (self.0)(state, &added.state, places);
        }
        added
    }

    fn close(&self, state: &State) -> (u32, Figures) {
        ledger::close(state)
    }
}

/// The first breach of a program over seeded sequences.
fn breach_of(program: &impl Program) -> Option<Breach> {
    (0..3_000).find_map(|seed| {
        let Sequence {
            head,
            calendar,
            calls,
            ..
        } = seeded_sequence(seed);
        demand3_of(program, &head, &calendar, &calls).err()
    })
}

#[test]
fn the_checker_passes_the_unaltered_program() {
    assert_eq!(breach_of(&Settlement), None);
    assert_eq!(breach_of(&Altered(|_, after, _| *after)), None);
}

#[test]
fn results_below_zero_set_to_zero_are_found() {
    let clipped = Altered(|before, after, places| State {
        totals: std::array::from_fn(|slot| before.totals[slot] + places[slot].max(0)),
        ..*after
    });
    assert!(breach_of(&clipped).is_some());
}

#[test]
fn results_rounded_up_are_found() {
    let raised = Altered(|before, after, places| State {
        totals: std::array::from_fn(|slot| before.totals[slot] + places[slot] + 1),
        ..*after
    });
    assert!(breach_of(&raised).is_some());
}

#[test]
fn results_rounded_down_once_more_are_found() {
    let lowered = Altered(|_, after, places| State {
        totals: std::array::from_fn(|slot| after.totals[slot] - i64::from(places[slot] > 0)),
        ..*after
    });
    assert!(breach_of(&lowered).is_some());
}

#[test]
fn settling_the_first_point_alone_is_found() {
    let first_only = Altered(|before, after, _| State {
        totals: if before.points > 0 {
            before.totals
        } else {
            after.totals
        },
        ..*after
    });
    assert!(breach_of(&first_only).is_some());
}

#[test]
fn a_number_not_kept_is_found() {
    let forgets = Altered(|before, after, _| State {
        last: before.last,
        ..*after
    });
    let breach = breach_of(&forgets).unwrap();
    assert_eq!(breach.what, "accepted by one side only");
}

#[test]
fn points_not_counted_are_found() {
    let uncounted = Altered(|before, after, _| State {
        points: before.points.max(1),
        ..*after
    });
    let breach = breach_of(&uncounted).unwrap();
    assert_eq!(breach.what, "accepted by one side only");
}

/// A program that closes otherwise.
struct Closes(fn(&State) -> (u32, Figures));

impl Program for Closes {
    fn open(&self, head: &[u8], calendar: &[u8]) -> (u32, State) {
        ledger::open(head, calendar)
    }

    fn add(&self, state: &State, tag: u8, value: &[u8], places: &mut [i64]) -> Added {
        ledger::add(state, tag, value, places)
    }

    fn close(&self, state: &State) -> (u32, Figures) {
        (self.0)(state)
    }
}

#[test]
fn closings_gone_wrong_are_found() {
    let early = Closes(|state| {
        let mut early = *state;
        early.terms.head.count = state.points.max(1);
        ledger::close(&early)
    });
    assert_eq!(breach_of(&early).unwrap().what, "accepted by one side only");
    let toward_zero = Closes(|state| {
        let (number, mut figures) = ledger::close(state);
        figures.settled = figures.total / 3_000;
        figures.shortfall = (i64::from(state.terms.head.contract) - figures.settled).max(0);
        (number, figures)
    });
    assert!(breach_of(&toward_zero).is_some());
    let one_too_many = Closes(|state| {
        let (number, mut figures) = ledger::close(state);
        figures.shortfall += i64::from(figures.shortfall > 0);
        (number, figures)
    });
    assert!(breach_of(&one_too_many).is_some());
    let constant = Closes(|state| (ledger::close(state).0, Figures::default()));
    assert!(breach_of(&constant).is_some());
}

/// Generators with six readings together as given, in a list of their number.
fn generators_with_totals(totals: &[u32]) -> (List, Vec<Call>) {
    let mut list = List::new(Head::EXAMPLE_M);
    for (number, total) in (1..).zip(totals) {
        let mut generator = GeneratorFields::flat(number, 0, 0);
        generator.readings[3] = *total;
        list.push(PointFields::Generator(generator));
    }
    let mut calls: Vec<Call> = list.points.iter().map(adding).collect();
    calls.push(Call::Closing);
    (list, calls)
}

/// What the checker says to a program over generators with such totals.
fn said_of(program: &impl Program, totals: &[u32]) -> Result<Seen, Breach> {
    let (list, calls) = generators_with_totals(totals);
    demand3_of(program, &list.head.value(), &list.marks, &calls)
}

#[test]
fn the_checker_knows_the_allowance_to_the_watt() {
    let one_more = Closes(|state| {
        let (number, mut figures) = ledger::close(state);
        figures.shortfall += 1;
        (number, figures)
    });
    let breach = |call| Breach {
        call,
        what: "printed shortfall too far off",
    };
    // One kW more than the rule gives, and 3 Wh of 3,000 are one watt.
    assert!(said_of(&one_more, &[5]).is_ok());
    assert_eq!(said_of(&one_more, &[6]), Err(breach(2)));
    assert!(said_of(&one_more, &[6, 5]).is_ok());
    assert_eq!(said_of(&one_more, &[6, 6]), Err(breach(3)));
}

#[test]
fn the_checker_wants_the_greater_to_be_the_printed_one() {
    let one_less = Closes(|state| {
        let (number, mut figures) = ledger::close(state);
        figures.shortfall -= 1;
        (number, figures)
    });
    let breach = |what| Err(Breach { call: 2, what });
    assert_eq!(
        said_of(&one_less, &[1]),
        breach("printed shortfall not greater")
    );
    let due = "equal, but not exactly where due";
    assert_eq!(said_of(&one_less, &[3_000]), breach(due));
    assert_eq!(said_of(&one_less, &[3_000_000]), breach(due));
}

/// A program that answers every adding with one number.
struct Answers(u32);

impl Program for Answers {
    fn open(&self, head: &[u8], calendar: &[u8]) -> (u32, State) {
        ledger::open(head, calendar)
    }

    fn add(&self, state: &State, _: u8, _: &[u8], _: &mut [i64]) -> Added {
        Added {
            refusal: self.0,
            index: 0,
            state: *state,
            days: [0; 4],
        }
    }

    fn close(&self, state: &State) -> (u32, Figures) {
        ledger::close(state)
    }
}

#[test]
fn the_checker_compares_every_answer() {
    let (list, calls) = generators_with_totals(&[1, 2]);
    let said = |program: &Answers, head: &[u8], calls: &[Call]| {
        demand3_of(program, head, &list.marks, calls).map_err(|breach| breach.call)
    };
    let head = list.head.value();
    assert_eq!(said(&Answers(18), &head, &calls[..2]), Err(1));
    assert!(said(&Answers(0), &head, &calls[..2]).is_ok());
    let again = [calls[0].clone(), calls[0].clone()];
    assert_eq!(said(&Answers(0), &head, &again), Err(2));
    assert_eq!(said(&Answers(0), &head[..16], &calls[..1]), Err(1));
}

#[test]
fn the_checker_counts_what_it_has_seen() {
    let (list, calls) = generators_with_totals(&[1, 3_000]);
    let [first, second] = [calls[0].clone(), calls[1].clone()];
    let sequence = [
        Call::Closing,
        first.clone(),
        first,
        Call::Closing,
        second,
        Call::Closing,
    ];
    let seen = demand3(&list.head.value(), &list.marks, &sequence).unwrap();
    let due = Seen {
        accepted_addings: 2,
        refused_addings: 1,
        refused_closings: 2,
        greater: 1,
        greater_by_total_alone: 1,
        ..Seen::default()
    };
    assert_eq!(seen, due);
    let refused = demand3(&[], &list.marks, &sequence).unwrap();
    let due = Seen {
        refused_openings: 1,
        ..Seen::default()
    };
    assert_eq!(refused, due);
}

#[test]
fn the_checker_tells_the_closings_apart() {
    let seen = |totals: &[u32]| said_of(&Settlement, totals).unwrap();
    let one = |seen: Seen| Seen {
        accepted_addings: 1,
        ..seen
    };
    let reached = Seen {
        equal_contract_reached: 1,
        ..Seen::default()
    };
    assert_eq!(seen(&[3_000_001]), one(reached));
    let without_remainder = Seen {
        equal_without_remainder: 1,
        ..Seen::default()
    };
    assert_eq!(seen(&[0]), one(without_remainder));
    let mut list = List::new(Head::EXAMPLE_M);
    list.push(PointFields::Consumer(consumer_of_example_h(1, 241)));
    list.push(generator(2, 0, 2)); // 5,988 and 12
    let calls = [
        adding(&list.points[0]),
        adding(&list.points[1]),
        Call::Closing,
    ];
    let by_points = demand3(&list.head.value(), &list.marks, &calls).unwrap();
    assert_eq!(
        (by_points.greater, by_points.greater_by_points_alone),
        (1, 1)
    );
    list.points[1] = generator(2, 100, 0);
    let calls = [
        adding(&list.points[0]),
        adding(&list.points[1]),
        Call::Closing,
    ];
    let below_zero = demand3(&list.head.value(), &list.marks, &calls).unwrap();
    assert_eq!((below_zero.greater, below_zero.settled_below_zero), (1, 1));
}

/// A program that answers every opening with one number.
struct Opens(u32);

impl Program for Opens {
    fn open(&self, head: &[u8], calendar: &[u8]) -> (u32, State) {
        (self.0, ledger::open(head, calendar).1)
    }

    fn add(&self, state: &State, tag: u8, value: &[u8], places: &mut [i64]) -> Added {
        ledger::add(state, tag, value, places)
    }

    fn close(&self, state: &State) -> (u32, Figures) {
        ledger::close(state)
    }
}

#[test]
fn the_checker_compares_openings() {
    let head = Head::EXAMPLE_M.value();
    let said = |program: Opens, head: &[u8]| {
        demand3_of(&program, head, &[0; 30], &[]).map_err(|breach| breach.call)
    };
    assert!(said(Opens(0), &head).is_ok());
    assert!(said(Opens(1), &head[1..]).is_ok());
    assert_eq!(said(Opens(1), &head), Err(0));
    assert_eq!(said(Opens(0), &head[1..]), Err(0));
}
