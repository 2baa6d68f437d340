//! The three sequences of calls that the product works out by computing its
//! definitions (crates/worked_examples/specs/Sequences.antt): the same refusals, the
//! same figures, the same exact shortfall.

use settlement::account::{parts_of_a_kw, Account};
use settlement::books::examples::consumer_of_example_h;
use settlement::books::fields::{point_number, GeneratorFields, Head, MixedFiringFields};
use settlement::ledger::{add, close, open};

const TWO_POINTS: Head = Head {
    count: 2,
    ..Head::EXAMPLE_M
};

/// A closing, or an adding of a tag and a value.
type Call<'a> = Option<(u8, &'a [u8])>;

/// The calls after an accepted opening, each with the refusal due to it, and
/// then a closing that is accepted: its total, settled and shortfall, and the
/// exact shortfall in so many parts of a kW, are given back.
fn worked(marks: u8, calls: &[(u32, Call)], parts: i128) -> (i64, i64, i64, i128) {
    let head = TWO_POINTS.value();
    let calendar = [marks; 30];
    let (refusal, mut state) = open(&head, &calendar);
    let mut account = Account::opening(&head, &calendar);
    assert_eq!(refusal, 0);
    let mut places = [0; 6];
    for &(expected, call) in calls {
        let (refusal, accepted) = match call {
            None => (close(&state).0, account.closing().is_some()),
            Some((tag, value)) => {
                let added = add(&state, tag, value, &mut places);
                state = added.state;
                (added.refusal, account.adding(tag, value, 6).is_some())
            }
        };
        assert_eq!(refusal, expected);
        assert_eq!(accepted, expected == 0);
    }
    let (refusal, figures) = close(&state);
    assert_eq!(refusal, 0);
    let words = figures.words();
    assert_eq!(words[6], 2);
    let kw = parts_of_a_kw(account.terms().expect("opened"));
    assert_eq!(kw, 62_995_968_000_000_000_000);
    let exact = account.closing().expect("closed");
    assert_eq!(exact * parts % kw, 0);
    (words[0], words[1], words[2], exact * parts / kw)
}

/// A closing too early, a generator with too high a baseline, the generator, a
/// closing too early, the consumer, a point too many; the exact shortfall is in
/// 480ths of a kW.
fn with_a_consumer(metered: u32, usage: u32) -> (i64, i64, i64, i128) {
    let generator = GeneratorFields::flat(1, 0, metered).value();
    let too_high = GeneratorFields::flat(1, 1_000_001, metered).value();
    let consumer = consumer_of_example_h(1_111_111_111_111_111_111_111, usage).value();
    let calls: [(u32, Call); 6] = [
        (20, None),
        (16, Some((4, &too_high))),
        (0, Some((4, &generator))),
        (20, None),
        (0, Some((3, &consumer))),
        (10, Some((4, &generator))),
    ];
    worked(0, &calls, 480)
}

#[test]
fn with_a_remainder() {
    assert_eq!(
        with_a_consumer(100_000, 241),
        (605_988, 201, 799, 798 * 480 + 1)
    );
}

#[test]
fn without_a_remainder() {
    assert_eq!(with_a_consumer(99_000, 240), (600_000, 200, 800, 800 * 480));
}

const PLANT_READINGS: [u32; 12] = [
    100_001, 200_001, 300_001, 400_001, 500_001, 600_001, 1, 2, 3, 4, 5, 6,
];

fn plant(number: u128, share: u16, last: u32) -> Vec<u8> {
    let mut readings = PLANT_READINGS;
    readings[11] = last;
    MixedFiringFields {
        number: point_number(number),
        share,
        readings,
    }
    .value()
}

/// On thirty marks of 1, since a plant needs no days. The exact shortfall is
/// 533.093997 kW.
#[test]
fn with_plants() {
    let calls: [(u32, Call); 6] = [
        (20, None),
        (50, Some((5, &plant(1, 1_001, 1_000_000_001)))),
        (51, Some((5, &plant(1, 333, 1_000_000_001)))),
        (0, Some((5, &plant(1, 333, 6)))),
        (15, Some((5, &plant(1, 1_001, 6)))),
        (0, Some((5, &plant(2, 1_000, 6)))),
    ];
    let answer = worked(1, &calls, 1_000_000);
    assert_eq!(answer, (1_400_716, 466, 534, 533_093_997));
}

#[test]
fn slots_of_a_plant() {
    let (_, state) = open(&TWO_POINTS.value(), &[1; 30]);
    let mut places = [0; 6];
    assert_eq!(add(&state, 5, &plant(1, 333, 6), &mut places).refusal, 0);
    assert_eq!(
        places,
        [66_701, 133_402, 200_102, 266_803, 333_504, 400_204]
    );
}
