//! The half-year report of change request 4, with records worked by hand from
//! the papers, and the rules of a record against all closings there are.

mod common;

use common::records::*;
use settlement::books::seeded_book;
use settlement::ledger::Figures;
use settlement::report::{report_text, Sums};
use std::collections::HashSet;

/// The text due for sums, in the report's order.
fn text_of(sums: [i128; 8]) -> String {
    let [records, points, total, settled, shortfall, expected, kept, surplus] = sums;
    format!(
        "records {records}\npoints {points}\ntotal {total}\nsettled {settled}\n\
         shortfall {shortfall}\nexpected {expected}\nkept {kept}\nsurplus {surplus}\n"
    )
}

#[test]
fn no_records_give_zeros() {
    let zeros = "records 0\npoints 0\ntotal 0\nsettled 0\n\
                 shortfall 0\nexpected 0\nkept 0\nsurplus 0\n";
    assert_eq!(report_text(&[]), zeros);
}

/// 3,300,000 Wh, 1,100 kW, shortfall 0, 1,100, 1,000, 100, one point, bid yes.
const BYTES_OF_M: [u8; 64] = [
    0, 0, 0, 0, 0, 0x32, 0x5A, 0xA0, //
    0, 0, 0, 0, 0, 0, 0x04, 0x4C, //
    0, 0, 0, 0, 0, 0, 0, 0, //
    0, 0, 0, 0, 0, 0, 0x04, 0x4C, //
    0, 0, 0, 0, 0, 0, 0x03, 0xE8, //
    0, 0, 0, 0, 0, 0, 0, 0x64, //
    0, 0, 0, 0, 0, 0, 0, 1, //
    0, 0, 0, 0, 0, 0, 0, 1, //
];

/// Total −1: settled −1, shortfall 1 of a contract of 0, no bid.
const BYTES_OF_MINUS_ONE: [u8; 64] = [
    0xFF, 0xFF, 0xFF, 0xFF, 0xFF, 0xFF, 0xFF, 0xFF, //
    0xFF, 0xFF, 0xFF, 0xFF, 0xFF, 0xFF, 0xFF, 0xFF, //
    0, 0, 0, 0, 0, 0, 0, 1, //
    0, 0, 0, 0, 0, 0, 0, 0, //
    0, 0, 0, 0, 0, 0, 0, 0, //
    0, 0, 0, 0, 0, 0, 0, 0, //
    0, 0, 0, 0, 0, 0, 0, 1, //
    0, 0, 0, 0, 0, 0, 0, 0, //
];

#[test]
fn one_record_of_example_m() {
    let text = "records 1\npoints 1\ntotal 3300000\nsettled 1100\n\
                shortfall 0\nexpected 1100\nkept 1000\nsurplus 100\n";
    assert_eq!(report_text(&BYTES_OF_M), text);
    assert_eq!(bytes(&[M]), BYTES_OF_M);
}

#[test]
fn words_below_zero_have_a_minus_sign() {
    let text = "records 1\npoints 1\ntotal -1\nsettled -1\n\
                shortfall 1\nexpected 0\nkept 0\nsurplus 0\n";
    assert_eq!(report_text(&BYTES_OF_MINUS_ONE), text);
    assert_eq!(bytes(&[MINUS_ONE]), BYTES_OF_MINUS_ONE);
}

/// M; −1 Wh with contract 0; two points with −48,000,000,000 Wh, as far as they
/// go, and contract 1,000: settled −16,000,000, shortfall 16,001,000; and 999 kW
/// of 10,000,000.
#[test]
fn sums_over_records_of_both_signs() {
    let furthest = [-48_000_000_000, -16_000_000, 16_001_000, 0, 0, 0, 2, 0];
    let nearly = [2_999_999, 999, 9_999_001, 999, 999, 0, 3, 0];
    let records = [M, MINUS_ONE, furthest, nearly];
    let sums = [
        4,
        1 + 1 + 2 + 3,
        3_300_000 - 1 - 48_000_000_000 + 2_999_999,
        1_100 - 1 - 16_000_000 + 999,
        1 + 16_001_000 + 9_999_001,
        1_100 + 999,
        1_000 + 999,
        100,
    ];
    assert_eq!(report_text(&bytes(&records)), text_of(sums));
    // The order of the records does not matter to the sums.
    let [first, second, third, fourth] = records;
    let other = [fourth, third, first, second];
    assert_eq!(report_text(&bytes(&other)), text_of(sums));
}

/// 500 records as far as they go: nothing of the sums is lost.
#[test]
fn the_furthest_sums() {
    let high: Words = [
        240_000_000_000_000,
        80_000_000_000,
        0,
        80_000_000_000,
        10_000_000,
        79_990_000_000,
        10_000,
        1,
    ];
    let low: Words = [
        -240_000_000_000_000,
        -80_000_000_000,
        80_010_000_000,
        0,
        0,
        0,
        10_000,
        0,
    ];
    let sums = [
        500,
        5_000_000,
        120_000_000_000_000_000,
        40_000_000_000_000,
        0,
        40_000_000_000_000,
        5_000_000_000,
        39_995_000_000_000,
    ];
    assert_eq!(report_text(&bytes(&[high; 500])), text_of(sums));
    let sums = [
        500,
        5_000_000,
        -120_000_000_000_000_000,
        -40_000_000_000_000,
        40_005_000_000_000,
        0,
        0,
        0,
    ];
    assert_eq!(report_text(&bytes(&[low; 500])), text_of(sums));
}

/// Records that break one rule, and what breaks it. Words: total, settled,
/// shortfall, expected, kept, surplus, points, bid.
const BROKEN: [(&str, Words); 24] = [
    (
        "settled 1 above the total",
        [3_299_999, 1_100, 0, 1_100, 1_000, 100, 1, 1],
    ),
    (
        "settled 1 below the total",
        [3_303_000, 1_100, 0, 1_100, 1_000, 100, 1, 1],
    ),
    ("settled toward zero", [-1, 0, 0, 0, 0, 0, 1, 0]),
    (
        "expected 1 above settled",
        [3_300_000, 1_100, 0, 1_101, 1_000, 101, 1, 1],
    ),
    (
        "expected above 0 where settled is below",
        [-3_000, -1, 1_001, 1, 1, 0, 1, 0],
    ),
    (
        "kept and surplus 1 more than expected",
        [3_300_000, 1_100, 0, 1_100, 1_000, 101, 1, 1],
    ),
    (
        "kept and surplus 1 less than expected",
        [3_300_000, 1_100, 0, 1_100, 1_000, 99, 1, 1],
    ),
    (
        "surplus below zero",
        [3_300_000, 1_100, 0, 1_100, 1_101, -1, 1, 1],
    ),
    (
        "bid 0 at 1,100",
        [3_300_000, 1_100, 0, 1_100, 1_000, 100, 1, 0],
    ),
    ("bid 1 at 999", [2_999_999, 999, 1, 999, 999, 0, 1, 1]),
    ("bid 2", [3_300_000, 1_100, 0, 1_100, 1_000, 100, 1, 2]),
    ("bid -1", [3_300_000, 1_100, 0, 1_100, 1_000, 100, 1, -1]),
    (
        "shortfall below zero",
        [3_300_000, 1_100, -1, 1_100, 1_000, 100, 1, 1],
    ),
    (
        "surplus with a shortfall",
        [3_300_000, 1_100, 1, 1_100, 1_000, 100, 1, 1],
    ),
    ("a contract of 1", [0, 0, 1, 0, 0, 0, 1, 0]),
    (
        "a contract of 999 with a shortfall",
        [3_000, 1, 998, 1, 1, 0, 1, 0],
    ),
    (
        "a contract of 10,000,001 with a shortfall",
        [3_000, 1, 10_000_000, 1, 1, 0, 1, 0],
    ),
    ("a contract of -1", [-6_000, -2, 1, 0, 0, 0, 1, 0]),
    (
        "settled below 0 without a shortfall",
        [-3_000, -1, 0, 0, 0, 0, 1, 0],
    ),
    (
        "a contract of 999 without a shortfall",
        [3_300_000, 1_100, 0, 1_100, 999, 101, 1, 1],
    ),
    ("no points", [0, 0, 0, 0, 0, 0, 0, 0]),
    (
        "10,001 points",
        [3_300_000, 1_100, 0, 1_100, 1_000, 100, 10_001, 1],
    ),
    (
        "total 1 above the limit of a point",
        [
            24_000_000_001,
            8_000_000,
            0,
            8_000_000,
            1_000,
            7_999_000,
            1,
            1,
        ],
    ),
    (
        "total 1 below the limit of a point",
        [-24_000_000_001, -8_000_001, 8_001_001, 0, 0, 0, 1, 0],
    ),
];

#[test]
fn each_rule_turns_a_record_away() {
    for (what, record) in BROKEN {
        assert_eq!(report_text(&bytes(&[record])), "refused 54 0\n", "{what}");
        for before in [1, 2, 9, 10, 499] {
            let mut records = vec![M; before];
            records.push(record);
            let due = format!("refused 54 {before}\n");
            assert_eq!(report_text(&bytes(&records)), due, "{what}");
        }
    }
}

/// Records just inside the rules: the words of a closing, worked by hand.
const INSIDE: [(&str, Words); 26] = [
    ("total 2,999", [2_999, 0, 0, 0, 0, 0, 1, 0]),
    ("total 3,000", [3_000, 1, 0, 1, 0, 1, 1, 0]),
    ("total 0 of contract 0", [0, 0, 0, 0, 0, 0, 1, 0]),
    ("total -1", [-1, -1, 1, 0, 0, 0, 1, 0]),
    ("total -3,000", [-3_000, -1, 1, 0, 0, 0, 1, 0]),
    ("total -3,001", [-3_001, -2, 2, 0, 0, 0, 1, 0]),
    ("total -1 of contract 1,000", [-1, -1, 1_001, 0, 0, 0, 1, 0]),
    (
        "total -1 of contract 10,000,000",
        [-1, -1, 10_000_001, 0, 0, 0, 1, 0],
    ),
    ("settled 0 of contract 1,000", [0, 0, 1_000, 0, 0, 0, 1, 0]),
    (
        "expected 999 of contract 1,000",
        [2_999_999, 999, 1, 999, 999, 0, 1, 0],
    ),
    (
        "expected 999 of contract 0",
        [2_999_999, 999, 0, 999, 0, 999, 1, 0],
    ),
    (
        "expected 1,000 of contract 1,000",
        [3_000_000, 1_000, 0, 1_000, 1_000, 0, 1, 1],
    ),
    (
        "expected 1,000 of contract 0",
        [3_000_000, 1_000, 0, 1_000, 0, 1_000, 1, 1],
    ),
    (
        "expected 1,000 of contract 1,001",
        [3_000_000, 1_000, 1, 1_000, 1_000, 0, 1, 1],
    ),
    (
        "expected 1,001 of contract 1,000",
        [3_003_000, 1_001, 0, 1_001, 1_000, 1, 1, 1],
    ),
    (
        "settled 1 below contract 10,000,000",
        [29_999_999_999, 9_999_999, 1, 9_999_999, 9_999_999, 0, 2, 1],
    ),
    (
        "settled at contract 10,000,000",
        [
            30_000_000_000,
            10_000_000,
            0,
            10_000_000,
            10_000_000,
            0,
            2,
            1,
        ],
    ),
    (
        "settled above contract 10,000,000",
        [
            30_000_003_000,
            10_000_001,
            0,
            10_000_001,
            10_000_000,
            1,
            2,
            1,
        ],
    ),
    (
        "settled 1 of contract 10,000,000",
        [3_000, 1, 9_999_999, 1, 1, 0, 1, 0],
    ),
    (
        "10,000 points",
        [3_300_000, 1_100, 0, 1_100, 1_000, 100, 10_000, 1],
    ),
    (
        "furthest of a point above",
        [
            24_000_000_000,
            8_000_000,
            0,
            8_000_000,
            1_000,
            7_999_000,
            1,
            1,
        ],
    ),
    (
        "furthest of a point below",
        [-24_000_000_000, -8_000_000, 8_001_000, 0, 0, 0, 1, 0],
    ),
    (
        "one nearer below",
        [-23_999_999_999, -8_000_000, 8_000_000, 0, 0, 0, 1, 0],
    ),
    (
        "furthest of 9,999 points",
        [
            239_976_000_000_000,
            79_992_000_000,
            0,
            79_992_000_000,
            0,
            79_992_000_000,
            9_999,
            1,
        ],
    ),
    (
        "furthest of 10,000 points above",
        [
            240_000_000_000_000,
            80_000_000_000,
            0,
            80_000_000_000,
            0,
            80_000_000_000,
            10_000,
            1,
        ],
    ),
    (
        "furthest of 10,000 points below",
        [
            -240_000_000_000_000,
            -80_000_000_000,
            80_000_000_000,
            0,
            0,
            0,
            10_000,
            0,
        ],
    ),
];

#[test]
fn records_just_inside_the_rules() {
    for (what, record) in INSIDE {
        let [total, settled, shortfall, expected, kept, surplus, points, _] =
            record.map(i128::from);
        let sums = [
            1, points, total, settled, shortfall, expected, kept, surplus,
        ];
        assert_eq!(report_text(&bytes(&[record])), text_of(sums), "{what}");
    }
}

/// One word of M as far as it goes: none of them is then a record of a closing.
#[test]
fn each_word_as_far_as_it_goes() {
    for place in 0..8 {
        for far in [i64::MIN, i64::MAX] {
            let mut record = M;
            record[place] = far;
            assert_eq!(report_text(&bytes(&[record])), "refused 54 0\n");
        }
    }
    for far in [i64::MIN, i64::MAX, -1] {
        assert_eq!(report_text(&bytes(&[[far; 8]])), "refused 54 0\n");
    }
}

/// Records with far words; most of them break a rule that they would keep where its
/// figures were kept in 64 or 32 bits.
const FAR: [(&str, Words); 9] = [
    (
        "total -2^63, its settled capacity and a contract of 0",
        [
            i64::MIN,
            -3_074_457_345_618_259,
            3_074_457_345_618_259,
            0,
            0,
            0,
            10_000,
            0,
        ],
    ),
    (
        "total 2^63 - 1, its settled capacity and a contract of 0",
        [
            i64::MAX,
            3_074_457_345_618_258,
            0,
            3_074_457_345_618_258,
            0,
            3_074_457_345_618_258,
            10_000,
            1,
        ],
    ),
    (
        "kept and surplus -2^63: 0 in 64 bits",
        [0, 0, 0, 0, i64::MIN, i64::MIN, 1, 0],
    ),
    (
        "kept and surplus 2^63 - 1: -2 in 64 bits",
        [-6_000, -2, 2, -2, i64::MAX, i64::MAX, 1, 0],
    ),
    (
        "settled 1 and shortfall 2^63 - 1: -2^63 in 64 bits",
        [3_000, 1, i64::MAX, 1, 1, 0, 1, 0],
    ),
    (
        "settled 1 and shortfall 2^32 - 1: 0 in 32 bits",
        [3_000, 1, 4_294_967_295, 1, 1, 0, 1, 0],
    ),
    (
        "surplus 2^32 more: as due in 32 bits",
        [3_300_000, 1_100, 0, 1_100, 1_000, 4_294_967_396, 1, 1],
    ),
    (
        "10,000 points and 2^32 more",
        [3_300_000, 1_100, 0, 1_100, 1_000, 100, 4_294_977_296, 1],
    ),
    ("points -1 with a total of 0", [0, 0, 0, 0, 0, 0, -1, 0]),
];

#[test]
fn words_do_not_wrap() {
    for (what, record) in FAR {
        assert_eq!(report_text(&bytes(&[record])), "refused 54 0\n", "{what}");
    }
}

#[test]
fn five_hundred_records_and_no_more() {
    let sums = |records: i128| {
        [
            records,
            records,
            records * 3_300_000,
            records * 1_100,
            0,
            records * 1_100,
            records * 1_000,
            records * 100,
        ]
    };
    for records in [1, 2, 255, 256, 499, 500] {
        let text = report_text(&BYTES_OF_M.repeat(records));
        assert_eq!(text, text_of(sums(records as i128)));
    }
    for records in [501, 502, 512, 1_000, 65_536] {
        assert_eq!(report_text(&BYTES_OF_M.repeat(records)), "refused 53\n");
    }
}

#[test]
fn lengths_that_are_no_multiple() {
    for whole in [0, 1, 2, 499, 500] {
        let mut input = BYTES_OF_M.repeat(whole);
        for more in 1..64 {
            input.push(BYTES_OF_M[more - 1]);
            assert_eq!(report_text(&input), "refused 53\n", "{whole} and {more}");
        }
    }
}

/// Zeros are what a refused closing gives: no points, so 54 where the length fits.
#[test]
fn zeros_by_length() {
    for length in 1..=200 {
        let due = match length {
            64 | 128 | 192 => "refused 54 0\n",
            _ => "refused 53\n",
        };
        assert_eq!(report_text(&vec![0; length]), due, "{length}");
    }
}

#[test]
fn the_lowest_place_is_told() {
    let mut records = vec![M; 500];
    for place in [499, 498, 256, 255, 100, 99, 10, 9, 1, 0] {
        records[place] = BROKEN[place % BROKEN.len()].1;
        let due = format!("refused 54 {place}\n");
        assert_eq!(report_text(&bytes(&records)), due);
    }
}

#[test]
fn fifty_three_comes_before_fifty_four() {
    for (what, record) in BROKEN {
        let mut input = bytes(&[record, M]);
        input.pop();
        assert_eq!(report_text(&input), "refused 53\n", "{what}");
        let mut records = vec![M; 501];
        records[0] = record;
        assert_eq!(report_text(&bytes(&records)), "refused 53\n", "{what}");
    }
}

/// The words of a closing, from the sentences of "Closing figures".
fn closing(total: i64, contract: i64, points: i64) -> Words {
    let settled = total.div_euclid(3_000);
    let shortfall = if contract > settled {
        contract - settled
    } else {
        0
    };
    let expected = if settled < 0 { 0 } else { settled };
    let kept = if expected < contract {
        expected
    } else {
        contract
    };
    let bid = if expected < 1_000 { 0 } else { 1 };
    let surplus = expected - kept;
    [
        total, settled, shortfall, expected, kept, surplus, points, bid,
    ]
}

/// Every allowed contract.
fn contracts() -> impl Iterator<Item = i64> {
    [0].into_iter().chain(1_000..=10_000_000)
}

/// Records in as many reports as it takes, 500 in each: all pass.
fn assert_all_pass(records: impl Iterator<Item = Words>) {
    let mut waiting: Vec<Words> = Vec::new();
    let pass = |waiting: &[Words]| {
        let report = settlement::report::report(&bytes(waiting));
        assert!(report.is_ok(), "{report:?} from {:?}", waiting[0]);
    };
    for record in records {
        waiting.push(record);
        if waiting.len() == 500 {
            pass(&waiting);
            waiting.clear();
        }
    }
    pass(&waiting);
}

/// No closing is turned away, whatever the contract.
#[test]
fn the_closing_of_every_contract_passes() {
    for total in [0, 2_999_999, 3_000_000, 15_000_000_000, -48_000_000_000] {
        assert_all_pass(contracts().map(|contract| closing(total, contract, 2)));
    }
}

/// All records of small words around 0 and around 1,000: one passes exactly where
/// the closing with some contract gives it. The shortfall is at most 1,002 and
/// settled at most 1,001, so that no contract above 2,003 can give one of them.
#[test]
fn small_records_pass_exactly_where_a_contract_gives_them() {
    let totals = [-3_001, -3_000, -1, 0, 2_999, 3_000, 2_999_999, 3_000_000];
    let mut possible = HashSet::new();
    for total in totals {
        for contract in contracts().take_while(|&contract| contract < 4_000) {
            possible.insert(closing(total, contract, 1));
        }
    }
    let around_both = [-2, -1, 0, 1, 2, 998, 999, 1_000, 1_001];
    let shortfalls = [-1, 0, 1, 2, 3, 998, 999, 1_000, 1_001, 1_002];
    let (mut passed, mut turned_away) = (0, 0);
    for record in combinations([
        &totals,
        &around_both,
        &shortfalls,
        &around_both,
        &around_both,
        &around_both,
        &[1],
        &[-1, 0, 1, 2],
    ]) {
        let passes = passes_alone(record);
        assert_eq!(passes, possible.contains(&record), "{record:?}");
        passed += u32::from(passes);
        turned_away += u32::from(!passes);
    }
    assert!(passed > 20, "{passed}");
    assert!(turned_away > 1_000_000, "{turned_away}");
}

/// Each record that has a word of each list.
fn combinations(lists: [&[i64]; 8]) -> impl Iterator<Item = Words> + '_ {
    let count: usize = lists.iter().map(|list| list.len()).product();
    (0..count).map(move |mut number| {
        lists.map(|list| {
            let word = list[number % list.len()];
            number /= list.len();
            word
        })
    })
}

/// Whether a report over the record alone gives sums.
fn passes_alone(record: Words) -> bool {
    settlement::report::report(&bytes(&[record])).is_ok()
}

/// Words around those of a closing, in any combination of two: a record passes
/// exactly where one of all contracts gives it. Contracts that are looked at are
/// those up to 30,000, which is more than settled and shortfall together.
#[test]
fn random_records_pass_exactly_where_a_contract_gives_them() {
    let mut random = settlement::books::random::Random::new(4);
    let (mut passed, mut turned_away) = (0, 0);
    for _ in 0..3_000 {
        let contract = random.one_of(&[0, 1_000, 1_000 + random.clone().below(5_000) as i64]);
        let total = i64::from(random.between(0, 30_000_000)) - 6_000_000;
        let points = random.one_of(&[0, 1, 1, 1, 10_000, 10_001]);
        let mut record = closing(total, contract, points);
        for _ in 0..random.below(3) {
            let by = [1, -1, 2, 1_000, contract, -contract][random.place(6)];
            record[random.place(6)] += by;
        }
        assert!(record[1] + record[2] < 30_000, "{record:?}");
        let allowed = (1..=10_000).contains(&points);
        let mut small = contracts().take_while(|&contract| contract < 30_000);
        let given = |contract| closing(record[0], contract, points) == record;
        let due = allowed && small.any(given);
        assert_eq!(passes_alone(record), due, "{record:?}");
        passed += u32::from(due);
        turned_away += u32::from(!due);
    }
    assert!(
        passed > 500 && turned_away > 1_000,
        "{passed} {turned_away}"
    );
}

/// What a book's result is, its report says again.
#[test]
fn results_of_settled_books_are_summed() {
    let mut results = Vec::new();
    let mut due = Sums::default();
    for number in 0.. {
        let book = seeded_book(number).book;
        let Ok(settled) = settlement::book::settle_fields(&book) else {
            continue;
        };
        add_figures(&mut due, &settled.figures);
        let mut result = [0; 64];
        assert_eq!(settlement::book::settle(&book, &mut result), 0);
        results.extend(result);
        assert_eq!(settlement::report::report(&results), Ok(due));
        if due.records == 500 {
            break;
        }
    }
    assert!(due.shortfall > 0 && due.surplus > 0);
}

fn add_figures(sums: &mut Sums, figures: &Figures) {
    sums.records += 1;
    for (sum, figure) in [
        (&mut sums.points, figures.points),
        (&mut sums.total, figures.total),
        (&mut sums.settled, figures.settled),
        (&mut sums.shortfall, figures.shortfall),
        (&mut sums.expected, figures.expected),
        (&mut sums.kept, figures.kept),
        (&mut sums.surplus, figures.surplus),
    ] {
        *sum += i128::from(figure);
    }
}
