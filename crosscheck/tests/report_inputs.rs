//! What the first 3,000 seeded inputs of the report hold, by another reading of
//! the rules: every feature named here must occur.

mod common;

use common::records::*;
use common::seen::Seen;
use settlement::books::random::Random;
use settlement::records::good::{at_limits, several};
use settlement::records::inputs::KINDS;
use settlement::records::rules::BREAKINGS;
use settlement::records::{seeded_input, SeededInput};
use settlement::report::report_text;
use std::collections::BTreeMap;

const INPUTS: u64 = 3_000;

/// A short input has at most so many; the rules show in short inputs alone.
const FEW_RECORDS: usize = 20;

/// All inputs.
fn inputs() -> impl Iterator<Item = SeededInput> {
    (0..INPUTS).map(seeded_input)
}

/// The records of the inputs whose length is a multiple of 64.
fn whole_inputs() -> impl Iterator<Item = Vec<Words>> {
    inputs().filter_map(|seeded| words_of(&seeded.input))
}

#[test]
fn reports_by_another_way() {
    for (number, seeded) in inputs().enumerate() {
        let SeededInput { kind, input } = seeded;
        assert_eq!(report_text(&input), naive_report(&input), "{number} {kind}");
    }
}

#[test]
fn a_number_gives_the_same_input_again() {
    for number in (0..INPUTS).step_by(7) {
        assert_eq!(seeded_input(number), seeded_input(number));
    }
}

/// How often each kind has each answer: `sums`, `refused 53` or `refused 54`.
#[test]
fn kinds_and_their_answers() {
    let mut seen = BTreeMap::<(&str, String), u32>::new();
    for SeededInput { kind, input } in inputs() {
        let text = report_text(&input);
        let answer = match text.strip_prefix("refused ") {
            Some(refusal) => format!("refused {}", &refusal[..2]),
            None => "sums".to_string(),
        };
        *seen.entry((kind, answer)).or_default() += 1;
    }
    for (kind, answers) in ANSWERS_OF_KINDS {
        let found: Vec<&str> = seen
            .keys()
            .filter(|(of, _)| of == kind)
            .map(|(_, answer)| answer.as_str())
            .collect();
        assert_eq!(found, *answers, "{kind}");
    }
    assert_eq!(ANSWERS_OF_KINDS.len(), KINDS.len());
    let of_answer = |answer: &str| -> u32 {
        let counts = seen.iter().filter(|((_, of), _)| of == answer);
        counts.map(|(_, count)| count).sum()
    };
    assert!(of_answer("sums") > 900, "{seen:?}");
    assert!(of_answer("refused 53") > 500, "{seen:?}");
    assert!(of_answer("refused 54") > 1_000, "{seen:?}");
}

/// The answers that each kind must have.
const ANSWERS_OF_KINDS: &[(&str, &[&str])] = &[
    ("good records", &["sums"]),
    ("results of books", &["sums"]),
    ("records at the limits", &["sums"]),
    ("one rule broken", &["refused 54"]),
    ("one rule broken among good records", &["refused 54"]),
    ("one rule broken beside a good record", &["refused 54"]),
    ("one word changed", &["refused 54", "sums"]),
    ("two words changed", &["refused 54", "sums"]),
    ("far words", &["refused 54", "sums"]),
    ("random words", &["refused 54"]),
    ("one byte changed", &["refused 54", "sums"]),
    ("two bad records", &["refused 54"]),
    ("cut", &["refused 53"]),
    ("cut with a bad record", &["refused 53"]),
    ("few bytes", &["refused 53", "refused 54", "sums"]),
    ("many records", &["sums"]),
    ("five hundred records", &["sums"]),
    ("lengths around the most", &["refused 53", "sums"]),
    ("one bad record among many", &["refused 54"]),
    ("too many with a bad record", &["refused 53"]),
    ("one record often", &["sums"]),
    ("far too long", &["refused 53"]),
    ("many bad records", &["refused 54"]),
];

/// The rules, clause by clause, and whether a record keeps each.
fn clauses(record: &Words) -> [(&'static str, bool); 12] {
    let [total, settled, shortfall, expected, kept, surplus, points, bid] = record.map(i128::from);
    let allowed = |contract: i128| matches!(contract, 0 | 1_000..=10_000_000);
    let limit = 24_000_000_000 * points;
    [
        ("settled", total.div_euclid(3_000) == settled),
        (
            "expected",
            expected == if settled < 0 { 0 } else { settled },
        ),
        ("kept and surplus", expected - kept == surplus),
        ("neither below zero", !(kept < 0 || surplus < 0)),
        ("bid", bid == if expected > 999 { 1 } else { 0 }),
        ("shortfall", shortfall > -1),
        ("surplus 0", !(shortfall > 0 && surplus != 0)),
        ("contract", shortfall <= 0 || allowed(settled + shortfall)),
        ("settled below 0", !(shortfall == 0 && settled < 0)),
        ("kept", shortfall != 0 || allowed(kept)),
        ("points", points > 0 && points < 10_001),
        ("total", total <= limit && -total <= limit),
    ]
}

/// The clause that a record breaks, if it breaks one alone; "none" if it keeps all.
fn broken_alone(record: &Words) -> Option<&'static str> {
    let clauses = clauses(record);
    let mut broken = clauses.iter().filter(|(_, keeps)| !keeps);
    match (broken.next(), broken.next()) {
        (None, _) => Some("none"),
        (Some((name, _)), None) => Some(name),
        _ => None,
    }
}

/// What is made to break a rule alone does so.
#[test]
fn each_breaking_breaks_its_clause_alone() {
    for (breaking, (clause, _)) in BREAKINGS.into_iter().zip(clauses(&M)) {
        let (rule, records) = breaking;
        for seed in 0..200 {
            for record in records(&mut Random::new(seed)) {
                let record = record.array();
                assert_eq!(broken_alone(&record), Some(clause), "{rule} {record:?}");
            }
        }
    }
}

/// The records at the limits and the closings are good.
#[test]
fn good_records_are_good() {
    let mut random = Random::new(3);
    let good = several(&mut random, 100_000);
    for record in good.into_iter().chain(at_limits()) {
        assert!(is_of_a_closing(&record.array()), "{record:?}");
    }
}

/// What a record shows of each clause, at both sides of what it allows.
fn look_at_record(seen: &mut Seen, record: &Words) {
    let broken = broken_alone(record);
    let [total, settled, shortfall, expected, kept, surplus, points, bid] = record.map(i128::from);
    let mut note = |clause: &str, what: &str, value: i128, inside: &[i128], outside: &[i128]| {
        for (side, sort, values) in [("none", "inside", inside), (clause, "outside", outside)] {
            for aim in values {
                let feature = format!("{clause}: {what} {aim} {sort}");
                seen.note(&feature, broken == Some(side) && value == *aim);
            }
        }
    };
    let rest = total - settled * 3_000;
    note(
        "settled",
        "rest of the total",
        rest,
        &[0, 2_999],
        &[-1, 3_000],
    );
    let side = if settled < 0 { "below" } else { "not below" };
    let more = expected - settled.max(0);
    note(
        "expected",
        &format!("more, settled {side} 0"),
        more,
        &[0],
        &[1],
    );
    note("expected", "more", more, &[], &[-1]);
    note(
        "kept and surplus",
        "more",
        kept + surplus - expected,
        &[0],
        &[-1, 1],
    );
    note("neither below zero", "surplus", surplus, &[0, 1], &[-1]);
    note("neither below zero", "kept", kept, &[0], &[]);
    for expected_at in [999, 1_000] {
        let value = if expected == expected_at { bid } else { -9 };
        let right = i128::from(expected_at == 1_000);
        note(
            "bid",
            &format!("at {expected_at}"),
            value,
            &[right],
            &[1 - right],
        );
    }
    note("bid", "anywhere", bid, &[0, 1], &[-1, 2]);
    note("shortfall", "", shortfall, &[0, 1], &[-1]);
    if shortfall > 0 {
        note("surplus 0", "surplus", surplus, &[0], &[1]);
        let contract = settled + shortfall;
        let edges = [0, 1_000, 10_000_000];
        note("contract", "", contract, &edges, &[-1, 1, 999, 10_000_001]);
    }
    if shortfall == 0 {
        note("settled below 0", "settled", settled, &[0, 1], &[-1]);
        note(
            "kept",
            "",
            kept,
            &[0, 1_000, 10_000_000],
            &[1, 999, 10_000_001],
        );
        note("kept", "below expected by", surplus, &[0, 1], &[]);
    }
    note("points", "", points, &[1, 2, 9_999, 10_000], &[0, 10_001]);
    for of in [1, 10_000] {
        let limit = 24_000_000_000 * of;
        let value = if points == of { total } else { 0 };
        let inside = [-limit, 1 - limit, limit - 1, limit];
        note(
            "total",
            &format!("of {of}"),
            value,
            &inside,
            &[-limit - 1, limit + 1],
        );
    }
    for (far, name) in [(i64::MIN, "least"), (i64::MAX, "greatest")] {
        for (place, word) in record.iter().enumerate() {
            seen.note(&format!("word {place} the {name}"), *word == far);
        }
        let alone = broken == Some("total") && record[0] == far;
        seen.note(&format!("total the {name}, all else right"), alone);
    }
}

#[test]
fn records_at_both_sides_of_each_rule() {
    let mut seen = Seen::default();
    for records in whole_inputs().filter(|records| records.len() <= FEW_RECORDS) {
        for record in records {
            look_at_record(&mut seen, &record);
        }
    }
    seen.all_occur(83);
}

/// Each clause is broken alone, in the first record of an input and behind others.
#[test]
fn each_clause_broken_alone() {
    let mut seen = Seen::default();
    for records in whole_inputs() {
        let bad = records.iter().position(|record| !is_of_a_closing(record));
        let alone = bad.and_then(|place| broken_alone(&records[place]));
        for (clause, _) in clauses(&M) {
            let broken = alone == Some(clause);
            seen.note(&format!("{clause} first"), broken && bad == Some(0));
            seen.note(&format!("{clause} behind others"), broken && bad > Some(0));
        }
    }
    seen.all_occur(24);
}

/// Places, numbers of records, lengths, and what stands beside a refusal.
#[test]
fn places_and_lengths() {
    let mut seen = Seen::default();
    let mut remainders = [false; 64];
    for SeededInput { input, .. } in inputs() {
        let text = report_text(&input);
        let whole = &input[..input.len() / 64 * 64];
        let records = words_of(whole).unwrap();
        let bad: Vec<usize> = (0..records.len())
            .filter(|&place| !is_of_a_closing(&records[place]))
            .collect();
        let told = text
            .strip_prefix("refused 54 ")
            .map(|place| place.trim_end());
        let places = [0, 1, 2, 9, 10, 99, 100, 255, 256, 257, 498, 499];
        for place in places.map(|place| place.to_string()) {
            seen.note(&format!("place {place}"), told == Some(&place));
        }
        let several = told.is_some() && bad.len() > 1;
        seen.note("several bad records", several);
        seen.note(
            "the last of all bad as well",
            several && bad.last() == Some(&(records.len() - 1)),
        );
        let settled = text.starts_with("records");
        let counts = [0, 1, 2, 499, 500].map(|count| (settled && records.len() == count, count));
        for (occurs, count) in counts {
            seen.note(&format!("sums of {count}"), occurs);
        }
        let lengths = [
            1, 63, 65, 31_937, 31_999, 32_001, 32_063, 32_064, 32_065, 32_128, 64_000,
        ];
        let refused = text == "refused 53\n";
        for length in lengths {
            seen.note(
                &format!("length {length}"),
                refused && input.len() == length,
            );
        }
        let cut = input.len() % 64 > 0;
        seen.note("cut, with a bad record", refused && cut && !bad.is_empty());
        seen.note(
            "too many, with a bad record",
            refused && !cut && !bad.is_empty(),
        );
        seen.note(
            "too many, the first bad",
            refused && !cut && bad.first() == Some(&0),
        );
        let below = settled && text.contains("total -");
        seen.note("sums below zero", below);
        seen.note("sums above zero", settled && records.len() > 1 && !below);
        remainders[input.len() % 64] |= refused;
    }
    seen.all_occur(35);
    assert_eq!(remainders, [true; 64]);
}
