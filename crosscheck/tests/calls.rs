//! The stored calls of the program call_vectors: what they cover, their form,
//! and that the stored files are those made here.

mod common;

use common::with_index_due;
use settlement::books::examples::consumer_of_example_h;
use settlement::books::fields::{
    raw_field, ConsumerFields, GeneratorFields, Head, MixedFiringFields,
};
use settlement::calls::vectors::stored_calls;
use settlement::calls::{read_calls, Call, MOST_BYTES, MOST_PLACES, STATE_LENGTH};
use settlement::choosing::walk;
use settlement::ledger::{add, open, State};
use settlement::limits::*;
use settlement::point::Point;
use settlement::slots::window_sums;
use std::collections::{BTreeMap, BTreeSet};
use std::fs;
use std::path::{Path, PathBuf};
use std::process::Command;

fn program_folder() -> PathBuf {
    Path::new(env!("CARGO_MANIFEST_DIR")).join("../crates/call_vectors")
}

fn bytes_of(calls: &[Call]) -> Vec<u8> {
    calls.iter().flat_map(Call::bytes).collect()
}

fn text_of(calls: &[Call]) -> String {
    calls.iter().map(|call| call.answer().1).collect()
}

fn name(call: &Call) -> &'static str {
    match call {
        Call::Opening { .. } => "opening",
        Call::Adding { .. } => "adding",
        Call::Closing { .. } => "closing",
        Call::WritingHead { .. } => "writing head",
        Call::WritingPoint { .. } => "writing point",
    }
}

#[test]
fn the_stored_files_are_these_calls() {
    let calls = stored_calls();
    let folder = program_folder();
    assert!(fs::read(folder.join("stdin")).unwrap() == bytes_of(&calls));
    assert!(fs::read_to_string(folder.join("stdout")).unwrap() == text_of(&calls));
}

#[test]
fn every_refusal_of_every_operation() {
    let calls = stored_calls();
    assert!(calls.len() >= 2_000, "{}", calls.len());
    let mut told: BTreeMap<&str, BTreeSet<u32>> = BTreeMap::new();
    for call in &calls {
        told.entry(name(call)).or_default().insert(call.answer().0);
    }
    assert!(told["opening"].iter().copied().eq(0..=8));
    let of_adding = (0..=0).chain(9..=16).chain([18, 50, 51, 52]);
    assert!(told["adding"].iter().copied().eq(of_adding));
    assert!(told["closing"].iter().copied().eq([0, 9, 20]));
    let of_head_writing = told["writing head"].iter().copied();
    assert!(of_head_writing.eq((0..=8).chain([40])));
    let of_point_writing = told["writing point"].iter().copied();
    assert!(of_point_writing.eq([0, 11, 12, 14, 16, 40, 50, 51, 52]));
}

#[test]
fn one_line_for_each_call() {
    for call in stored_calls() {
        let (refusal, text) = call.answer();
        assert!(text.starts_with(&format!("{} {refusal} ", name(&call))));
        assert_eq!(text.matches('\n').count(), 1);
        assert!(text.ends_with('\n') && text.is_ascii());
    }
}

/// The adding of example H, with the line of docs/VECTORS.md.
#[test]
fn the_line_of_an_accepted_consumer() {
    let (_, state) = open(&Head::EXAMPLE_M.value(), &[0; 30]);
    let call = Call::Adding {
        state,
        tag: 3,
        places: vec![-1; 6],
        value: consumer_of_example_h(1, 240).value(),
    };
    let zeros = "0".repeat(60);
    let last = format!("{}31", "30".repeat(21));
    let line = format!(
        "adding 0 index 0 year 2024 month 8 day 7 slot 26 losses 700 400 200 contract 1000 count 1 \
         marks {zeros} points 1 totals 1000 1000 1000 1000 1000 1000 last {last} \
         days 1 2 5 6 places 1000 1000 1000 1000 1000 1000\n"
    );
    assert_eq!(call.answer(), (0, line));
}

/// A refused adding: index 0, the state as it was, four zeros, no place written.
#[test]
fn the_line_of_a_refused_consumer() {
    let call = Call::Adding {
        state: State::ZEROS,
        tag: 3,
        places: vec![],
        value: consumer_of_example_h(1, 240).value(),
    };
    let line = format!(
        "adding 9 index 0 year 0 month 0 day 0 slot 0 losses 0 0 0 contract 0 count 0 marks {} \
         points 0 totals 0 0 0 0 0 0 last {} days 0 0 0 0 places\n",
        "0".repeat(60),
        "0".repeat(44)
    );
    assert_eq!(call.answer(), (9, line));
}

/// A generator whose third reading is too large, added and written.
#[test]
fn the_lines_of_a_large_reading() {
    let mut generator = GeneratorFields::flat(1, 0, 1_000_000_000);
    generator.readings[2] += 1;
    let call = Call::Adding {
        state: State::ZEROS,
        tag: 4,
        places: vec![5; 6],
        value: generator.value(),
    };
    assert!(call.answer().1.starts_with("adding 9 index 0 year 0 "));
    let (_, state) = open(&Head::EXAMPLE_M.value(), &[0; 30]);
    let call = Call::Adding {
        state,
        tag: 4,
        places: vec![5; 6],
        value: generator.value(),
    };
    let line = format!(
        "adding 51 index 2 year 2024 month 8 day 7 slot 26 losses 700 400 200 contract 1000 \
         count 1 marks {} points 0 totals 0 0 0 0 0 0 last {} days 0 0 0 0 places 5 5 5 5 5 5\n",
        "0".repeat(60),
        "30".repeat(22)
    );
    assert_eq!(call.answer(), (51, line));
    let call = Call::WritingPoint {
        tag: 4,
        value: generator.value(),
        lent: vec![0xAB, 0x0C],
    };
    let line = "writing point 51 index 2 lent ab0c\n";
    assert_eq!(call.answer(), (51, line.to_string()));
}

/// The example of docs/VECTORS.md.
#[test]
fn the_line_of_a_point_of_no_bytes() {
    let call = Call::WritingPoint {
        tag: 4,
        value: vec![],
        lent: vec![0xAB, 0x0C],
    };
    assert_eq!(call.bytes(), [5, 4, 0, 0, 0, 2, 0xAB, 0x0C]);
    let line = "writing point 12 index 0 lent ab0c\n";
    assert_eq!(call.answer(), (12, line.to_string()));
}

/// Each clause of refusal 9 that a state meets, by its name.
fn clauses_of_9(state: &State) -> Vec<&'static str> {
    let mut clauses = Vec::new();
    if let Err(refusal) = state.terms.check() {
        clauses.push(["2", "3", "4", "5", "6", "7", "8"][refusal as usize - 2]);
    }
    let limit = 4_000_000_000 * i128::from(state.points);
    let totals = state.totals.map(i128::from);
    let digits = state.last.iter().all(u8::is_ascii_digit);
    for (meets, clause) in [
        (
            state.points > state.terms.head.count,
            "more points than the count",
        ),
        (totals.iter().any(|&total| total > limit), "total above"),
        (totals.iter().any(|&total| total < -limit), "total below"),
        (state.points > 0 && !digits, "last number not digits"),
        (
            state.points > 0 && state.last == [b'9'; 22],
            "last number nines",
        ),
    ] {
        if meets {
            clauses.push(clause);
        }
    }
    clauses
}

#[test]
fn every_clause_of_9_alone_and_several_together() {
    for operation in ["adding", "closing"] {
        let (mut alone, mut together) = (BTreeSet::new(), 0);
        for call in stored_calls() {
            if let Call::Adding { state, .. } | Call::Closing { state } = &call {
                let clauses = clauses_of_9(state);
                assert_eq!(!clauses.is_empty(), call.answer().0 == 9);
                if name(&call) == operation && clauses.len() == 1 {
                    alone.insert(clauses[0]);
                }
                together += u32::from(clauses.len() > 1);
            }
        }
        assert_eq!(alone.len(), 12, "{operation} {alone:?}");
        assert!(together > 50);
    }
}

#[test]
fn lengths_and_places() {
    let (mut lengths, mut places, mut accepted) = (BTreeSet::new(), BTreeSet::new(), 0);
    for call in stored_calls() {
        if let Call::Adding {
            tag,
            value,
            places: lent,
            ..
        } = &call
        {
            lengths.insert((*tag, value.len()));
            places.insert(lent.len());
            accepted += u32::from(call.answer().0 == 0);
        }
    }
    for length in [0, 49, 50, 51, 71, 72, 73, 5_974, 5_975, 5_976, MOST_BYTES] {
        assert!((3..=5).all(|tag| lengths.contains(&(tag, length))));
    }
    assert!(places.into_iter().eq(0..=MOST_PLACES));
    assert!(accepted > 500, "{accepted}");
}

/// What the accepted consumers and those with too few days have shown.
#[derive(Default)]
struct Shown {
    standing: BTreeMap<usize, u32>,
    ties_for_the_lowest: u32,
    dropped: u32,
    quarter_exactly: u32,
    negative_results: u32,
}

impl Shown {
    fn look_at(&mut self, state: &State, tag: u8, value: &[u8]) {
        let mut places = [0; WINDOW_SLOTS];
        let refusal = add(state, tag, value, &mut places).refusal;
        let Ok(Point::Consumer(consumer)) = Point::cut(tag, value) else {
            return;
        };
        if refusal != 0 && refusal != 18 {
            return;
        }
        let sums = window_sums(&consumer, state.terms.head.first_slot);
        let eligible = state.terms.eligible_days();
        let standing = walk(&eligible, &sums).standing;
        *self.standing.entry(standing.len()).or_default() += 1;
        let of_days = |days: &[u8]| -> Vec<u64> {
            let of_day = |&back: &u8| sums[usize::from(back) - 1];
            days.iter().map(of_day).collect()
        };
        let five = of_days(&eligible[..eligible.len().min(5)]);
        let standing_sums = of_days(&standing);
        let lowest = standing_sums.iter().min();
        let lowest_days = standing_sums.iter().filter(|sum| Some(*sum) == lowest);
        let together: u64 = five.iter().sum();
        let quarter = five.len() == 5 && five.iter().any(|sum| *sum > 0 && sum * 20 == together);
        self.ties_for_the_lowest += u32::from(standing.len() == 5 && lowest_days.count() > 1);
        self.dropped += u32::from(standing[..] != eligible[..standing.len()]);
        self.quarter_exactly += u32::from(quarter);
        self.negative_results += u32::from(places.iter().any(|&result| result < 0));
    }
}

#[test]
fn consumers_of_every_choice() {
    let mut shown = Shown::default();
    for call in stored_calls() {
        if let Call::Adding {
            state, tag, value, ..
        } = &call
        {
            shown.look_at(state, *tag, value);
        }
    }
    for standing in [0, 1, 2, 3, 4, 5] {
        assert!(shown.standing[&standing] > 0, "{standing}");
    }
    assert!(shown.standing[&4] >= 3 && shown.standing[&5] >= 50);
    assert!(
        shown.ties_for_the_lowest >= 5,
        "{}",
        shown.ties_for_the_lowest
    );
    assert!(shown.dropped >= 10, "{}", shown.dropped);
    assert!(shown.quarter_exactly >= 1, "{}", shown.quarter_exactly);
    assert!(shown.negative_results >= 5, "{}", shown.negative_results);
}

/// The faults of a plant's adding that tell 50 or stand behind it, by the
/// bytes: 50, then 51.
fn faults_of_a_plant(value: &[u8]) -> [bool; 2] {
    let number = |bytes: &[u8]| {
        bytes
            .iter()
            .fold(0u64, |high, &low| high << 8 | u64::from(low))
    };
    let above = |reading: &[u8]| number(reading) > 1_000_000_000;
    [
        number(&value[22..24]) > 1_000,
        value[24..].chunks(4).any(above),
    ]
}

/// What the addings of plants with values of the right length have shown.
#[derive(Default)]
struct PlantsShown {
    /// Each number told, with the faults of the value.
    told: BTreeSet<(u32, [bool; 2])>,
    accepted_shares: BTreeSet<u16>,
    refused_shares: BTreeSet<u16>,
    /// Place and reading: allowed ones of accepted plants, others where 51 is told.
    readings: BTreeSet<(usize, u32)>,
}

impl PlantsShown {
    fn look_at(&mut self, refusal: u32, value: &[u8]) {
        self.told.insert((refusal, faults_of_a_plant(value)));
        let share = u16::from_be_bytes([value[22], value[23]]);
        match refusal {
            0 => self.accepted_shares.insert(share),
            50 => self.refused_shares.insert(share),
            _ => false,
        };
        for (place, reading) in value[24..].chunks(4).enumerate() {
            let reading = u32::from_be_bytes(reading.try_into().unwrap());
            let large = reading > 1_000_000_000;
            if (refusal == 0 && !large) || (refusal == 51 && large) {
                self.readings.insert((place, reading));
            }
        }
    }
}

/// What the plants among the stored calls have shown.
fn plants_of_the_stored_calls() -> PlantsShown {
    let mut shown = PlantsShown::default();
    for call in stored_calls() {
        match &call {
            Call::Adding { tag: 5, value, .. } if value.len() == 72 => {
                shown.look_at(call.answer().0, value);
            }
            _ => (),
        }
    }
    shown
}

#[test]
fn plants_of_every_share_and_reading() {
    let PlantsShown {
        told,
        accepted_shares,
        refused_shares,
        readings,
    } = plants_of_the_stored_calls();
    for faults in [[false, true], [true, false], [true, true]] {
        for earlier in 9..=15 {
            let alone = earlier == 11 || earlier == 12; // no plant in other forms
            assert!(alone || told.contains(&(earlier, faults)), "{earlier}");
        }
        assert!(told.contains(&(if faults[0] { 50 } else { 51 }, faults)));
    }
    let of_others = [16, 18, 52];
    assert!(!told.iter().any(|(refusal, _)| of_others.contains(refusal)));
    for share in [0, 1, 333, 500, 999, 1_000] {
        assert!(accepted_shares.contains(&share), "{share}");
    }
    for share in [1_001, 1_024, 65_535] {
        assert!(refused_shares.contains(&share), "{share}");
    }
    for place in 0..12 {
        for reading in [0, 1, 1_000_000_000, 1_000_000_001] {
            assert!(readings.contains(&(place, reading)), "{place} {reading}");
        }
    }
}

/// The bytes that a writing puts to the front where it is accepted, and what
/// it is lent.
fn field_and_lent(call: &Call) -> Option<(Vec<u8>, &[u8])> {
    match call {
        Call::WritingHead {
            head,
            calendar,
            lent,
        } => Some(([raw_field(1, head), raw_field(2, calendar)].concat(), lent)),
        Call::WritingPoint { tag, value, lent } => Some((raw_field(*tag, value), lent)),
        _ => None,
    }
}

/// What a writing writes.
fn written(call: &Call) -> &'static str {
    match call {
        Call::WritingHead { .. } => "head",
        Call::WritingPoint { tag: 3, .. } => "consumer",
        Call::WritingPoint { tag: 4, .. } => "generator",
        Call::WritingPoint { tag: 5, .. } => "plant",
        _ => "other",
    }
}

#[test]
fn every_lent_byte_after_a_writing() {
    let mut kept = 0;
    for call in stored_calls() {
        let Some((field, lent)) = field_and_lent(&call) else {
            continue;
        };
        let (refusal, text) = call.answer();
        let mut due = lent.to_vec();
        if refusal == 0 {
            due[..field.len()].copy_from_slice(&field);
            kept += u32::from(due[field.len()..].iter().any(|&byte| byte > 0));
        }
        let digits: String = due.iter().map(|byte| format!("{byte:02x}")).collect();
        let index = match &call {
            Call::WritingPoint { tag, value, .. } => {
                format!(" index {}", with_index_due(refusal, *tag, value).1)
            }
            _ => String::new(),
        };
        let line = format!("{} {refusal}{index} lent {digits}", name(&call));
        assert_eq!(text, format!("{}\n", line.trim_end()));
    }
    assert!(kept > 300, "{kept}");
}

#[test]
fn writing_in_every_room() {
    let mut seen = BTreeSet::new();
    for call in stored_calls() {
        let Some((field, lent)) = field_and_lent(&call) else {
            continue;
        };
        let room = match lent.len() as isize - field.len() as isize {
            _ if lent.is_empty() => "none",
            -1 => "one short",
            0 => "exact",
            1 => "one more",
            2.. => "more",
            _ => "short",
        };
        seen.insert((written(&call), room, call.answer().0));
    }
    for written in ["head", "consumer", "generator", "plant"] {
        for room in ["none", "short", "one short"] {
            assert!(seen.contains(&(written, room, 40)), "{written} {room}");
        }
        for room in ["exact", "one more", "more"] {
            assert!(seen.contains(&(written, room, 0)), "{written} {room}");
        }
    }
}

/// Sets right all that a refusal of a head's writing looks at.
fn set_head_right(head: &mut Vec<u8>, calendar: &mut Vec<u8>, lent: &mut Vec<u8>, refusal: u32) {
    let good = Head::EXAMPLE_M.value();
    let places = match refusal {
        2 | 3 => 0..4,
        4 => 4..5,
        5 => 5..11,
        6 => 11..15,
        7 => 15..17,
        _ => 0..0,
    };
    match refusal {
        1 => (*head, *calendar) = (good, vec![0; 30]),
        8 => calendar.fill(0),
        40 => lent.resize(53, 0),
        _ => head[places.clone()].copy_from_slice(&good[places]),
    }
}

/// Sets right all that a refusal of a point's writing looks at.
fn set_point_right(tag: &mut u8, value: &mut Vec<u8>, lent: &mut Vec<u8>, refusal: u32) {
    match (refusal, *tag) {
        (11, _) => {
            *tag = match value.len() {
                5_975 => 3,
                71.. => 5,
                _ => 4,
            }
        }
        (12, 3) => *value = ConsumerFields::flat(1, 1, 1).value(),
        (12, 4) => *value = GeneratorFields::flat(1, 1, 1).value(),
        (12, _) => *value = MixedFiringFields::flat(1, 1, 1, 1).value(),
        (14, _) => value[..22].fill(b'1'),
        (16, 3) => value[22] = 1,
        (16, _) => value[22..26].fill(0),
        (50, _) => value[22..24].fill(0),
        (51, 3) => value[23..215].fill(0),
        (51, 4) => value[26..].fill(0),
        (51, _) => value[24..].fill(0),
        (52, _) => value[215..].fill(0),
        _ => lent.resize(3 + value.len(), 0),
    }
}

/// The number that a writing answers once its first refusal is set right.
fn next_refusal(call: &Call, refusal: u32) -> u32 {
    let mut right = call.clone();
    match &mut right {
        Call::WritingHead {
            head,
            calendar,
            lent,
        } => set_head_right(head, calendar, lent, refusal),
        Call::WritingPoint { tag, value, lent } => set_point_right(tag, value, lent, refusal),
        _ => (),
    }
    right.answer().0
}

/// Each refusal alone, which is before 0, and before each of those behind it.
fn alone_and_before(refusals: &[u32]) -> BTreeSet<(u32, u32)> {
    let mut pairs = BTreeSet::new();
    for (place, &refusal) in refusals.iter().enumerate() {
        let behind = refusals[place + 1..].iter();
        pairs.extend(behind.chain(&[0]).map(|&next| (refusal, next)));
    }
    pairs
}

#[test]
fn refusals_of_writing_alone_and_before_others() {
    let mut seen: BTreeMap<&str, BTreeSet<(u32, u32)>> = BTreeMap::new();
    for call in stored_calls() {
        let refusal = call.answer().0;
        if field_and_lent(&call).is_some() && refusal != 0 {
            let pair = (refusal, next_refusal(&call, refusal));
            seen.entry(written(&call)).or_default().insert(pair);
        }
    }
    let mut of_a_head = alone_and_before(&[2, 3, 4, 5, 6, 7, 8, 40]);
    of_a_head.remove(&(2, 3)); // a date is never both
    of_a_head.extend([(1, 0), (1, 40)]); // no fields in other lengths
    assert_eq!(seen["head"], of_a_head);
    for (kind, refusals) in [
        ("consumer", &[14, 16, 51, 52, 40][..]),
        ("generator", &[14, 16, 51, 40]),
        ("plant", &[14, 50, 51, 40]),
    ] {
        let mut of_a_point = alone_and_before(refusals);
        of_a_point.extend([(12, 0), (12, 40)]);
        assert_eq!(seen[kind], of_a_point);
    }
    let of_another_tag = [0, 12, 14, 16, 40, 50, 51, 52].map(|next| (11, next));
    assert_eq!(seen["other"], BTreeSet::from(of_another_tag));
}

#[test]
fn calls_are_read_back() {
    let calls = stored_calls();
    let (read, whole) = read_calls(&bytes_of(&calls));
    assert!(whole && read == calls);
}

#[test]
fn a_cut_call_is_seen() {
    let closing = Call::Closing {
        state: State::ZEROS,
    };
    let mut bytes = closing.bytes();
    assert_eq!(bytes.len(), 1 + STATE_LENGTH);
    bytes.extend(&bytes.clone()[..STATE_LENGTH]);
    assert_eq!(read_calls(&bytes), (vec![closing.clone()], false));
    assert_eq!(read_calls(&[0]), (vec![], false));
    let long = [1, 0x17, 0x71];
    assert_eq!(
        read_calls(&[&long[..], &[0; 7_000]].concat()),
        (vec![], false)
    );
    for writing in [
        Call::WritingHead {
            head: vec![1; 17],
            calendar: vec![0; 30],
            lent: vec![7; 53],
        },
        Call::WritingPoint {
            tag: 4,
            value: vec![b'1'; 50],
            lent: vec![],
        },
    ] {
        let bytes = writing.bytes();
        for cut in 1..bytes.len() {
            assert_eq!(read_calls(&bytes[..cut]), (vec![], false));
        }
        assert_eq!(read_calls(&bytes), (vec![writing], true));
    }
    assert_eq!(read_calls(&[6; 9_000]), (vec![], false));
}

#[test]
fn the_program_prints_the_calls() {
    let output = Command::new(env!("CARGO_BIN_EXE_make_calls"))
        .arg("calls")
        .output()
        .unwrap();
    assert!(output.status.success() && output.stdout == bytes_of(&stored_calls()));
    let output = Command::new(env!("CARGO_BIN_EXE_make_calls"))
        .arg("other")
        .output()
        .unwrap();
    assert_eq!(output.status.code(), Some(2));
}
