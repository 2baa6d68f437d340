//! Records as eight numbers, and the report by another way.

/// Total, settled, shortfall, expected, kept, surplus, points, bid.
pub type Words = [i64; 8];

/// Example M of document 01.
pub const M: Words = [3_300_000, 1_100, 0, 1_100, 1_000, 100, 1, 1];

/// A total of −1 with a contract of 0.
pub const MINUS_ONE: Words = [-1, -1, 1, 0, 0, 0, 1, 0];

/// The bytes of records.
pub fn bytes(records: &[Words]) -> Vec<u8> {
    let words = records.iter().flatten();
    words.flat_map(|word| word.to_be_bytes()).collect()
}

/// The words of records, where the length is a multiple of 64.
pub fn words_of(input: &[u8]) -> Option<Vec<Words>> {
    let (words, rest) = input.as_chunks::<8>();
    let words: Vec<i64> = words.iter().map(|word| i64::from_be_bytes(*word)).collect();
    let (records, words) = words.as_chunks::<8>();
    (rest.is_empty() && words.is_empty()).then(|| records.to_vec())
}

/// The contract that a record's closing had, if one fits the words that tell it:
/// settled and shortfall where there is one, otherwise what is kept.
fn contract_of(record: &Words) -> Option<i128> {
    let [_, settled, shortfall, _, kept, ..] = record.map(i128::from);
    let contract = match shortfall {
        0 => kept,
        _ => settled + shortfall,
    };
    matches!(contract, 0 | 1_000..=10_000_000).then_some(contract)
}

/// The rules by another way: the closing with the contract is worked again.
pub fn is_of_a_closing(record: &Words) -> bool {
    let Some(contract) = contract_of(record) else {
        return false;
    };
    let [total, .., points, _] = record.map(i128::from);
    let settled = (total - total.rem_euclid(3_000)) / 3_000;
    let shortfall = 0.max(contract - settled);
    let expected = 0.max(settled);
    let kept = contract.min(expected);
    let bid = i128::from(expected > 999);
    let closed = [
        total,
        settled,
        shortfall,
        expected,
        kept,
        expected - kept,
        points,
        bid,
    ];
    let furthest = 6 * 4_000_000_000 * points;
    closed == record.map(i128::from)
        && (1..=10_000).contains(&points)
        && total >= -furthest
        && total <= furthest
}

/// What the report prints, another way.
pub fn naive_report(input: &[u8]) -> String {
    let Some(records) = words_of(input).filter(|records| records.len() <= 500) else {
        return "refused 53\n".to_string();
    };
    if let Some(place) = records.iter().position(|record| !is_of_a_closing(record)) {
        return format!("refused 54 {place}\n");
    }
    let names = [
        "points",
        "total",
        "settled",
        "shortfall",
        "expected",
        "kept",
        "surplus",
    ];
    let mut text = format!("records {}\n", records.len());
    for (name, place) in names.iter().zip([6, 0, 1, 2, 3, 4, 5]) {
        let sum: i64 = records.iter().map(|record| record[place]).sum();
        text += &format!("{name} {sum}\n");
    }
    text
}
