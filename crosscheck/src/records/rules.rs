//! Records that break one rule and keep all others, each rule in turn.
//!
//! They are made from the request's words, beside a good record: what a word is
//! made from stays as it is, what is made from it follows.

use super::good::furthest_total;
use super::words::*;
use crate::books::random::Random;
use crate::limits::*;

/// More than 32 bits hold.
const BEYOND_32_BITS: i64 = 1 << 32;

/// What no contract is: beside each edge, and beyond 32 bits, where the low ones
/// would be a contract.
const NO_CONTRACTS: [i64; 7] = [
    -1,
    1,
    LOWEST_CONTRACT as i64 - 1,
    HIGHEST_CONTRACT as i64 + 1,
    BEYOND_32_BITS,
    BEYOND_32_BITS + LOWEST_CONTRACT as i64,
    BEYOND_32_BITS + HIGHEST_CONTRACT as i64,
];

/// Bid as it is for an expected capacity.
fn bid_of(expected: i64) -> i64 {
    i64::from(expected >= LOWEST_BID)
}

/// A record whose settled capacity is above the contract, with a surplus.
fn with_surplus(random: &mut Random) -> Words {
    let contract = random.between(LOWEST_CONTRACT, 20_000);
    let settled = i64::from(contract) + from_to(random, 1, 50_000);
    let total = settled * WH_OF_A_KW + from_to(random, 0, WH_OF_A_KW - 1);
    Words::closing(total, contract, from_to(random, 1, 100))
}

/// A record with a shortfall, whose settled capacity is above 0 and no contract.
fn with_shortfall(random: &mut Random) -> Words {
    let contract = random.between(LOWEST_CONTRACT, 20_000);
    let settled = from_to(random, 2, i64::from(LOWEST_CONTRACT) - 2);
    let total = settled * WH_OF_A_KW + from_to(random, 0, WH_OF_A_KW - 1);
    Words::closing(total, contract, from_to(random, 1, 100))
}

/// A record whose settled capacity is below zero.
fn below_zero(random: &mut Random) -> Words {
    let contract = random.one_of(&[0, LOWEST_CONTRACT, 20_000]);
    let settled = from_to(random, -50_000, -2);
    let total = settled * WH_OF_A_KW + from_to(random, 1, WH_OF_A_KW - 1);
    Words::closing(total, contract, from_to(random, 1, 100))
}

/// Settled is not that of the total, which alone moves; the rest is made from
/// settled.
fn settled_not_from_total(random: &mut Random) -> Vec<Words> {
    let mut records = Vec::new();
    for good in [
        with_surplus(random),
        with_shortfall(random),
        below_zero(random),
    ] {
        let whole = good.settled * WH_OF_A_KW;
        for total in [
            whole - 1,
            whole + WH_OF_A_KW,
            whole - WH_OF_A_KW,
            whole + 2 * WH_OF_A_KW,
        ] {
            records.push(Words { total, ..good });
        }
    }
    records
}

/// Expected is not settled, or not 0 where that is below; kept, surplus and bid
/// are made from expected.
fn expected_not_from_settled(random: &mut Random) -> Vec<Words> {
    let mut records = Vec::new();
    let (full, short, below) = (
        with_surplus(random),
        with_shortfall(random),
        below_zero(random),
    );
    for more in [-1, 1, BEYOND_32_BITS] {
        let expected = full.expected + more;
        records.push(Words {
            expected,
            surplus: full.surplus + more,
            bid: bid_of(expected),
            ..full
        });
        let expected = short.expected + more;
        records.push(Words {
            expected,
            kept: expected,
            bid: bid_of(expected),
            ..short
        });
    }
    for expected in [1, -below.settled] {
        records.push(Words {
            expected,
            kept: expected,
            bid: bid_of(expected),
            ..below
        });
    }
    records
}

/// Kept and surplus are more or less than expected.
fn kept_and_surplus_not_expected(random: &mut Random) -> Vec<Words> {
    let (full, short) = (with_surplus(random), with_shortfall(random));
    let mut records = Vec::new();
    for more in [-1, 1, BEYOND_32_BITS] {
        records.push(Words {
            surplus: full.surplus + more,
            ..full
        });
        records.push(Words {
            kept: short.kept + more,
            ..short
        });
    }
    let [lowest, highest] = [LOWEST_CONTRACT, HIGHEST_CONTRACT].map(i64::from);
    records.push(Words { kept: 0, ..full });
    records.push(Words {
        kept: lowest,
        surplus: full.expected,
        ..full
    });
    records.push(Words {
        kept: highest,
        ..full
    });
    records.push(Words {
        surplus: i64::MAX,
        ..full
    });
    records
}

/// Surplus is below zero. Kept is then above expected and a contract; where it is
/// below zero, another rule is broken, too.
fn surplus_below_zero(random: &mut Random) -> Vec<Words> {
    let full = with_surplus(random);
    let mut records: Vec<Words> = [HIGHEST_CONTRACT.into(), full.expected + 1]
        .map(|kept| Words {
            kept,
            surplus: full.expected - kept,
            ..full
        })
        .to_vec();
    let none = Words::closing(from_to(random, 0, WH_OF_A_KW - 1), 0, 1);
    records.push(Words {
        kept: LOWEST_CONTRACT.into(),
        surplus: -i64::from(LOWEST_CONTRACT),
        ..none
    });
    records
}

/// Bid is the other one, or neither 1 nor 0.
fn bid_not_from_expected(random: &mut Random) -> Vec<Words> {
    let at = |kilowatt: i64| Words::closing(kilowatt * WH_OF_A_KW, 20_000, 1);
    let (below, above) = (at(LOWEST_BID - 1), at(LOWEST_BID));
    let (full, none) = (with_surplus(random), below_zero(random));
    let mut records = Vec::new();
    for good in [below, above, full, none] {
        records.push(Words {
            bid: 1 - good.bid,
            ..good
        });
    }
    for bid in [-1, 2, 256, BEYOND_32_BITS, 1 << 56, i64::MIN, i64::MAX] {
        records.push(Words {
            bid: bid + none.bid,
            ..none
        });
        records.push(Words { bid, ..full });
    }
    records.push(Words {
        bid: BEYOND_32_BITS + 1,
        ..full
    });
    records
}

/// The shortfall is below zero; settled is above the contract, below it, or below
/// zero.
fn shortfall_below_zero(random: &mut Random) -> Vec<Words> {
    let mut records = Vec::new();
    for good in [
        with_surplus(random),
        with_shortfall(random),
        below_zero(random),
    ] {
        for shortfall in [-1, good.kept - good.expected, -BEYOND_32_BITS, i64::MIN] {
            if shortfall < 0 {
                records.push(Words { shortfall, ..good });
            }
        }
    }
    records
}

/// A surplus beside a shortfall.
fn surplus_with_shortfall(random: &mut Random) -> Vec<Words> {
    let short = with_shortfall(random);
    let surplus = [1, short.expected / 2, short.expected];
    let with = |surplus| Words {
        surplus,
        kept: short.expected - surplus,
        ..short
    };
    surplus.map(with).to_vec()
}

/// With a shortfall, settled and shortfall together are no contract.
fn no_contract_with_shortfall(random: &mut Random) -> Vec<Words> {
    let (short, below) = (with_shortfall(random), below_zero(random));
    let of_a_kilowatt = Words::closing(WH_OF_A_KW, LOWEST_CONTRACT, 1);
    let mut records = Vec::new();
    for contract in NO_CONTRACTS {
        for good in [short, below, of_a_kilowatt] {
            let shortfall = contract - good.settled;
            if shortfall > 0 {
                records.push(Words { shortfall, ..good });
            }
        }
    }
    let far = Words {
        shortfall: i64::MAX,
        ..short
    };
    let one = Words {
        shortfall: 1,
        ..of_a_kilowatt
    };
    records.extend([far, one]);
    records
}

/// Settled is below zero, and there is no shortfall.
fn settled_below_zero_without_shortfall(random: &mut Random) -> Vec<Words> {
    let of_one = Words::closing(-1, 0, 1);
    [of_one, below_zero(random)]
        .map(|good| Words {
            shortfall: 0,
            ..good
        })
        .to_vec()
}

/// Without a shortfall, what is kept is no contract, though no more than expected.
fn no_contract_without_shortfall(random: &mut Random) -> Vec<Words> {
    let most = i64::from(HIGHEST_COUNT);
    let far = Words::closing(furthest_total(most), 0, most);
    let mut records = Vec::new();
    for good in [with_surplus(random), far] {
        for kept in NO_CONTRACTS {
            if kept > 0 && kept <= good.expected {
                records.push(Words {
                    kept,
                    surplus: good.expected - kept,
                    ..good
                });
            }
        }
    }
    records.push(Words {
        kept: far.expected,
        surplus: 0,
        ..far
    });
    records
}

/// Points beside 1 to 10,000, whose total is within its limit. With points below
/// zero no total is.
fn points_not_allowed(random: &mut Random) -> Vec<Words> {
    let most = i64::from(HIGHEST_COUNT);
    let nothing = Words::closing(0, random.one_of(&[0, LOWEST_CONTRACT]), 0);
    let mut records = vec![nothing];
    for points in [
        most + 1,
        1 << 16,
        BEYOND_32_BITS,
        BEYOND_32_BITS + most,
        i64::MAX,
    ] {
        records.push(Words {
            points,
            ..with_surplus(random)
        });
    }
    let furthest = furthest_total(most + 1);
    records.push(Words::closing(furthest, HIGHEST_CONTRACT, most + 1));
    records
}

/// The total is further than its points allow, and all else is made from it.
fn total_beyond_its_points(random: &mut Random) -> Vec<Words> {
    let most = i64::from(HIGHEST_COUNT);
    let contract = random.one_of(&[0, LOWEST_CONTRACT, HIGHEST_CONTRACT]);
    let mut records = Vec::new();
    for points in [1, most, from_to(random, 2, most - 1)] {
        for further in [1, furthest_total(1)] {
            let total = furthest_total(points) + further;
            records.push(Words::closing(total, contract, points));
            records.push(Words::closing(-total, contract, points));
        }
        records.push(Words::closing(i64::MIN, contract, points));
        records.push(Words::closing(i64::MAX, contract, points));
    }
    records
}

/// What breaks a rule, with the rule.
pub type Breaking = (&'static str, fn(&mut Random) -> Vec<Words>);

/// All of them, in the request's order.
pub const BREAKINGS: [Breaking; 12] = [
    ("settled from total", settled_not_from_total),
    ("expected from settled", expected_not_from_settled),
    ("kept plus surplus", kept_and_surplus_not_expected),
    ("neither below zero", surplus_below_zero),
    ("bid from expected", bid_not_from_expected),
    ("shortfall not below zero", shortfall_below_zero),
    ("surplus 0 with a shortfall", surplus_with_shortfall),
    ("contract with a shortfall", no_contract_with_shortfall),
    (
        "settled not below 0 without one",
        settled_below_zero_without_shortfall,
    ),
    ("kept a contract without one", no_contract_without_shortfall),
    ("points", points_not_allowed),
    ("total", total_beyond_its_points),
];

/// A record for each way to break one rule alone.
pub fn each_broken_alone(random: &mut Random) -> Vec<Words> {
    let mut records = Vec::new();
    for (_, breaking) in BREAKINGS {
        records.extend(breaking(random));
    }
    records
}
