//! The stored text of the program every_date: it is made here, and each of its lines
//! is right by a calendar that is walked day by day and shares nothing with `days`.
//! The program itself is run by rt ci, which compares what it prints with this text.

use settlement::books::fields::Head;
use settlement::days::day_count;
use settlement::every_date::every_date_text;
use settlement::ledger::open;
use std::collections::BTreeMap;
use std::fs;
use std::path::Path;

/// Year, month and day; not always a date.
type Numbers = (u32, u32, u32);

/// The months of a year, each with its length; February has 29 days in a leap year.
const MONTHS: [(u32, u32); 12] = [
    (1, 31),
    (2, 28),
    (3, 31),
    (4, 30),
    (5, 31),
    (6, 30),
    (7, 31),
    (8, 31),
    (9, 30),
    (10, 31),
    (11, 30),
    (12, 31),
];

/// The week, from the weekday of 2000-01-01 on.
const WEEK: [&str; 7] = [
    "Saturday",
    "Sunday",
    "Monday",
    "Tuesday",
    "Wednesday",
    "Thursday",
    "Friday",
];

fn stored_text() -> String {
    let program_folder = Path::new(env!("CARGO_MANIFEST_DIR")).join("../crates/every_date");
    fs::read_to_string(program_folder.join("stdout")).unwrap()
}

/// Four digits, two and two, and no other form.
fn numbers_of(date: &str) -> Numbers {
    let parts: Vec<&str> = date.split('-').collect();
    let digits = |part: &str, length| {
        assert!(part.len() == length, "{date}");
        assert!(part.bytes().all(|byte| byte.is_ascii_digit()), "{date}");
        part.parse().unwrap()
    };
    assert_eq!(parts.len(), 3, "{date}");
    (
        digits(parts[0], 4),
        digits(parts[1], 2),
        digits(parts[2], 2),
    )
}

/// The lines of the stored text, in its order: the numbers, and what is said of them.
fn stored_lines() -> Vec<(Numbers, String)> {
    let text = stored_text();
    let lines = text.strip_suffix('\n').unwrap().split('\n').map(|line| {
        let (date, said) = line.split_once(' ').unwrap();
        (numbers_of(date), said.to_string())
    });
    lines.collect()
}

/// What is said of each year, month and day.
fn stored_answers() -> BTreeMap<Numbers, String> {
    stored_lines().into_iter().collect()
}

/// Every fourth year, but of the hundreds every fourth one.
fn is_leap(year: u32) -> bool {
    if year.is_multiple_of(100) {
        year.is_multiple_of(400)
    } else {
        year.is_multiple_of(4)
    }
}

/// A day of the calendar: how many days after 2000-01-01 it comes, and its weekday.
struct Day {
    date: Numbers,
    count: usize,
    weekday: &'static str,
}

/// Every day from 2000-01-01 to 2100-12-31, one after the other.
fn walked_days() -> Vec<Day> {
    let mut days = Vec::new();
    let mut week = WEEK.iter().cycle();
    for year in 2000..=2100 {
        for (month, length) in MONTHS {
            let leap_day = u32::from(month == 2 && is_leap(year));
            for day in 1..=length + leap_day {
                days.push(Day {
                    date: (year, month, day),
                    count: days.len(),
                    weekday: week.next().unwrap(),
                });
            }
        }
    }
    days
}

/// The walk itself: 101 years with 25 leap years, 2000 among them and 2100 not; and
/// weekdays that are known from elsewhere.
#[test]
fn the_walked_calendar() {
    let days = walked_days();
    assert_eq!(days.len(), 101 * 365 + 25);
    let leap_days = days
        .iter()
        .filter(|day| (day.date.1, day.date.2) == (2, 29));
    let leap_years: Vec<u32> = leap_days.map(|day| day.date.0).collect();
    assert!(leap_years.into_iter().eq((2000..=2096).step_by(4)));
    for (date, count, weekday) in [
        ((2000, 1, 1), 0, "Saturday"),
        ((2000, 12, 31), 365, "Sunday"),
        ((2020, 1, 1), 7_305, "Wednesday"),
        ((2024, 1, 31), 8_796, "Wednesday"), // example A
        ((2025, 7, 1), 9_313, "Tuesday"),
        ((2026, 3, 2), 9_557, "Monday"),
        ((2099, 12, 31), 36_524, "Thursday"),
        ((2100, 12, 31), 36_889, "Friday"),
    ] {
        assert_eq!(days[count].date, date);
        assert_eq!(days[count].weekday, weekday, "{date:?}");
    }
}

#[test]
fn the_stored_text_is_made_again() {
    assert!(stored_text() == every_date_text());
}

/// Rising lines, as many as there are years, months and days: so each stands once.
#[test]
fn each_year_month_and_day_has_one_line() {
    let lines = stored_lines();
    assert_eq!(lines.len(), 103 * 14 * 33);
    assert!(lines.is_sorted_by(|(one, _), (next, _)| one < next));
    for ((year, month, day), _) in lines {
        assert!((1999..=2101).contains(&year), "{year}");
        assert!(month <= 13 && day <= 32, "{year}-{month}-{day}");
    }
}

#[test]
fn each_date_by_walking_the_calendar() {
    let answers = stored_answers();
    let (mut before, mut working, mut weekend, mut after) = (0, 0, 0, 0);
    for day in walked_days() {
        let Day { date, count, .. } = day;
        let (due, seen) = match day.weekday {
            _ if date.0 < 2020 => ("none".to_string(), &mut before),
            _ if date.0 > 2099 => ("none".to_string(), &mut after),
            "Saturday" | "Sunday" => (format!("{count} weekend yes"), &mut weekend),
            _ => (format!("{count} weekend no"), &mut working),
        };
        assert_eq!(answers.get(&date), Some(&due), "{date:?}");
        *seen += 1;
    }
    // The dates are 4,174 weeks, a Wednesday and a Thursday.
    assert_eq!([working, weekend], [4_174 * 5 + 2, 4_174 * 2]);
    assert_eq!(working + weekend, 29_220);
    assert_eq!([before, after], [20 * 365 + 5, 365]);
    assert_eq!(before + working + weekend + after, 36_890);
}

/// What is no day of the walk is no date, for one of these reasons.
#[test]
fn all_other_lines_say_none() {
    let mut others = stored_answers();
    for day in walked_days() {
        assert!(others.remove(&day.date).is_some(), "{:?}", day.date);
    }
    let mut seen = BTreeMap::<&str, u32>::new();
    for (numbers, said) in others {
        assert_eq!(said, "none", "{numbers:?}");
        let reason = match numbers {
            (1999 | 2101, ..) => "a year that is not walked",
            (_, 0 | 13, _) => "month 0 or 13",
            (.., 0 | 32) => "day 0 or 32",
            (_, 2, 29) => "29 February",
            (_, 2, 30 | 31) => "30 or 31 February",
            (_, 4 | 6 | 9 | 11, 31) => "31 of a short month",
            _ => "no reason",
        };
        *seen.entry(reason).or_default() += 1;
    }
    let due = [
        ("29 February", 101 - 25),
        ("30 or 31 February", 101 * 2),
        ("31 of a short month", 101 * 4),
        ("a year that is not walked", 2 * 14 * 33),
        ("day 0 or 32", 101 * 12 * 2),
        ("month 0 or 13", 101 * 2 * 33),
    ];
    assert!(seen.into_iter().eq(due));
    // Those of the walked years: 97 in a common year, 96 in a leap year.
    let of_walked_years = 103 * 14 * 33 - 2 * 14 * 33 - 36_890;
    assert_eq!(76 * 97 + 25 * 96, of_walked_years);
    assert_eq!(of_walked_years, 9_772);
}

/// The text by itself: how often each answer stands, and the numbers from one date
/// to the next.
#[test]
fn the_answers_by_themselves() {
    let text = stored_text();
    assert_eq!(text.matches(" none\n").count(), 47_586 - 29_220);
    assert_eq!(text.matches(" weekend yes\n").count(), 8_348);
    assert_eq!(text.matches(" weekend no\n").count(), 20_872);
    // Counts of four figures up to 9,999, of five behind it.
    let of_four = 10_000 - 7_305;
    let of_dates = 25 * of_four + 26 * (29_220 - of_four) + 2 * 20_872 + 3 * 8_348;
    assert_eq!(text.len(), 16 * (47_586 - 29_220) + of_dates);
    let counts = stored_lines().into_iter().filter_map(|(_, said)| {
        let (count, _) = said.split_once(" weekend ")?;
        Some(count.parse::<u32>().unwrap())
    });
    assert!(counts.eq(7_305..=36_524));
}

#[test]
fn leap_days_allowed_and_refused() {
    let (mut allowed, mut refused) = (Vec::new(), Vec::new());
    for ((year, month, day), said) in stored_lines() {
        match (month, day) {
            (2, 29) if said == "none" => refused.push(year),
            (2, 29) => allowed.push(year),
            _ => {}
        }
    }
    assert!(allowed.iter().copied().eq((2020..=2096).step_by(4)));
    assert_eq!([allowed.len(), refused.len()], [20, 83]);
    // Outside the years of the dates too, where the calendar has some.
    for year in [1999, 2000, 2016, 2021, 2023, 2099, 2100, 2101] {
        assert!(refused.contains(&year), "{year}");
    }
}

/// Worked out by hand: the ends of the range, of both kinds of February and of the
/// counts of four figures, a week's end, and examples A and B.
#[test]
fn lines_known_by_hand() {
    let text = stored_text();
    assert!(text.starts_with("1999-00-00 none\n1999-00-01 none\n"));
    assert!(text.ends_with("\n2101-13-31 none\n2101-13-32 none\n"));
    for line in [
        "2000-01-01 none",
        "2019-12-31 none",
        "2020-01-01 7305 weekend no",
        "2020-01-04 7308 weekend yes",
        "2020-01-05 7309 weekend yes",
        "2020-01-06 7310 weekend no",
        "2020-02-28 7363 weekend no",
        "2020-02-29 7364 weekend yes",
        "2020-02-30 none",
        "2020-03-01 7365 weekend yes",
        "2020-12-31 7670 weekend no",
        "2021-01-01 7671 weekend no",
        "2021-02-28 7729 weekend yes",
        "2021-02-29 none",
        "2021-03-01 7730 weekend no",
        "2024-01-31 8796 weekend no",
        "2024-08-07 8985 weekend no",
        "2027-05-16 9997 weekend yes",
        "2027-05-19 10000 weekend no",
        "2099-12-31 36524 weekend no",
        "2100-01-01 none",
        "2100-02-29 none",
    ] {
        assert!(text.contains(&format!("\n{line}\n")), "{line}");
    }
}

/// 2 is told where there is no such date, and 3 on a Saturday or Sunday.
#[test]
fn opening_answers_as_the_text_says() {
    let mut seen = BTreeMap::<u32, u32>::new();
    for ((year, month, day), said) in stored_lines() {
        let head = Head {
            year: year as u16,
            month: month as u8,
            day: day as u8,
            ..Head::EXAMPLE_M
        };
        let refusal = open(&head.value(), &[0; 30]).0;
        let due = match said.rsplit(' ').next() {
            Some("none") => 2,
            Some("yes") => 3,
            _ => 0,
        };
        assert_eq!(refusal, due, "{year}-{month}-{day}");
        *seen.entry(refusal).or_default() += 1;
    }
    assert!(seen.into_iter().eq([(0, 20_872), (2, 18_366), (3, 8_348)]));
}

/// The days before a month, from 1 March on: the formula of change request 6.
fn days_from_march(month: u32) -> u32 {
    (153 * month + 2) / 5
}

/// The request as it was read: a year begins in March, and a leap day is the last of
/// its year. 2000-03-01 is day 60.
fn count_from_march((year, month, day): Numbers) -> u32 {
    let (year, month) = if month < 3 {
        (year - 1, month + 9)
    } else {
        (year, month - 3)
    };
    let years = year - 2000;
    60 + years * 365 + years / 4 + days_from_march(month) + day - 1
}

/// "No date, weekday or contract changes": the formula gives the counts of the table.
#[test]
fn the_formula_of_the_request_gives_the_same_counts() {
    let before = [0, 31, 61, 92, 122, 153, 184, 214, 245, 275, 306, 337];
    assert!((0..12).map(days_from_march).eq(before));
    let mut dates = 0;
    for Day { date, .. } in walked_days() {
        let (year, month, day) = date;
        if (2020..=2099).contains(&year) {
            let by_the_table = day_count(year as u16, month as u8, day as u8);
            assert_eq!(by_the_table, Some(count_from_march(date)), "{date:?}");
            dates += 1;
        }
    }
    assert_eq!(dates, 29_220);
}
