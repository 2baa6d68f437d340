//! Whole books: refusals in their order, cut books, round trips.

mod common;

use common::*;
use settlement::book::{read_back, settle, settle_fields, written_book, HandedOn};
use settlement::books::damages::{field_begins, DAMAGES};
use settlement::books::examples::{consumers, example_m, mixed_firing, refused};
use settlement::books::fields::*;
use settlement::books::lists::{self, KINDS};
use settlement::books::random::Random;
use settlement::books::seeded_book;
use settlement::ledger::{add, close, open};
use settlement::text::settle_book_text;
use std::collections::{BTreeMap, BTreeSet};

/// The answer for a book; a refused one must leave the 64 bytes alone.
fn answer(book: &[u8]) -> u32 {
    let mut result = [0xA5; 64];
    let number = settle(book, &mut result);
    let words = settle_fields(book).map(|settled| settled.figures.words());
    let due = match words {
        Ok(words) => words.map(i64::to_be_bytes).concat(),
        Err(_) => vec![0xA5; 64],
    };
    assert_eq!(result[..], due[..]);
    assert_eq!(number, words.err().unwrap_or(0));
    number
}

/// Example M's list with a consumer and a second generator behind.
fn three_points() -> List {
    let mut list = List::new(Head::EXAMPLE_M);
    list.push(generator(1, 0, 550_000));
    list.push(level_consumer(2));
    list.push(generator(3, 1, 0));
    list
}

#[test]
fn forty_stands_before_everything() {
    for length in [0, 1, 63, 65, 128] {
        for book in [example_m(), refused(), vec![]] {
            let mut result = vec![0xA5; length];
            assert_eq!(settle(&book, &mut result), 40);
            assert_eq!(result, vec![0xA5; length]);
        }
    }
}

#[test]
fn every_cut_of_a_small_book() {
    let book = example_m();
    for length in 0..=book.len() {
        let due = match length {
            0..53 => 31,
            53 => 20,
            54..106 => 31,
            _ => 0,
        };
        assert_eq!(answer(&book[..length]), due, "{length} bytes");
    }
}

#[test]
fn every_cut_of_a_book_with_a_consumer() {
    let book = three_points().book();
    let begins = field_begins(&book);
    assert_eq!(begins, [0, 20, 53, 106, 6_084]);
    for length in 0..=book.len() {
        let due = match length {
            53 | 106 | 6_084 => 20,
            6_137 => 0,
            _ => 31,
        };
        assert_eq!(answer(&book[..length]), due, "{length} bytes");
    }
}

/// A book of one plant, number 7, share 33.3%, readings 1 to 12 times 1,000, put
/// together by hand.
fn book_of_a_plant() -> Vec<u8> {
    let mut book = example_m()[..53].to_vec();
    book.extend([5, 0, 72]);
    book.extend(b"0000000000000000000007");
    book.extend([0x01, 0x4D]); // 333
    for times in 1..=12u16 {
        let [high, low] = (1_000 * times).to_be_bytes();
        book.extend([0, 0, high, low]);
    }
    book
}

#[test]
fn a_plant_as_bytes_of_the_book() {
    let book = book_of_a_plant();
    assert_eq!(book.len(), 53 + 3 + 72);
    let mut fields = MixedFiringFields::flat(7, 333, 0, 0);
    for (times, reading) in (1..).zip(&mut fields.readings) {
        *reading = 1_000 * times;
    }
    let mut list = List::new(Head::EXAMPLE_M);
    list.push(PointFields::MixedFiring(fields));
    assert_eq!(list.book(), book);
    // Slot j: (1,000 j + 1,000 (j + 6)) × 0.667 = 8,000 × 0.667 and 1,334 more.
    let settled = settle_fields(&book).unwrap();
    let due = [5_336, 6_670, 8_004, 9_338, 10_672, 12_006];
    assert_eq!(settled.state.totals, due);
    assert_eq!(settled.figures.words()[..3], [52_026, 17, 983]);
    assert_eq!(settled.figures.points, 1);
    assert_eq!(settled.handed_on.points, [(5, &book[56..])]);
    assert_eq!(written_book(&settled.handed_on), Ok(book.clone()));
}

#[test]
fn every_cut_of_a_book_with_a_plant() {
    let book = book_of_a_plant();
    for length in 53..=book.len() {
        let due = match length {
            53 => 20,
            54..128 => 31,
            _ => 0,
        };
        assert_eq!(answer(&book[..length]), due, "{length} bytes");
    }
}

#[test]
fn a_plant_in_the_order_of_document_01() {
    let changed = |changes: &[(usize, u8)], length: usize| {
        let mut book = book_of_a_plant();
        for &(place, byte) in changes {
            book[place] = byte;
        }
        book.truncate(length);
        answer(&book)
    };
    let whole = 128;
    let (tag, length, number) = ((53, 6), (55, 73), (56, b'/'));
    let (share, reading) = ((78, 4), (124, 0xFF)); // 1,101; the last reading
    assert_eq!(changed(&[tag, length, number, share], 56), 11);
    assert_eq!(changed(&[length, number, share], 56), 12);
    assert_eq!(changed(&[(55, 71), share], whole), 12);
    assert_eq!(changed(&[(53, 4)], whole), 12); // a plant's length
    assert_eq!(changed(&[(53, 3)], whole), 12);
    assert_eq!(changed(&[share, reading], 127), 31);
    assert_eq!(changed(&[number, share, reading], whole), 14);
    assert_eq!(changed(&[share, reading], whole), 50);
    assert_eq!(changed(&[reading], whole), 51);
    assert_eq!(changed(&[(80, 0xFF)], whole), 51); // the first reading
    assert_eq!(changed(&[(78, 3), (79, 0xE8)], whole), 0); // 1,000
    assert_eq!(changed(&[(78, 3), (79, 0xE9)], whole), 50); // 1,001
    let mut book = book_of_a_plant();
    book.push(0);
    assert_eq!(answer(&book), 42);
    book[78] = 4;
    assert_eq!(answer(&book), 50); // before 42
}

#[test]
fn plants_among_the_other_points() {
    let mut list = three_points();
    list.push(plant(4, 500, 3, 4));
    list.points.insert(1, plant(1, 0, 0, 0));
    list.head.count = 5;
    assert_eq!(answer(&list.book()), 15); // numbers rise over all kinds
    *list.points[0].number() = point_number(0);
    let settled = settle_fields(&list.book()).map(|settled| settled.state);
    // 550,000 of the generator, 0, 0, −500 and 3.5.
    assert_eq!(settled.map(|state| state.totals), Ok([549_503; 6]));
}

#[test]
fn bytes_after_the_last_point() {
    for more in [&[0u8][..], &[4, 0], &[4, 0, 50], &example_m()[53..]] {
        let mut book = example_m();
        book.extend(more);
        assert_eq!(answer(&book), 42);
    }
}

/// A book of example M with some bytes changed and a length to cut to.
fn changed(changes: &[(usize, u8)], length: usize) -> u32 {
    let mut book = example_m();
    for &(place, byte) in changes {
        book[place] = byte;
    }
    book.truncate(length);
    answer(&book)
}

const WHOLE: usize = 106;

#[test]
fn head_and_calendar_in_the_order_of_document_01() {
    for begin in [0, 20] {
        let (tag, length) = (begin, begin + 2);
        assert_eq!(changed(&[(tag, 9)], WHOLE), 41);
        assert_eq!(changed(&[(length, 31)], WHOLE), 1);
        assert_eq!(changed(&[(tag, 9)], begin + 2), 31); // under three bytes first
        assert_eq!(changed(&[(tag, 9), (length, 31)], WHOLE), 41);
        assert_eq!(changed(&[(tag, 9)], begin + 3), 41); // before value cut
        assert_eq!(changed(&[(length, 31)], begin + 3), 1); // before value cut
        assert_eq!(changed(&[], begin + 3), 31);
    }
    assert_eq!(changed(&[(0, 2)], WHOLE), 41); // calendar where the head is due
    assert_eq!(changed(&[(20, 1)], WHOLE), 41); // head where the calendar is due
    assert_eq!(changed(&[(20, 4)], WHOLE), 41); // point where the calendar is due
}

#[test]
fn opening_comes_after_the_calendar() {
    let bad_date = (5, 13);
    assert_eq!(changed(&[bad_date], WHOLE), 2);
    assert_eq!(changed(&[bad_date], 20), 31);
    assert_eq!(changed(&[bad_date], 52), 31);
    assert_eq!(changed(&[bad_date, (20, 9)], WHOLE), 41);
    assert_eq!(changed(&[bad_date, (22, 29)], WHOLE), 1);
    assert_eq!(changed(&[bad_date], 53), 2); // before 20
    assert_eq!(changed(&[bad_date, (53, 9)], WHOLE), 2); // before the point's 11
    assert_eq!(changed(&[(7, 35), (52, 4)], WHOLE), 4);
    assert_eq!(changed(&[(52, 4)], WHOLE), 8);
    assert_eq!(changed(&[(19, 0)], 53), 7); // a book of no points
}

#[test]
fn a_point_in_the_order_of_document_01() {
    let (tag, length, number, baseline) = ((53, 9), (55, 51), (56, b'/'), (78, 0xFF));
    assert_eq!(changed(&[], 53), 20);
    assert_eq!(changed(&[tag], 54), 31);
    assert_eq!(changed(&[tag], 55), 31);
    assert_eq!(changed(&[tag], 56), 11);
    assert_eq!(changed(&[tag, length, number], WHOLE), 11);
    assert_eq!(changed(&[length], 56), 12);
    assert_eq!(changed(&[length, number], WHOLE), 12);
    assert_eq!(changed(&[(53, 3)], WHOLE), 12); // a generator's length
    assert_eq!(changed(&[number], 105), 31);
    assert_eq!(changed(&[number, baseline], WHOLE), 14);
    assert_eq!(changed(&[baseline, (82, 0xFF)], WHOLE), 16);
    assert_eq!(changed(&[(82, 0xFF)], WHOLE), 51);
    assert_eq!(changed(&[(53, 5)], WHOLE), 12);
    for other in [0, 1, 2, 6, 7] {
        assert_eq!(changed(&[(53, other)], WHOLE), 11);
    }
}

#[test]
fn a_point_is_judged_before_what_follows() {
    let mut list = three_points();
    *list.points[1].number() = point_number(1);
    let mut book = list.book();
    book.extend([0; 9]);
    assert_eq!(answer(&book), 15);
    assert_eq!(answer(&book[..6_084]), 15);
    assert_eq!(answer(&book[..6_083]), 31);
    let mut list = three_points();
    list.points[2].readings()[5] = u32::MAX;
    let mut book = list.book();
    book.extend([0; 9]);
    assert_eq!(answer(&book), 51); // before 42
    list.marks = [3; 30];
    assert_eq!(answer(&list.book()), 18); // the earlier point's
}

#[test]
fn points_as_many_as_the_head_says() {
    for (count, due) in [(2, 42), (3, 0), (4, 20)] {
        let mut list = three_points();
        list.head.count = count;
        assert_eq!(answer(&list.book()), due);
    }
}

#[test]
fn text_of_refused_books() {
    assert_eq!(settle_book_text(&refused()), "refused 31\n");
    assert_eq!(settle_book_text(&example_m()[..53]), "refused 20\n");
    assert_eq!(settle_book_text(&[9, 0, 17]), "refused 41\n");
}

/// The values of a list, as writing takes them.
fn values_of(list: &List) -> (Vec<u8>, Vec<(u8, Vec<u8>)>) {
    let points = list.points.iter().map(|point| (point.tag(), point.value()));
    (list.head.value(), points.collect())
}

#[test]
fn a_written_book_reads_back() {
    let mut random = Random::new(60);
    let mut read = 0;
    for _ in 0..150 {
        for (kind, make) in KINDS {
            let list = make(&mut random);
            let (head, points) = values_of(&list);
            let values = HandedOn {
                head: &head,
                calendar: &list.marks,
                points: points
                    .iter()
                    .map(|(tag, value)| (*tag, &value[..]))
                    .collect(),
            };
            let Ok(book) = written_book(&values) else {
                continue;
            };
            assert_eq!(book, list.book(), "{kind}");
            if able_to_settle(&list) {
                assert_eq!(read_back(&book), Ok(values), "{kind}");
                read += 1;
            }
        }
    }
    assert!(read > 1_500, "{read}");
}

/// Points as many as the head says, rising, each able to show its days.
fn able_to_settle(list: &List) -> bool {
    let mut points = list.points.clone();
    let numbers: Vec<_> = points.iter_mut().map(|point| *point.number()).collect();
    let rising = numbers.windows(2).all(|pair| pair[0] < pair[1]);
    let with_days = |point: &PointFields| naive_exact_results(list, point).is_some();
    points.len() as u32 == list.head.count && rising && points.iter().all(with_days)
}

#[test]
fn a_book_read_in_full_is_written_with_the_same_bytes() {
    let mut answers: BTreeMap<u32, u32> = BTreeMap::new();
    let mut damages = BTreeSet::new();
    for number in 0..12_000 {
        let seeded = seeded_book(number);
        let told = answer(&seeded.book);
        *answers.entry(told).or_default() += 1;
        damages.insert(seeded.damage);
        if told == 0 {
            let values = read_back(&seeded.book).unwrap();
            assert_eq!(written_book(&values), Ok(seeded.book));
        }
    }
    assert_eq!(damages.len(), DAMAGES.len() + 1);
    let all: Vec<u32> = answers.keys().copied().collect();
    let due = [
        0, 1, 2, 3, 4, 5, 6, 7, 8, 11, 12, 14, 15, 16, 18, 20, 31, 41, 42, 50, 51, 52,
    ];
    assert_eq!(all, due);
    assert!(answers.values().all(|&times| times >= 10), "{answers:?}");
    assert!(answers[&0] > 3_000, "{answers:?}");
}

#[test]
fn the_same_seed_gives_the_same_book() {
    for number in [0, 1, 17, 40, 1_000_003] {
        assert_eq!(seeded_book(number), seeded_book(number));
    }
    assert_ne!(seeded_book(17).book, seeded_book(34).book);
}

#[test]
fn the_values_handed_on_settle_to_the_same_figures() {
    for book in [consumers(), mixed_firing()] {
        let settled = settle_fields(&book).unwrap();
        let values = &settled.handed_on;
        let (_, mut state) = open(values.head, values.calendar);
        for (tag, value) in &values.points {
            state = add(&state, *tag, value, &mut [0; 6]).state;
        }
        assert_eq!(state, settled.state);
        assert_eq!(close(&state), (0, settled.figures));
        assert!(settled.figures.shortfall > 0);
        assert_eq!(settled.figures.points, 4);
    }
}

#[test]
fn a_list_of_10_000_points() {
    let mut list = List::new(Head::EXAMPLE_M);
    list.head.contract = 10_000_000;
    for number in 0..10_000 {
        list.push(generator(number, 0, 1_000_000_000));
    }
    let settled_book = list.book();
    let figures = settle_fields(&settled_book).unwrap().figures;
    assert_eq!(figures.total, 60_000_000_000_000);
    assert_eq!(figures.settled, 20_000_000_000);
    assert_eq!((figures.kept, figures.shortfall), (10_000_000, 0));
    assert_eq!(figures.points, 10_000);
    list.push(generator(10_000, 0, 0));
    assert_eq!(answer(&list.book()), 7);
}

#[test]
fn a_list_of_10_000_plants() {
    let mut list = List::new(Head::EXAMPLE_M);
    for number in 0..10_000 {
        list.push(plant(number, 1, 1_000_000_000, 999_999_999));
    }
    // 1,999,999,999 × 0.999 = 1,997,999,999.001 in each of six slots.
    let settled_book = list.book();
    assert_eq!(settled_book.len(), 53 + 10_000 * 75);
    let figures = settle_fields(&settled_book).unwrap().figures;
    assert_eq!(figures.total, 119_879_999_940_000);
    assert_eq!(figures.settled, 39_959_999_980);
    assert_eq!(figures.points, 10_000);
}

#[test]
fn a_list_settles_as_its_points_together() {
    let mut random = Random::new(61);
    for _ in 0..300 {
        let list = lists::ordinary(&mut random);
        let Ok(settled) = settle_fields(&list.book()).map(|settled| settled.state) else {
            continue;
        };
        let mut totals = [0; 6];
        for point in &list.points {
            let (_, _, places) = add_point(&opened(&list), point);
            totals = std::array::from_fn(|slot| totals[slot] + places[slot]);
        }
        assert_eq!(settled.totals, totals);
    }
}
