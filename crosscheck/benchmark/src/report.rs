//! What a run prints: the figures and the goals.

use crate::books::Kind;
use crate::shelf::Shelf;
use crate::timing::Times;

/// Prints the table of a kind of books.
pub fn print_table(kind: &Kind, shelves: &[Shelf]) {
    println!();
    println!(
        "{} books: ns of the processor a point, best turn (median turn), and ratios of the best",
        kind.name
    );
    println!(
        "{:>5} {:>9} {:>13} {:>13} {:>13} {:>15} {:>12}",
        "books", "of points", "proved", "separate", "plain", "proved/separate", "proved/plain"
    );
    for shelf in shelves {
        let points = shelf.all_points();
        let cell = |times: &Times| {
            format!(
                "{:.0} ({:.0})",
                times.best() / points,
                times.median() / points
            )
        };
        println!(
            "{:>5} {:>9} {:>13} {:>13} {:>13} {:>15.3} {:>12.3}",
            shelf.books,
            shelf.points,
            cell(&shelf.proved),
            cell(&shelf.separate),
            cell(&shelf.plain),
            shelf.of_separate(),
            shelf.of_plain()
        );
    }
}

/// Prints the times of settle_book and `cat`.
pub fn print_program(bytes: usize, settling: &Times, copying: &Times) {
    let ratio = settling.best() / copying.best();
    let cell = |times: &Times| format!("{:.1} ({:.1})", times.best() / 1e6, times.median() / 1e6);
    println!();
    println!(
        "settle_book beside cat, {:.1} MB from a file: ms, best (median)",
        bytes as f64 / 1e6
    );
    println!(
        "settle_book {}, cat {}, ratio {ratio:.2}",
        cell(settling),
        cell(copying)
    );
}

/// Prints the memory of settle_book for two sizes.
pub fn print_memory(points: [u32; 2], peaks: [u64; 2]) {
    println!();
    let [fewest, most] = points;
    println!(
        "peak memory of settle_book: {} kB at {fewest} points, {} kB at {most}",
        peaks[0], peaks[1]
    );
}

/// The largest of some figures.
fn largest(shelves: &[Shelf], figure: fn(&Shelf) -> f64) -> f64 {
    shelves.iter().map(figure).fold(f64::NEG_INFINITY, f64::max)
}

/// How much more the slowest size takes for a point than the fastest.
fn unevenness(shelves: &[Shelf]) -> f64 {
    largest(shelves, Shelf::for_a_point) / -largest(shelves, |shelf| -shelf.for_a_point())
}

fn print_goal(name: &str, figure: f64, limit: f64, unit: &str) {
    let met = if figure <= limit { "met" } else { "MISSED" };
    println!("{met:>6}: {name}: {figure:.3}{unit}, goal at most {limit}{unit}");
}

/// Prints each goal with its figure, over the sizes the worst one. The memory is in kB, at the fewest points and at most.
pub fn print_goals(ordinary: &[Shelf], dropping: &[Shelf], memory: [u64; 2]) {
    println!();
    let slower = largest(ordinary, Shelf::of_separate).max(largest(dropping, Shelf::of_separate));
    print_goal("both, of the separate settlement", slower, 1.0, "");
    print_goal(
        "ordinary, of the plain pass",
        largest(ordinary, Shelf::of_plain),
        1.2,
        "",
    );
    print_goal(
        "dropping, of the plain pass",
        largest(dropping, Shelf::of_plain),
        1.5,
        "",
    );
    print_goal(
        "ordinary, slowest size of the fastest",
        unevenness(ordinary),
        1.05,
        "",
    );
    print_goal(
        "dropping, slowest size of the fastest",
        unevenness(dropping),
        1.05,
        "",
    );
    let [fewest, most] = memory.map(|peak| peak as f64);
    print_goal("memory of settle_book", fewest.max(most) / 1e3, 8.0, " MB");
    print_goal(
        "memory at most points, of that at fewest",
        most / fewest,
        1.05,
        "",
    );
}
