//! What the program settle_book prints for a book (example M).

use crate::book::{settle_fields, SettledBook};

/// The text for a book; every line ends with one newline.
pub fn settle_book_text(book: &[u8]) -> String {
    match settle_fields(book) {
        Ok(settled) => settled_text(&settled),
        Err(refusal) => format!("refused {refusal}\n"),
    }
}

/// Date and s, points, slot totals, then the closing figures.
fn settled_text(book: &SettledBook) -> String {
    let (state, figures) = (&book.state, &book.figures);
    let head = &state.terms.head;
    let mut text = format!(
        "date {}-{:02}-{:02} slot {}\npoints {}\n",
        head.year, head.month, head.day, head.first_slot, state.points
    );
    for (slot, total) in (1..).zip(&state.totals) {
        text += &format!("slot {slot} {total}\n");
    }
    let named = [
        ("total", figures.total),
        ("settled", figures.settled),
        ("shortfall", figures.shortfall),
        ("expected", figures.expected),
        ("kept", figures.kept),
        ("surplus", figures.surplus),
    ];
    for (name, figure) in named {
        text += &format!("{name} {figure}\n");
    }
    text + if figures.bid { "bid yes\n" } else { "bid no\n" }
}
