//! Books of one size, and the three passes over them.

use std::hint::black_box;

use crate::books::{self, Kind};
use crate::settlings;
use crate::timing::{Clock, Times};

/// A turn goes through so many points, whatever the size of the books: a book that stayed in the cache from turn to
/// turn could not be compared with one that does not fit there.
const POINTS_OF_A_TURN: u32 = 10_000;

/// Books of one size with the times of each pass over all of them.
pub struct Shelf {
    /// Points of each book.
    pub points: u32,
    /// How many books are passed in a turn.
    pub books: u32,
    /// The proved ledger.
    pub proved: Times,
    /// The separate settlement.
    pub separate: Times,
    /// The plain pass.
    pub plain: Times,
    book: Vec<u8>,
}

/// Times one of the passes over books of one length.
fn pass<T>(times: &mut Times, desk: &[u8], length: usize, settle: fn(&[u8]) -> T) {
    times.add(|| {
        for book in desk.chunks_exact(length) {
            black_box(settle(book));
        }
    });
}

impl Shelf {
    /// Books of a kind, each of which is what its kind says and is settled alike by both.
    pub fn new(kind: &Kind, points: u32) -> Result<Shelf, String> {
        let list = (kind.list)(points);
        books::check(kind, &list)?;
        let book = list.book();
        settlings::check(&book)?;
        Ok(Shelf {
            points,
            books: POINTS_OF_A_TURN / points,
            proved: Times::new(Clock::Running),
            separate: Times::new(Clock::Running),
            plain: Times::new(Clock::Running),
            book,
        })
    }

    /// A turn of each pass. All sizes lie on the same desk, since one part of the memory may be slower than another; a
    /// pass that is not timed writes back to the memory what the caches hold of its filling.
    pub fn turn(&mut self, desk: &mut Vec<u8>) {
        desk.clear();
        (0..self.books).for_each(|_| desk.extend_from_slice(&self.book));
        black_box(settlings::plain(desk));
        let length = self.book.len();
        pass(&mut self.proved, desk, length, settlings::proved);
        pass(&mut self.separate, desk, length, settlings::separate);
        pass(&mut self.plain, desk, length, settlings::plain);
    }

    /// The points of all its books.
    pub fn all_points(&self) -> f64 {
        f64::from(self.books) * f64::from(self.points)
    }

    /// The proved ledger's best time for a point, in ns.
    pub fn for_a_point(&self) -> f64 {
        self.proved.best() / self.all_points()
    }

    /// The proved ledger's time over the separate settlement's.
    pub fn of_separate(&self) -> f64 {
        self.proved.best() / self.separate.best()
    }

    /// The proved ledger's time over the plain pass's.
    pub fn of_plain(&self) -> f64 {
        self.proved.best() / self.plain.best()
    }
}

/// Room for the books of a turn, of any size.
pub fn desk(shelves: &[Shelf]) -> Vec<u8> {
    let bytes = shelves
        .iter()
        .map(|shelf| shelf.books as usize * shelf.book.len());
    Vec::with_capacity(bytes.max().unwrap_or(0))
}
