//! Times of calls that take turns, so that what slows the machine slows them all.

use std::hint::black_box;

#[repr(C)]
struct Timespec {
    seconds: i64,
    nanoseconds: i64,
}

extern "C" {
    fn clock_gettime(clock: i32, time: *mut Timespec) -> i32;
}

/// A clock of the system.
#[derive(Clone, Copy)]
pub enum Clock {
    /// Time that goes by: for other programs.
    Passing = 1,
    /// Time that this thread runs: what else the machine does meanwhile is not counted.
    Running = 3,
}

/// A clock's time in nanoseconds.
fn time(clock: Clock) -> f64 {
    let mut time = Timespec {
        seconds: 0,
        nanoseconds: 0,
    };
    let answer = unsafe { clock_gettime(clock as i32, &mut time) };
    assert_eq!(answer, 0, "the clock cannot be read");
    time.seconds as f64 * 1e9 + time.nanoseconds as f64
}

/// The times of one of the calls in nanoseconds, one for each turn.
pub struct Times {
    clock: Clock,
    turns: Vec<f64>,
}

impl Times {
    /// No turn yet.
    pub fn new(clock: Clock) -> Times {
        Times {
            clock,
            turns: Vec::new(),
        }
    }

    /// Times a call.
    pub fn add<T>(&mut self, call: impl FnOnce() -> T) -> T {
        let begin = time(self.clock);
        let given = black_box(call());
        self.turns.push(time(self.clock) - begin);
        given
    }

    /// The shortest.
    pub fn best(&self) -> f64 {
        self.turns.iter().copied().fold(f64::INFINITY, f64::min)
    }

    /// The one in the middle.
    pub fn median(&self) -> f64 {
        let mut sorted = self.turns.clone();
        sorted.sort_by(f64::total_cmp);
        sorted[sorted.len() / 2]
    }
}
