//! Runs of a program, and what in them is not as it is due.

use std::io::Write;
use std::process::{Child, Command, Output, Stdio};
use std::thread;
use std::time::Duration;

/// The program, and how many of its runs differed.
pub struct Trial {
    /// Its path.
    pub program: String,
    runs: u64,
    differing: u64,
}

/// What a trial is to do: PROGRAM [COUNT [FIRST]].
pub struct Asked {
    /// The program's trial, before its first run.
    pub trial: Trial,
    /// How many seeded inputs.
    pub count: u64,
    /// The number of the first.
    pub first: u64,
}

/// What the arguments ask for, and so many seeded inputs from 0 on where they say nothing.
pub fn asked(usual: u64) -> Asked {
    let mut arguments = std::env::args().skip(1);
    let program = arguments.next().expect("the program's path");
    let mut numbers = arguments.map(|a| a.parse::<u64>().expect("a whole number"));
    let trial = Trial {
        program,
        runs: 0,
        differing: 0,
    };
    Asked {
        trial,
        count: numbers.next().unwrap_or(usual),
        first: numbers.next().unwrap_or(0),
    }
}

/// Feeds an input in pieces of at most so many bytes, with a pause behind each. An input that is
/// refused early may not be read to its end.
fn feed(mut child: Child, bytes: &[u8], piece: usize, pause: Duration) -> Output {
    let mut input = child.stdin.take().expect("a pipe");
    thread::scope(|scope| {
        scope.spawn(move || {
            for bytes in bytes.chunks(piece) {
                if input.write_all(bytes).is_err() {
                    return;
                }
                thread::sleep(pause);
            }
        });
        child.wait_with_output().expect("the program ends")
    })
}

/// A child that has been given a short input.
pub fn fed(mut child: Child, bytes: &[u8]) -> Child {
    let mut input = child.stdin.take().expect("a pipe");
    input
        .write_all(bytes)
        .expect("room for a short input in the pipe");
    child
}

impl Trial {
    /// Counts a run and tells where it differs.
    pub fn count(&mut self, name: &str, differences: &[(bool, &str)]) {
        self.runs += 1;
        if differences.iter().any(|(differs, _)| *differs) {
            self.differing += 1;
        }
        for (_, what) in differences.iter().filter(|(differs, _)| *differs) {
            eprintln!("{name}: {what}");
        }
    }

    /// Starts a command whose standard error comes through a pipe.
    pub fn start(
        command: &mut Command,
        input: impl Into<Stdio>,
        output: impl Into<Stdio>,
    ) -> Child {
        let piped = command.stdin(input).stdout(output).stderr(Stdio::piped());
        piped.spawn().expect("the program starts")
    }

    /// The program started by a shell that closes its input or output first.
    pub fn closed(&self, closing: &str, input: impl Into<Stdio>) -> Child {
        let command = &mut Command::new("sh");
        command.args(["-c", &format!("exec \"$0\" {closing}"), &self.program]);
        Self::start(command, input, Stdio::piped())
    }

    /// The program prints a text for an input that comes in pieces, with pauses of so many ms.
    pub fn prints_in_pieces(
        &mut self,
        name: &str,
        input: &[u8],
        text: &str,
        piece: usize,
        pause: u64,
    ) {
        let command = &mut Command::new(&self.program);
        let child = Self::start(command, Stdio::piped(), Stdio::piped());
        let output = feed(child, input, piece, Duration::from_millis(pause));
        let differences = [
            (
                output.status.code() != Some(0),
                "another exit status than 0",
            ),
            (output.stdout != text.as_bytes(), "other text"),
            (!output.stderr.is_empty(), "something on standard error"),
        ];
        self.count(name, &differences);
    }

    /// The program prints a text for an input, and nothing else.
    pub fn prints(&mut self, name: &str, input: &[u8], text: &str) {
        self.prints_in_pieces(name, input, text, usize::MAX, 0);
    }

    /// The last line: so many inputs of a sort, the other runs, and how many differ. The exit status
    /// is 1 where one does.
    pub fn end(self, count: u64, sort: &str) {
        let (others, differing) = (self.runs - count, self.differing);
        println!("{count} {sort} through a pipe and {others} other runs of the program, {differing} differ");
        if differing > 0 {
            std::process::exit(1);
        }
    }
}
