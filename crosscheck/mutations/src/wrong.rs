//! The program of one wrong settlement: compiled by `mutants.rs` with each.

judging::answers_of!(Wrong, wrong);

fn main() -> std::process::ExitCode {
    judging::judge(&Wrong)
}
