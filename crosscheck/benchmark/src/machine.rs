//! What a run says of the machine and the compilers, before its figures.

use std::fs;

/// The text of a file of the system.
fn text(path: &str) -> Result<String, String> {
    fs::read_to_string(path).map_err(|error| format!("{path}: {error}"))
}

/// The model of the first processor.
fn processor() -> Result<String, String> {
    let lines = text("/proc/cpuinfo")?;
    let model = lines
        .lines()
        .find_map(|line| line.strip_prefix("model name"));
    let model = model.ok_or("/proc/cpuinfo: no model name")?;
    Ok(model.trim_start_matches([' ', '\t', ':']).to_string())
}

/// Prints processor, load, compilers and flags.
pub fn print() -> Result<(), String> {
    let load = text("/proc/loadavg")?;
    let load = load
        .split_whitespace()
        .next()
        .ok_or("/proc/loadavg: no load")?;
    let processors = std::thread::available_parallelism().map_err(|error| error.to_string())?;
    println!(
        "processor: {processors} of {}, load at the start {load}",
        processor()?
    );
    println!("proved ledger: libtembuyas.a as examples/build builds it");
    println!(
        "separate settlement: {}, {}",
        env!("RUST_COMPILER"),
        env!("RUST_FLAGS")
    );
    println!(
        "plain pass: {}, {}",
        env!("C_COMPILER"),
        env!("PLAIN_PASS_FLAGS")
    );
    Ok(())
}
