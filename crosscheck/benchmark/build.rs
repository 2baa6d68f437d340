//! Links the archive of the proved ledger and the plain pass, and hands on what the report prints of the compilers.

use std::env;
use std::process::Command;

#[path = "../archive.rs"]
mod archive;

/// Functions and loops are aligned: a loop of a few instructions may take twice the time where it crosses a line.
const PLAIN_PASS_FLAGS: [&str; 3] = ["-O3", "-falign-functions=64", "-falign-loops=64"];

/// The first line that a compiler says of itself.
fn version_of(compiler: &str) -> String {
    let output = Command::new(compiler)
        .arg("--version")
        .output()
        .expect(compiler);
    assert!(output.status.success(), "{compiler} --version failed");
    let text = String::from_utf8(output.stdout).expect("a version in UTF-8");
    text.lines().next().expect("a line").to_string()
}

fn compile_plain_pass() {
    let object = format!("{}/plain_pass.o", env::var("OUT_DIR").expect("OUT_DIR"));
    let mut gcc = Command::new("gcc");
    gcc.args(PLAIN_PASS_FLAGS).args([
        "-Wall",
        "-Wextra",
        "-Werror",
        "-c",
        "plain_pass.c",
        "-o",
        &object,
    ]);
    let status = gcc.status().expect("gcc starts");
    assert!(status.success(), "gcc could not compile plain_pass.c");
    println!("cargo:rustc-link-arg={object}");
    println!("cargo:rerun-if-changed=plain_pass.c");
}

/// The optimisation and what the command adds to it.
fn rust_flags() -> String {
    let level = env::var("OPT_LEVEL").expect("OPT_LEVEL");
    let more = env::var("CARGO_ENCODED_RUSTFLAGS").unwrap_or_default();
    format!("opt-level={level} {}", more.replace('\u{1f}', " "))
}

fn main() {
    archive::link_to("benchmark");
    compile_plain_pass();
    println!(
        "cargo:rustc-env=PLAIN_PASS_FLAGS={}",
        PLAIN_PASS_FLAGS.join(" ")
    );
    println!("cargo:rustc-env=C_COMPILER={}", version_of("gcc"));
    println!(
        "cargo:rustc-env=RUST_COMPILER={}",
        version_of(&env::var("RUSTC").expect("RUSTC"))
    );
    println!("cargo:rustc-env=RUST_FLAGS={}", rust_flags());
}
