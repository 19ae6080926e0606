//! Runs the command line.
#![allow(dead_code)] // each test program uses some of it
use std::io::Write;
use std::process::{Command, Output, Stdio};

pub const ROOT: &str = concat!(env!("CARGO_MANIFEST_DIR"), "/..");
pub const SAMPLE: &str = concat!(env!("CARGO_MANIFEST_DIR"), "/../examples/extended_echo.txt");
pub const GROUPED: &str = concat!(env!("CARGO_MANIFEST_DIR"), "/../examples/grouped_stockpiles.txt");
pub const DRONES: &str = concat!(env!("CARGO_MANIFEST_DIR"), "/../examples/two_drones.txt");
pub const DRONES_ROWS: &str = concat!(env!("CARGO_MANIFEST_DIR"), "/../examples/dry_run_rows.txt");

pub fn command() -> Command {
    Command::new(env!("CARGO_BIN_EXE_sort_placement"))
}

/// A run with bytes for its standard input.
pub fn run(args: &[&str], input: &[u8]) -> Output {
    let mut child =
        command().args(args).stdin(Stdio::piped()).stdout(Stdio::piped()).stderr(Stdio::piped()).spawn().expect("it runs");
    // one that stops reading early is heard all the same
    let _ = child.stdin.take().expect("its input").write_all(input);
    child.wait_with_output().expect("it ends")
}

/// What a run that went well printed.
pub fn text(output: &Output) -> &str {
    assert_eq!(output.status.code(), Some(0), "{}", String::from_utf8_lossy(&output.stderr));
    std::str::from_utf8(&output.stdout).expect("text")
}

/// What a run that failed with a status told; it printed nothing.
pub fn told(output: &Output, status: i32) -> &str {
    let told = std::str::from_utf8(&output.stderr).expect("text");
    assert_eq!(output.status.code(), Some(status), "{told}");
    assert!(output.stdout.is_empty());
    assert!(!told.contains("panicked"), "{told}");
    told
}

/// The plan file of a text.
pub fn made(path: &str) -> Vec<u8> {
    let made = run(&["make", path], b"");
    assert_eq!(made.status.code(), Some(0));
    made.stdout
}
