//! The header beside the package: compiled and run by a C program over the same library, and held to what the library is.
use sort_placement::{DRY_RUN_BYTES, DRY_RUN_STACK, MOST_BYTES, MOST_STACK, Refusal, STACK_TO_20_NODES};
use std::collections::BTreeSet;
use std::process::Command;

const HEADER: &str = include_str!("../include/sort_placement.h");

#[test]
fn a_c_program_calls_every_export() {
    let package = env!("CARGO_MANIFEST_DIR");
    let program = format!("{}/c_program", env!("CARGO_TARGET_TMPDIR"));
    let mut compiler = Command::new("cc");
    compiler.args(["-std=c99", "-Wall", "-Wextra", "-Werror", "-I", &format!("{package}/include"), "-o", &program]);
    compiler.args([&format!("{package}/tests/c_program.c"), env!("SORT_PLACEMENT_ARCHIVE")]);
    compiler.args(cfg!(has_dry_run).then_some("-DHAS_DRY_RUN"));
    assert!(compiler.status().expect("cc").success());
    let run = Command::new(&program).output().expect("the program");
    let rewrites: String = ["copy", "ensure", "parallelize", "preserve", "push"].map(|c| format!("{c} 0 512\n")).concat();
    let dry_run = if cfg!(has_dry_run) { "dry_run 0 28 1\nwrong rows 1\n" } else { "" };
    let wanted = format!("check 0 1\nshort 1\n{rewrites}partial 20\n{dry_run}refusals 16\n");
    assert_eq!(String::from_utf8(run.stdout).expect("text"), wanted);
}

/// `NoSuchNode` as the header writes it.
fn constant(refusal: &Refusal) -> String {
    let name = format!("{refusal:?}");
    let words = name.chars().map(|c| if c.is_uppercase() { format!("_{c}") } else { c.to_uppercase().to_string() });
    format!("SORT_PLACEMENT{}", words.collect::<String>())
}

#[test]
fn the_header_has_every_refusal() {
    let defined: BTreeSet<(String, u32)> = HEADER
        .lines()
        .filter_map(|l| l.strip_prefix("#define ")?.split_once(' '))
        .filter_map(|(name, rest)| Some((name.to_string(), rest.split_whitespace().next()?.parse().ok()?)))
        .collect();
    let mut wanted: BTreeSet<(String, u32)> = Refusal::ALL.iter().map(|r| (constant(r), r.number())).collect();
    let sizes = [
        ("NOT_STEPPED", Refusal::NOT_STEPPED as usize),
        ("MOST_BYTES", MOST_BYTES),
        ("DRY_RUN_BYTES", DRY_RUN_BYTES),
        ("MOST_STACK", MOST_STACK),
        ("STACK_TO_20_NODES", STACK_TO_20_NODES),
        ("DRY_RUN_STACK", DRY_RUN_STACK),
    ];
    wanted.extend(sizes.map(|(name, size)| (format!("SORT_PLACEMENT_{name}"), size as u32)));
    assert_eq!(defined, wanted);
}

/// The names that the header says are taken are the archive's, and so is what it says the archive uses.
#[test]
fn the_header_names_every_symbol() {
    let Ok(listed) = Command::new("nm").args(["-g", env!("SORT_PLACEMENT_ARCHIVE")]).output() else {
        println!("no nm here");
        return;
    };
    let listed = String::from_utf8(listed.stdout).expect("text");
    let mut symbols = 0;
    for name in listed.lines().filter(|l| l.contains(" T ") || l.contains(" U ")).filter_map(|l| l.split(' ').next_back()) {
        assert!(HEADER.contains(name), "{name}");
        symbols += 1;
    }
    assert!(symbols >= 7, "{listed}");
}
