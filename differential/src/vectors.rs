//! Replays requests with their answers, a folder or a file of vectors or the cases of the program `replay`, through the Rust over the
//! stand-ins and through the library; dry runs through the second stepper in the Rust's place.
use crate::cases::{self, Case, Request};
use crate::dry_run;
use crate::library;
use crate::rust_side::Answer;
use crate::usage::stop;
use sort_placement::exports::Call;
use std::collections::BTreeMap;
use std::path::{Path, PathBuf};

/// The files whose answers hold now: the base's and P1's, which say 22 where P2 has changed the answer, and those of the requests of
/// document 02 that have landed since.
const BEFORE_P2: [&str; 8] = ["check", "ensure", "parallelize", "preserve", "push", "partial", "rare", "p1"];
const SINCE_P2: [&str; 2] = ["p2", "p3"];

pub fn bytes_of(hex: &str) -> Vec<u8> {
    let digit = |c: u8| (c as char).to_digit(16).expect("a hex digit") as u8;
    if hex == "-" { vec![] } else { hex.as_bytes().chunks(2).map(|d| digit(d[0]) << 4 | digit(d[1])).collect() }
}

fn request(line: &str) -> Request {
    let words: Vec<&str> = line.split_whitespace().collect();
    let call = match words[0] {
        "check" => Call::Check,
        "ensure" => Call::Ensure,
        "parallelize" => Call::Parallelize,
        "preserve" => Call::Preserve(bytes_of(words[1]).try_into().expect("three settings")),
        "push" => Call::Push,
        "partial" => Call::Partial(words[4].parse().expect("a node")),
        other => panic!("no call {other}"),
    };
    // the check's answer is one byte, whatever the length says
    let room = if call == Call::Check { 1 } else { words[2].parse().expect("a length") };
    Request { call, room, file: bytes_of(words[3]) }
}

fn expected(call: Call, line: &str) -> (u32, Vec<u8>) {
    match line.split_once(' ') {
        Some(("0", passes)) if call == Call::Check => (0, vec![passes.parse().expect("1 or 0")]),
        Some(("0", file)) => (0, bytes_of(file)),
        _ => (line.parse().expect("a number"), vec![]),
    }
}

/// Document 02, P2: where a vector of before says 22 the file comes back, or 24 if the output is shorter.
fn in_22s_place(request: &Request) -> (u32, Vec<u8>) {
    if request.file.len() <= request.room { (0, request.file.clone()) } else { (24, vec![]) }
}

#[derive(Default)]
struct Figures {
    requests: usize,
    rust_differs: usize,
    library: usize,
    library_differs: usize,
    panics: usize,
}

fn print(figures: &BTreeMap<&str, Figures>) {
    println!("call         requests  Rust differs  panics  through the library  library differs");
    for (call, f) in figures {
        println!("{call:12} {:8}  {:12}  {:6}  {:19}  {:15}", f.requests, f.rust_differs, f.panics, f.library, f.library_differs);
    }
}

/// Holds both sides to a case.
fn hold(case: &Case, place: &str, figures: &mut BTreeMap<&str, Figures>) {
    let f = figures.entry(case.request.call.name()).or_default();
    let tell = |who: &str, got: &Answer, differs: &mut usize| {
        if (got.number, &got.bytes) != (case.number, &case.bytes) {
            *differs += 1;
            println!("{place}: {} gives {}, the case {}", who, got.number, case.number);
        }
    };
    let rust = case.request.answer();
    f.requests += 1;
    f.panics += rust.panicked as usize;
    tell("the Rust", &rust, &mut f.rust_differs);
    match library::answer(case.request.call, &case.request.file, case.request.room) {
        None => {}
        Some(Ok(got)) => {
            f.library += 1;
            tell("the library", &got, &mut f.library_differs);
        }
        Some(Err(why)) => {
            f.library_differs += 1;
            println!("{place}: {why}");
        }
    }
}

/// Holds the second stepper and the library to a dry run's case.
fn hold_dry(case: &dry_run::vectors::Case, place: &str, figures: &mut BTreeMap<&str, Figures>) {
    let f = figures.entry("dry").or_default();
    let (second, library) = (case.second_stepper(), case.library());
    f.requests += 1;
    f.library += library.is_some() as usize;
    let sides = [("the second stepper", second, &mut f.rust_differs), ("the library", library.flatten(), &mut f.library_differs)];
    for (who, why, differs) in sides.into_iter().filter_map(|(who, why, differs)| Some((who, why?, differs))) {
        *differs += 1;
        println!("{place}: {who} {why}");
    }
}

fn agree(figures: &BTreeMap<&str, Figures>, path: &Path) -> bool {
    if figures.is_empty() {
        stop(&format!("{}: no requests there", path.display()));
    }
    print(figures);
    figures.values().all(|f| f.rust_differs + f.library_differs == 0)
}

/// Holds both sides to a file of vectors; answers how many of them say 22, in a file of before P2.
fn hold_file(path: &Path, is_before_p2: bool, figures: &mut BTreeMap<&str, Figures>) -> usize {
    let text = std::fs::read_to_string(path).expect("a text");
    let lines: Vec<&str> = text.lines().collect();
    let mut former_22s = 0;
    for (i, case) in lines.chunks(2).enumerate() {
        let place = format!("{}:{}", path.display(), 2 * i + 1);
        if let Some(dry) = dry_run::vectors::Case::of(case[0], case[1]) {
            hold_dry(&dry, &place, figures);
            continue;
        }
        let request = request(case[0]);
        let (mut number, mut bytes) = expected(request.call, case[1]);
        if number == 22 && is_before_p2 {
            former_22s += 1;
            (number, bytes) = in_22s_place(&request);
        }
        hold(&Case { request, number, bytes }, &place, figures);
    }
    former_22s
}

/// The files of vectors of a folder, or a file of them itself, by name.
fn files(path: &Path) -> Vec<(&'static str, PathBuf)> {
    let file = |name: &str| if path.is_dir() { path.join(name).with_extension("txt") } else { path.into() };
    let all = BEFORE_P2.into_iter().chain(SINCE_P2).map(|name| (name, file(name)));
    all.filter(|(name, file)| file.exists() && file.file_stem().is_some_and(|stem| stem == *name)).collect()
}

/// Whether both sides agree with all vectors of a folder, or of a file.
pub fn run(path: &Path) -> bool {
    let mut figures: BTreeMap<&str, Figures> = BTreeMap::new();
    let mut former_22s = vec![];
    for (name, file) in files(path) {
        let is_before_p2 = BEFORE_P2.contains(&name);
        let found = hold_file(&file, is_before_p2, &mut figures);
        former_22s.extend(is_before_p2.then(|| format!("{name} {found}")));
    }
    let agree = agree(&figures, path);
    if !former_22s.is_empty() {
        println!("22 before P2: {}", former_22s.join(", "));
    }
    agree
}

/// Whether both sides agree with all cases of replay.
pub fn run_cases(path: &Path) -> bool {
    let mut figures: BTreeMap<&str, Figures> = BTreeMap::new();
    for (i, case) in cases::read(path).iter().enumerate() {
        hold(case, &format!("case {i}"), &mut figures);
    }
    agree(&figures, path)
}
