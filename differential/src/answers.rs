//! The Rust's answers to many requests, a line for each: a mutant prints them, and they are held against those of the text as it is.
use crate::cases::{self, Request};
use crate::compare;
use crate::random_plans::{self, Rng};
use sort_placement::plan;
use std::hash::{DefaultHasher, Hash, Hasher};
use std::io::Write;
use std::panic::{AssertUnwindSafe, catch_unwind};
use std::path::PathBuf;
use std::sync::atomic::{AtomicUsize, Ordering::Relaxed};
use std::time::Duration;

/// Where requests come from. None of them depends on an answer, so that every mutant gets the same.
pub enum Requests {
    /// so many random plans of a seed, all calls on each, as a comparison has them
    Plans(u64, u64),
    /// a file of cases
    Cases(PathBuf),
}

impl Requests {
    /// The words that ask a mutant for them.
    pub fn words(&self) -> Vec<String> {
        match self {
            Requests::Plans(n, seed) => vec!["--plans".into(), n.to_string(), "--seed".into(), seed.to_string()],
            Requests::Cases(path) => vec!["--cases".into(), path.display().to_string()],
        }
    }

    pub fn all(&self) -> Box<dyn Iterator<Item = Request> + '_> {
        match self {
            Requests::Plans(n, seed) => Box::new((0..*n).flat_map(|i| on_a_plan(*seed, i))),
            Requests::Cases(path) => Box::new(cases::read(path).into_iter().map(|c| c.request)),
        }
    }
}

fn on_a_plan(seed: u64, i: u64) -> Vec<Request> {
    let mut rng = Rng::new(seed, i);
    let tree = random_plans::plan(&mut rng);
    let file = plan::write(&tree);
    let calls = compare::requests(&mut rng, &tree, &file);
    calls.into_iter().map(|(call, room)| Request { call, room, file: file.clone() }).collect()
}

/// The hash of the Rust's answer. A mutant may panic where the Rust does not.
pub fn hash(request: &Request) -> String {
    let Ok(answer) = catch_unwind(AssertUnwindSafe(|| request.answer())) else { return "panic".into() };
    let mut hasher = DefaultHasher::new();
    (answer.number, answer.bytes).hash(&mut hasher);
    format!("{:016x}", hasher.finish())
}

/// Ends the program where an answer takes longer than that: a mutant may go on for ever.
fn watch(answers: &'static AtomicUsize, longest: Duration) {
    std::thread::spawn(move || {
        let mut before = usize::MAX;
        while answers.load(Relaxed) != before {
            before = answers.load(Relaxed);
            std::thread::sleep(longest);
        }
        std::process::exit(3);
    });
}

pub fn print(requests: &Requests) {
    static ANSWERS: AtomicUsize = AtomicUsize::new(0);
    watch(&ANSWERS, Duration::from_secs(10));
    let mut out = std::io::stdout().lock();
    for request in requests.all() {
        if writeln!(out, "{}", hash(&request)).is_err() {
            return;
        }
        ANSWERS.fetch_add(1, Relaxed);
    }
}
