//! Whether the plans of a comparison, and replay's cases, would notice a mutation of the Rust's text or a wrong definition: each mutant
//! is built, and its answers are held against those of the texts as they are.
use crate::answers::{self, Requests};
use std::hash::{DefaultHasher, Hash, Hasher};
use std::io::{BufRead, BufReader};
use std::path::{Path, PathBuf};
use std::process::{Command, Stdio};

include!(concat!(env!("OUT_DIR"), "/mutants.rs"));

const MARK: &str = "a mark that a later step sets anew before it is read";
const COLUMN: &str = "all keys and projections are columns";
const KEEPS_LEFT: &str = "only an inner join has equal columns on both sides, and it keeps left";
const ONE_CHILD: &str = "those nodes have one child, and its columns";

const NO_ORDER_PASSES: &str = "a coalesce does not maintain, so that no order is pushed past it, with a fetch or without";

/// Mutants that change no answer: where, the word that is replaced or the name, and why.
const EQUAL: [(&str, &[usize], &str, &str); 13] = [
    ("mod.rs", &[409, 474, 480, 538, 736, 752, 772, 801, 802], "'false'", MARK),
    ("mod.rs", &[447], "'true'", MARK),
    ("replace_with_order_preserving_variants.rs", &[90, 110, 130, 189, 208, 280], "'false'", MARK),
    ("replace_with_order_preserving_variants.rs", &[143, 153], "'true'", MARK),
    ("sort_pushdown.rs", &[420, 905], "'all'", ONE_CHILD),
    ("sort_pushdown.rs", &[905], "'&&'", ONE_CHILD),
    ("sort_pushdown.rs", &[596], "'any'", "an aggregate has one child"),
    ("sort_pushdown.rs", &[500], "'||'", "what maintains nothing is turned away by the branches below too"),
    ("sort_pushdown.rs", &[797], "'>='", KEEPS_LEFT),
    ("sort_pushdown.rs", &[800], "'true'", KEEPS_LEFT),
    ("sort_pushdown.rs", &[835, 839, 1094], "'a", COLUMN),
    ("operators.rs", &[135], "a coalesce takes no limits", NO_ORDER_PASSES),
    ("operators.rs", &[141], "a coalesce changes the number of rows", NO_ORDER_PASSES),
];

/// Whether a mutation is judged to change no answer.
fn is_equal(mutant: usize) -> bool {
    let (file, line, what) = MUTANTS[mutant];
    EQUAL.iter().any(|(f, lines, word, _)| *f == file && lines.contains(&line) && what.starts_with(word))
}

pub fn name(mutant: usize) -> String {
    let (file, line, what) = MUTANTS[mutant];
    format!("{mutant}: {file}:{line}: {what}")
}

/// The name of a mutant's program, which stays if mutants are added to the list.
fn file_name(mutant: usize) -> String {
    // a line may have a word twice
    let twins = MUTANTS[..mutant].iter().filter(|m| **m == MUTANTS[mutant]).count();
    let mut hasher = DefaultHasher::new();
    (MUTANTS[mutant], twins).hash(&mut hasher);
    format!("{:016x}", hasher.finish())
}

/// The mutant's program, built and kept, or kept from an earlier run; none if it doesn't build.
pub fn program(mutant: usize, kept: bool) -> Option<PathBuf> {
    let package = Path::new(env!("CARGO_MANIFEST_DIR"));
    let place = package.join("target/mutants/programs").join(file_name(mutant));
    if !kept {
        std::fs::remove_file(&place).ok();
        let build = Command::new("cargo")
            .args(["build", "-q", "-j1", "--profile", "mutant", "--bin", "differential", "--target-dir", "target/mutants"])
            .current_dir(package)
            .env("MUTANT", mutant.to_string())
            .stderr(Stdio::null())
            .status();
        if build.expect("cargo").success() {
            std::fs::create_dir_all(place.parent().expect("a folder")).expect("a folder");
            std::fs::copy(package.join("target/mutants/mutant/differential"), &place).expect("a copy");
        }
    }
    place.exists().then_some(place)
}

/// The requests, by number, that a mutant answers otherwise, one after the other. One that it doesn't answer ends them.
pub fn noticed(program: &Path, requests: &Requests, wanted: &[String], most: usize) -> Vec<usize> {
    let mut child = Command::new(program)
        .arg("answers")
        .args(requests.words())
        .stdout(Stdio::piped())
        .stderr(Stdio::null())
        .spawn()
        .expect("the mutant");
    let mut lines = BufReader::new(child.stdout.take().expect("its answers")).lines();
    let mut out = vec![];
    for (i, want) in wanted.iter().enumerate() {
        let got = lines.next().and_then(Result::ok);
        if got.as_ref() != Some(want) {
            out.push(i);
        }
        if got.is_none() || out.len() == most {
            break;
        }
    }
    child.kill().expect("it is ours");
    child.wait().expect("it ends");
    out
}

/// The right answers to some requests.
pub fn wanted(requests: &Requests) -> Vec<String> {
    requests.all().map(|r| answers::hash(&r)).collect()
}

#[derive(Default)]
struct Figures {
    broken: usize,
    equal: usize,
    by_plans: usize,
    by_cases: usize,
    by_plans_alone: usize,
    left: usize,
}

impl Figures {
    /// Counts a mutant that was noticed by plans, by so many cases, or by neither, and tells it.
    fn count(&mut self, mutant: usize, by_plans: bool, by_cases: Option<usize>) {
        let cases = by_cases.map_or(String::new(), |n| format!(", by {n} of replay's cases"));
        println!("{}: {} by the plans{cases}", name(mutant), if by_plans { "noticed" } else { "not noticed" });
        let is_noticed = by_cases.is_some_and(|n| n > 0);
        self.by_plans += by_plans as usize;
        self.by_cases += is_noticed as usize;
        self.by_plans_alone += (by_plans && by_cases == Some(0)) as usize;
        if !by_plans && !is_noticed {
            if is_equal(mutant) { self.equal += 1 } else { self.left += 1 }
        }
    }

    fn print(&self, plans: u64, cases: bool) {
        println!("{} mutants, of them {} don't build and {} change no answer;", MUTANTS.len(), self.broken, self.equal);
        println!("{} are noticed on {plans} plans, {} by nothing", self.by_plans, self.left);
        if cases {
            println!("{} are noticed by replay's cases; {} by the plans alone", self.by_cases, self.by_plans_alone);
        }
    }
}

/// Whether every mutant that builds and changes an answer is noticed, and by replay's cases, if they are given, whatever the plans
/// notice.
pub fn run(plans: u64, seed: u64, from: u64, cases: Option<&Path>, kept: bool) -> bool {
    let plan_requests = Requests::Plans(plans, seed);
    let by_plans = wanted(&plan_requests);
    let case_requests = cases.map(|path| Requests::Cases(path.into()));
    let by_cases = case_requests.as_ref().map(wanted);
    let mut figures = Figures::default();
    for mutant in from as usize..MUTANTS.len() {
        let Some(program) = program(mutant, kept) else {
            println!("{}: doesn't build", name(mutant));
            figures.broken += 1;
            continue;
        };
        let on_plans = !noticed(&program, &plan_requests, &by_plans, 1).is_empty();
        let on_cases = case_requests.as_ref().zip(by_cases.as_ref()).map(|(r, w)| noticed(&program, r, w, usize::MAX).len());
        figures.count(mutant, on_plans, on_cases);
    }
    figures.print(plans, cases.is_some());
    figures.left == 0 && figures.by_plans_alone == 0
}
