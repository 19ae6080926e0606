//! The Rust's own steps beside the proved library.
//!
//!     differential vectors PATH                                       a folder's or a file's requests with answers, replayed
//!     differential compare [--plans N] [--seconds M] [--seed S] [--threads T]
//!                                                                     random plans through both sides
//!     differential show CALL TEXT                                     both sides' answers on the plan of a text (see loader)
//!     differential damage [--files N] [--seed S] [--heap]             damaged files through every export
//!     differential threads [--plans N] [--seed S] [--threads T]       the same requests from several threads at once
//!     differential dry [--plans N] [--seed S] [--heap]                random dry runs through the library and a second stepper
//!     differential dry-times                                          dry runs through the library, timed
//!     differential mutants [--plans N] [--seed S] [--from M] [--cases FILE] [--kept]
//!                                                                     which small mutations of the Rust's text and which wrong
//!                                                                     definitions such plans notice, and which replay's cases
//!     differential sample FILE [--small N] [--plans N] [--seed S] [--most N] [--kept]
//!                                                                     adds to replay's cases those that notice the mutants
//!     differential cases FILE                                         replay's cases through both sides
//!     differential stack [--plans N] [--seed S]                       the most bytes of stack that the calls take
//!     differential times [--svg FILE] [--without-aggregates]          both sides timed on the same plans
//!     differential requests [--plans N] [--seed S] [--without-aggregates]
//!                                                                     random plans through the library alone
//!
//! With `--kept` the mutants' programs are those that an earlier run of the same sources built.
//! Plans without aggregates are, for a seed, those from before there were any.
//! Built with the feature `branches`, it also tells which branches of the Rust's text a run reached.
mod answers;
#[cfg(feature = "branches")]
mod branches;
mod cases;
mod compare;
mod damage;
mod domain;
mod dry_run;
mod library;
mod mutants;
mod pinned;
mod plot;
mod random_plans;
mod requests;
#[cfg(not(mutant))]
mod rust_side;
mod sample;
mod shrink;
mod small_plans;
mod stack;
mod threads;
mod times;
mod usage;
mod vectors;

// the Rust's five files, where they stand, over the stand-ins
extern crate stand_ins as arrow;
extern crate stand_ins as datafusion_common;
extern crate stand_ins as datafusion_execution;
extern crate stand_ins as datafusion_expr;
extern crate stand_ins as datafusion_physical_expr;
extern crate stand_ins as datafusion_physical_expr_common;
extern crate stand_ins as datafusion_physical_plan;
extern crate stand_ins as itertools;
use stand_ins::PhysicalOptimizerRule;
use std::path::Path;
use usage::Options;
include!(concat!(env!("OUT_DIR"), "/optimizer.rs"));
#[cfg(mutant)]
include!(concat!(env!("OUT_DIR"), "/rust_side.rs"));

/// Panics of the Rust are caught and compared, and not told.
fn silence_the_rust() {
    let tell = std::panic::take_hook();
    std::panic::set_hook(Box::new(move |panic| {
        if !panic.location().is_some_and(|l| l.file().contains("enforce_sorting")) {
            tell(panic);
        }
    }));
}

/// The commands that have to do with mutants; whether all is well.
fn on_mutants(command: &str, options: &Options) -> Option<bool> {
    let (plans, seed, kept) = (options.number("--plans", 20_000), options.number("--seed", 1), options.is_given("--kept"));
    match command {
        "mutants" => Some(mutants::run(plans, seed, options.number("--from", 0), options.path("--cases").as_deref(), kept)),
        "sample" => {
            let (small, most) = (options.number("--small", 12_000), options.number("--most", 3_000) as usize);
            sample::run(Path::new(options.words.get(1)?), &sample::Choice { small, seed, plans, most, kept });
            Some(true)
        }
        "answers" => {
            let cases = options.path("--cases").map(answers::Requests::Cases);
            answers::print(&cases.unwrap_or(answers::Requests::Plans(plans, seed)));
            Some(true)
        }
        _ => None,
    }
}

/// Runs a command; whether both sides agreed. None if there is no such command.
fn run(options: &Options) -> Option<bool> {
    let number = |name: &str, default: u64| options.number(name, default);
    let (words, aggregates) = (&options.words, !options.is_given("--without-aggregates"));
    match words.first()?.as_str() {
        "vectors" if words.len() == 2 => Some(vectors::run(Path::new(&words[1]))),
        "cases" if words.len() == 2 => Some(vectors::run_cases(Path::new(&words[1]))),
        "compare" => {
            let (plans, seconds) = (number("--plans", 100_000), number("--seconds", u64::MAX));
            Some(compare::run(plans, seconds, number("--seed", 1), number("--threads", 1)))
        }
        "show" if words.len() > 2 => Some(compare::show(&words[1..words.len() - 1], &words[words.len() - 1])),
        "damage" => Some(damage::run(number("--files", 100_000), number("--seed", 1), options.is_given("--heap"))),
        "dry" => Some(dry_run::run(number("--plans", 100_000), number("--seed", 1), options.is_given("--heap"))),
        "dry-times" => Some(dry_run::run_times()),
        "threads" => Some(threads::run(number("--plans", 2_000), number("--seed", 1), number("--threads", 8))),
        "stack" => Some(stack::run(number("--plans", 20_000), number("--seed", 1))),
        "times" => {
            times::run(options.path("--svg").as_deref(), aggregates);
            Some(true)
        }
        "requests" => {
            requests::run(number("--plans", 2_000), number("--seed", 1), aggregates);
            Some(true)
        }
        command => on_mutants(command, options),
    }
}

fn main() {
    silence_the_rust();
    let words: Vec<String> = std::env::args().skip(1).collect();
    if let [word] = &words[..]
        && ["--help", "-h", "help"].contains(&word.as_str())
    {
        print!("{}", usage::all());
        return;
    }
    let options = usage::take(&words).unwrap_or_else(|wrong| usage::stop(&wrong));
    let agreed = run(&options).expect("a command");
    #[cfg(feature = "branches")]
    let agreed = branches::print() && agreed;
    std::process::exit(if agreed { 0 } else { 1 });
}

#[cfg(test)]
mod tests {
    /// Some thousand requests of each command; the long runs are the commands themselves.
    #[test]
    fn both_sides_agree() {
        super::silence_the_rust();
        assert!(super::compare::run(3_000, u64::MAX, 11, 1));
        assert!(super::damage::run(3_000, 12, true));
        assert!(super::dry_run::run(3_000, 15, true));
        assert!(super::threads::run(100, 13, 4));
        assert!(super::stack::run(300, 14));
    }

    #[test]
    fn aggregates_are_made_and_left_out() {
        use super::random_plans::{Rng, plan_with};
        use sort_placement::plan::kind::AGGREGATE;
        let grouped = |i, aggregates| plan_with(&mut Rng::new(1, i), aggregates).any(&mut |n| n.record.kind == AGGREGATE);
        assert!((0..500).filter(|i| grouped(*i, true)).count() > 100);
        assert!(!(0..500).any(|i| grouped(i, false)));
    }

    #[test]
    fn replays_cases_agree() {
        super::silence_the_rust();
        let repository = std::path::Path::new(env!("CARGO_MANIFEST_DIR")).parent().expect("the repository");
        assert!(super::vectors::run_cases(&repository.join("crates/replay/data/cases")));
    }

    #[test]
    fn vectors_agree() {
        super::silence_the_rust();
        let package = std::path::Path::new(env!("CARGO_MANIFEST_DIR"));
        match package.ancestors().map(|a| a.join("shared/vectors")).find(|f| f.exists()) {
            Some(folder) => assert!(super::vectors::run(&folder)),
            None => println!("no vectors beside the repository"),
        }
    }
}
