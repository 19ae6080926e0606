//! Random dry runs through the export and through the second stepper: the same numbers, the same bytes, nothing else written.
use super::figures::Figures;
use super::random;
use super::stepper::row::is_in_order;
use super::stepper::{self, Delivered};
use super::told::{shown, told};
use super::{Answer, Request, library, smaller};
use crate::random_plans::Rng;
use sort_placement::exports::{self, Call};
use sort_placement::{facts, plan};
use std::time::Instant;

/// What differs between the export and the second stepper, if anything.
fn difference(request: &Request, wanted: &Answer, heap: bool) -> Option<String> {
    let ask = if heap { library::answer_on_heap } else { library::answer };
    match ask(request, wanted.bytes.len()).expect("a call that is present") {
        Ok(got) if got == *wanted => None,
        Ok(got) => Some(format!("the library: {}\nthe second stepper: {}", shown(&got), shown(wanted))),
        Err(why) => Some(format!("the library {why}\nthe second stepper: {}", shown(wanted))),
    }
}

fn report(request: Request, heap: bool, place: &str) {
    let differs = |request: &Request| difference(request, &stepper::answer(request), heap);
    let small = smaller::shrunk(request, &|r| differs(r).is_some());
    println!("{place}:\n{}\n{}", told(&small), differs(&small).expect("it differed"));
}

/// A plan that passes the check shows no row out of order: whether that is so of what its root delivers.
fn is_as_known(request: &Request, delivered: &Delivered, figures: &mut Figures) -> bool {
    let Ok(streams) = delivered else { return true };
    let mut passes = [0];
    if Call::Check.run(&request.plan, &mut passes) != Some(0) || passes != [1] {
        return true;
    }
    let plan = plan::read(&request.plan).expect("a plan that was stepped");
    let order = &facts::of_tree(&plan)[0].order;
    figures.passing += 1;
    figures.ordered += !order.is_empty() as u64;
    streams.iter().all(|stream| is_in_order(stream, order))
}

/// Whether one random dry run is as it should be.
fn one(seed: u64, i: u64, heap: bool, figures: &mut Figures) -> bool {
    if i.is_multiple_of(100_000) {
        eprintln!("{i} dry runs");
    }
    let mut rng = Rng::new(seed, i);
    let mut made = random::request(&mut rng);
    let delivered = stepper::delivered(&made.request);
    made.request.room = random::room(&mut rng, &delivered);
    let wanted = stepper::answer_of(&delivered, made.request.room);
    figures.count(&made, &wanted);
    let place = format!("dry run {i} of seed {seed}");
    if difference(&made.request, &wanted, heap).is_some() {
        report(made.request, heap, &place);
        return false;
    }
    let is_as_known = wanted.number != 0 || is_as_known(&made.request, &delivered, figures);
    if !is_as_known {
        println!("{place}: the plan passes the order check, and a row is out of the root's order\n{}", told(&made.request));
    }
    is_as_known
}

/// Whether so many random dry runs are as they should be. With `heap` the slices are allocations of just their length.
pub fn run(plans: u64, seed: u64, heap: bool) -> bool {
    if exports::dry_run(&[], &[], &[], &mut []).is_none() {
        println!("the library does not export dry_run: nothing was compared");
        return false;
    }
    let start = Instant::now();
    let mut figures = Figures::default();
    let agreed = (0..plans).all(|i| one(seed, i, heap, &mut figures));
    figures.print(start.elapsed().as_secs_f64());
    println!("{}", if agreed { "no difference" } else { "they differ" });
    agreed
}
