//! Random plans through the Rust and through the library: the same numbers and the same bytes.
use crate::random_plans::{self, Rng};
use crate::rust_side::{self, Answer};
use crate::usage::stop;
use crate::{domain, library, shrink};
use sort_placement::exports::{ALL, Call};
use sort_placement::plan::{self, BLOCK, MOST_BLOCKS, Node, kind::*};
use sort_placement::{Plan, listing, text};
use std::collections::{BTreeMap, BTreeSet};
use std::sync::Mutex;
use std::sync::atomic::{AtomicU64, Ordering::Relaxed};
use std::time::Instant;

/// Of one call: requests, of them held against the library, refusals by number, panics.
type Answered = (u64, u64, BTreeMap<u32, u64>, u64);

#[derive(Default)]
pub struct Figures {
    plans: u64,
    nodes: u64,
    /// plans that have an aggregate
    grouped: u64,
    calls: BTreeMap<&'static str, Answered>,
    changed: BTreeMap<&'static str, u64>,
    outside: BTreeMap<&'static str, u64>,
    inside: u64,
    /// of the Rust's ensured plans
    ensured: u64,
    pass: u64,
}

impl Figures {
    fn count(&mut self, tree: &Node) {
        self.plans += 1;
        self.nodes += tree.count() as u64;
        self.grouped += tree.any(&mut |n| n.record.kind == AGGREGATE) as u64;
    }

    fn add(&mut self, other: Figures) {
        self.plans += other.plans;
        self.nodes += other.nodes;
        self.grouped += other.grouped;
        self.inside += other.inside;
        self.ensured += other.ensured;
        self.pass += other.pass;
        for (call, (requests, held, refusals, panics)) in other.calls {
            let mine = self.calls.entry(call).or_default();
            mine.0 += requests;
            mine.1 += held;
            mine.3 += panics;
            refusals.into_iter().for_each(|(number, n)| *mine.2.entry(number).or_default() += n);
        }
        other.changed.into_iter().for_each(|(call, n)| *self.changed.entry(call).or_default() += n);
        other.outside.into_iter().for_each(|(rule, n)| *self.outside.entry(rule).or_default() += n);
    }

    fn print(&self, seconds: f64) {
        println!("{} plans, {:.1} nodes each, {:.0} seconds", self.plans, self.nodes as f64 / self.plans as f64, seconds);
        println!("plans with an aggregate: {}", self.grouped);
        println!("call          requests  through the library   changed  panics  refusals");
        for (call, (requests, held, refusals, panics)) in &self.calls {
            let refused: Vec<String> = refusals.iter().map(|(number, n)| format!("{number}: {n}")).collect();
            let changed = self.changed.get(call).unwrap_or(&0);
            println!("{call:12} {requests:9}  {held:19}  {changed:8}  {panics:6}  {}", refused.join(", "));
        }
        println!("plans that the Rust ensured: {}, of them pass the order check: {}", self.ensured, self.pass);
        println!("plans inside the compared domain: {}; outside, by rule (a plan counts under each):", self.inside);
        for (rule, n) in &self.outside {
            println!("  {n:9}  {rule}");
        }
    }
}

/// A random call of each kind, with its output's length.
pub fn requests(rng: &mut Rng, tree: &Node, file: &[u8]) -> Vec<(Call, usize)> {
    let count = tree.count();
    let sorts: Vec<usize> = (0..count).filter(|i| tree.at(*i).is_some_and(|n| n.record.kind == SORT)).collect();
    let node = match rng.below(40) {
        0 => count + rng.below(3),
        1..=4 => rng.below(count),
        _ if sorts.is_empty() => rng.below(count),
        _ => rng.pick(&sorts),
    };
    let settings = std::array::from_fn(|_| rng.pick(&[0, 0, 1, 255]));
    let room = |rng: &mut Rng| match rng.below(40) {
        0 => file.len(),
        1 => file.len() - 1,
        2 => rng.below(MOST_BLOCKS * BLOCK),
        _ => MOST_BLOCKS * BLOCK,
    };
    let call = |c: &Call| match c {
        Call::Preserve(_) => Call::Preserve(settings),
        Call::Partial(_) => Call::Partial(node as u32),
        other => *other,
    };
    ALL.iter().map(|c| (call(c), if *c == Call::Check { 1 } else { room(rng) })).collect()
}

/// What differs between the two sides, if anything; a partial sort may be made at another node than was asked.
fn difference(call: Call, room: usize, tree: &Node) -> Option<(Call, String)> {
    let file = plan::write(tree);
    let others = if matches!(call, Call::Partial(_)) { tree.count() as u32 } else { 0 };
    std::iter::once(call).chain((0..others).map(Call::Partial)).find_map(|call| {
        let rust = rust_side::answer(call, &file, room);
        let got = library::answer(call, &file, room)?;
        disagreement(&rust, &got).map(|why| (call, why))
    })
}

fn disagreement(rust: &Answer, library: &Result<Answer, String>) -> Option<String> {
    match library {
        Err(why) => Some(why.clone()),
        Ok(got) if (got.number, &got.bytes) == (rust.number, &rust.bytes) => None,
        Ok(got) => Some(format!("the Rust:\n{}the library:\n{}", shown(rust), shown(got))),
    }
}

fn shown(answer: &Answer) -> String {
    match Plan::read(&answer.bytes) {
        _ if answer.number != 0 => format!("{}\n", answer.number),
        Ok(plan) => format!("{}{}", listing(&plan), text::show(&plan)),
        Err(_) => format!("{} {:?}\n", answer.number, answer.bytes),
    }
}

fn report(call: Call, room: usize, tree: Node, place: &str) {
    let small = shrink::shrink(tree, &|t| difference(call, room, t).is_some());
    let (call, why) = difference(call, room, &small).expect("it differed");
    let small = Plan::read(&plan::write(&small)).expect("it was a plan");
    println!("{place}: {call:?}, {room} bytes of output, on\n{}{}{why}", listing(&small), text::show(&small));
}

/// The call that words name, as `preserve spr prefer` or `partial 3`.
fn call_of(words: &[String]) -> Option<Call> {
    let (name, rest) = words.split_first()?;
    match (name.as_str(), rest) {
        ("preserve", settings) => {
            let times = ["spr", "spm", "prefer"].map(|s| settings.iter().filter(|w| *w == s).count());
            let each_once = times.iter().all(|n| *n <= 1) && times.iter().sum::<usize>() == settings.len();
            each_once.then(|| Call::Preserve(times.map(|n| n as u8)))
        }
        ("partial", [node]) => node.parse().ok().map(Call::Partial),
        ("partial", _) => None,
        (name, []) => ALL.into_iter().find(|c| c.name() == name),
        _ => None,
    }
}

/// Prints both sides' answers to one call on the plan of a text; whether they agree.
pub fn show(words: &[String], path: &str) -> bool {
    let call = call_of(words).unwrap_or_else(|| stop(&format!("no call '{}'", words.join(" "))));
    let text = std::fs::read_to_string(path).unwrap_or_else(|e| stop(&format!("{path}: {e}")));
    let plan = text::parse(&text).unwrap_or_else(|e| stop(&format!("{path}: {e}")));
    let (file, room) = (plan.write(), if call == Call::Check { 1 } else { MOST_BLOCKS * BLOCK });
    let rust = rust_side::answer(call, &file, room);
    println!("the Rust{}:\n{}", if rust.panicked { " panics; document 01" } else { "" }, shown(&rust));
    let Some(got) = library::answer(call, &file, room) else {
        println!("the library does not export {}", call.name());
        return true;
    };
    let differs = disagreement(&rust, &got);
    println!("{}", differs.as_deref().unwrap_or("the library: the same"));
    differs.is_none()
}

/// Plans that come out of other walks are plans too.
fn walked(rng: &mut Rng, tree: Node) -> Node {
    let walks = [Call::Ensure, Call::Parallelize, Call::Preserve([1, 1, 0]), Call::Push];
    let call = rng.pick(&walks);
    let answer = rust_side::answer(call, &plan::write(&tree), MOST_BLOCKS * BLOCK);
    if answer.number == 0 { plan::read(&answer.bytes).expect("the Rust's plan is one") } else { tree }
}

/// All calls on one plan. A call that has differed is left out from then on, and the others go on.
fn one(seed: u64, i: u64, f: &mut Figures, differed: &Mutex<BTreeSet<&'static str>>) {
    let mut rng = Rng::new(seed, i);
    let mut tree = random_plans::plan(&mut rng);
    if rng.one_in(4) {
        tree = walked(&mut rng, tree);
    }
    let file = plan::write(&tree);
    f.count(&tree);
    let mut rules = domain::rules(&tree);
    for (call, room) in requests(&mut rng, &tree, &file) {
        let rust = rust_side::answer(call, &file, room);
        let entry = f.calls.entry(call.name()).or_default();
        entry.0 += 1;
        entry.3 += rust.panicked as u64;
        if rust.number != 0 {
            *entry.2.entry(rust.number).or_default() += 1;
        } else if call != Call::Check {
            let after = plan::read(&rust.bytes).expect("the Rust's plan is one");
            rules.extend(domain::rules(&after));
            *f.changed.entry(call.name()).or_default() += (rust.bytes != file) as u64;
            if call == Call::Ensure {
                f.ensured += 1;
                f.pass += (rust_side::answer(Call::Check, &rust.bytes, 1).bytes == [1]) as u64;
            }
        }
        if differed.lock().expect("the calls").contains(call.name()) {
            continue;
        }
        if let Some(got) = library::answer(call, &file, room) {
            entry.1 += 1;
            if disagreement(&rust, &got).is_some() && differed.lock().expect("the calls").insert(call.name()) {
                report(call, room, tree.clone(), &format!("plan {i} of seed {seed}"));
            }
        }
    }
    f.inside += rules.is_empty() as u64;
    rules.into_iter().for_each(|rule| *f.outside.entry(rule).or_default() += 1);
}

/// Whether no difference was found in so many plans, or in those that so many seconds are enough for.
pub fn run(plans: u64, seconds: u64, seed: u64, threads: u64) -> bool {
    const PART: u64 = 500;
    let start = Instant::now();
    let next = AtomicU64::new(0);
    let differed = Mutex::new(BTreeSet::new());
    let total = Mutex::new(Figures::default());
    let work = || {
        let mut figures = Figures::default();
        loop {
            let from = next.fetch_add(PART, Relaxed);
            if from >= plans || start.elapsed().as_secs() >= seconds {
                break;
            }
            if from.is_multiple_of(100 * PART) {
                eprintln!("{from} plans, {:.0} seconds", start.elapsed().as_secs_f64());
            }
            (from..(from + PART).min(plans)).for_each(|i| one(seed, i, &mut figures, &differed));
        }
        total.lock().expect("the figures").add(figures);
    };
    std::thread::scope(|scope| (0..threads).for_each(|_| drop(scope.spawn(work))));
    total.into_inner().expect("the figures").print(start.elapsed().as_secs_f64());
    let differed = differed.into_inner().expect("the calls");
    println!("{}", if differed.is_empty() { "no difference".into() } else { format!("they differ in {differed:?}") });
    differed.is_empty()
}
