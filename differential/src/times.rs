//! Both sides timed on the same plans: microseconds a call, and how many times as long the Rust takes. Usual: the mean of ten random
//! plans; worst: of two hundred the one that takes longest.
use crate::plot::{self, Line};
use crate::random_plans::{self, Rng};
use crate::rust_side::{answer, plan_of, rewrite};
use sort_placement::exports::Call;
use sort_placement::plan::{self, BLOCK, MOST_BLOCKS, Node, kind::*};
use std::sync::Arc;
use std::time::Instant;

const SIZES: [usize; 5] = [1, 7, 10, 50, 126];
const ROOM: usize = MOST_BLOCKS * BLOCK;
const CALLS: [Call; 7] =
    [Call::Check, Call::Copy, Call::Ensure, Call::Parallelize, Call::Preserve([1, 1, 0]), Call::Push, Call::Partial(0)];

/// Microseconds of one run, the least of several rounds.
pub fn time(mut run: impl FnMut()) -> f64 {
    let mut best = f64::MAX;
    let start = Instant::now();
    run();
    let each = (2e-4 / start.elapsed().as_secs_f64().max(1e-7)).clamp(1.0, 2000.0) as u32;
    for _ in 0..7 {
        let start = Instant::now();
        (0..each).for_each(|_| run());
        best = best.min(start.elapsed().as_secs_f64() * 1e6 / each as f64);
    }
    best
}

/// Microseconds of the library, of the Rust's steps on a plan in memory, and of the Rust from file to file.
#[derive(Clone, Copy, Default)]
struct Times {
    library: Option<f64>,
    steps: Option<f64>,
    whole: f64,
}

fn time_call(call: Call, tree: &Node) -> Times {
    let file = plan::write(tree);
    let room = if call == Call::Check { 1 } else { ROOM };
    let mut out = vec![0; room];
    let library = call.is_present().then(|| time(|| assert!(call.run(&file, &mut out).is_some())));
    let in_memory = plan_of(tree);
    let steps = matches!(call, Call::Ensure | Call::Parallelize | Call::Preserve(_) | Call::Push);
    let steps = steps.then(|| time(|| drop(rewrite(call, Arc::clone(&in_memory)))));
    Times { library, steps, whole: time(|| drop(answer(call, &file, room))) }
}

fn runs(tree: &Node) -> bool {
    let file = plan::write(tree);
    CALLS[2..6].iter().all(|c| answer(*c, &file, ROOM).number == 0)
}

/// Random plans of a size that no walk refuses.
fn plans(nodes: usize, count: usize, aggregates: bool) -> Vec<Node> {
    let mut rng = Rng::new(7, nodes as u64);
    let mut trees = vec![];
    while trees.len() < count {
        let tree = random_plans::plan_of_size(&mut rng, nodes, aggregates);
        if tree.count() == nodes && runs(&tree) {
            trees.push(tree);
        }
    }
    trees
}

/// The call on a plan; a partial sort is made of its first sort.
fn on(call: Call, tree: &Node) -> Call {
    let is_sort = |i: &usize| tree.at(*i).is_some_and(|n| n.record.kind == SORT);
    match call {
        Call::Partial(_) => Call::Partial((0..tree.count()).find(is_sort).unwrap_or(0) as u32),
        other => other,
    }
}

/// Of many plans the one that takes the library longest, or the Rust where the library has no such call.
fn worst(call: Call, trees: &[Node]) -> &Node {
    let quick = |tree: &Node| {
        let (call, file) = (on(call, tree), plan::write(tree));
        let mut out = vec![0; ROOM];
        let run = |out: &mut [u8]| {
            let start = Instant::now();
            if call.run(&file, out).is_none() {
                answer(call, &file, ROOM);
            }
            start.elapsed()
        };
        (0..3).map(|_| run(&mut out)).min()
    };
    trees.iter().max_by_key(|t| quick(t)).expect("a plan")
}

/// The means of several plans.
fn mean(times: &[Times]) -> Times {
    let of = |f: &dyn Fn(&Times) -> Option<f64>| times.iter().map(f).sum::<Option<f64>>().map(|sum| sum / times.len() as f64);
    Times { library: of(&|t| t.library), steps: of(&|t| t.steps), whole: of(&|t| Some(t.whole)).expect("a time") }
}

/// Times by call, kind of plans and size.
type Rows = Vec<(Call, &'static str, Vec<Times>)>;

fn measure(aggregates: bool) -> Rows {
    let trees: Vec<Vec<Node>> = SIZES.iter().map(|nodes| plans(*nodes, 200, aggregates)).collect();
    let mut rows = vec![];
    for call in CALLS {
        let usual = |t: &Vec<Node>| mean(&t[..10].iter().map(|t| time_call(on(call, t), t)).collect::<Vec<_>>());
        let slowest = |t: &Vec<Node>| {
            let tree = worst(call, t);
            time_call(on(call, tree), tree)
        };
        rows.push((call, "usual", trees.iter().map(usual).collect()));
        rows.push((call, "worst", trees.iter().map(slowest).collect()));
        eprintln!("{} timed", call.name());
    }
    rows
}

/// A table with a cell for each size: the library's microseconds, the Rust's, and how many times as long that is.
fn table(title: &str, rows: &Rows, rust: impl Fn(&Times) -> Option<f64>) {
    println!("\n{title}\n");
    println!("| call | plans | {} |", SIZES.map(|n| n.to_string()).join(" | "));
    println!("|---|---|{}", "---|".repeat(SIZES.len()));
    for (call, which, times) in rows.iter().filter(|r| rust(&r.2[0]).is_some()) {
        let cell = |t: &Times| match (t.library, rust(t).expect("a time")) {
            (Some(l), r) => format!("{l:.2} / {r:.2} (×{:.1})", r / l),
            (None, r) => format!("- / {r:.2}"),
        };
        println!("| {} | {which} | {} |", call.name(), times.iter().map(cell).collect::<Vec<_>>().join(" | "));
    }
}

/// The usual plans' times as lines.
fn lines(rows: &Rows) -> Vec<Line> {
    let mut out = vec![];
    for (call, _, times) in rows.iter().filter(|r| r.1 == "usual") {
        let points = |f: &dyn Fn(&Times) -> Option<f64>| {
            SIZES.iter().zip(times).filter_map(|(n, t)| f(t).map(|t| (*n as f64, t))).collect()
        };
        out.push(Line { name: call.name(), whole: true, points: points(&|t| t.library) });
        out.push(Line { name: call.name(), whole: false, points: points(&|t| Some(t.whole)) });
    }
    out
}

/// Prints the tables, and draws the plot.
pub fn run(svg: Option<&std::path::Path>, aggregates: bool) {
    let rows = measure(aggregates);
    println!("Microseconds a call by the number of nodes: library / Rust (how many times as long)");
    table("The Rust from file to file:", &rows, |t| Some(t.whole));
    table("The Rust's steps alone, on a plan in memory:", &rows, |t| t.steps);
    if let Some(path) = svg {
        std::fs::write(path, plot::svg(&lines(&rows))).expect("the plot");
    }
}
