//! Which branches of the Rust's text a run reached (with the feature `branches`, see build/counters.rs), and why the others can't be.
use std::ops::RangeInclusive;
use std::sync::atomic::{AtomicU64, Ordering::Relaxed};

include!(concat!(env!("OUT_DIR"), "/places.rs"));

static COUNTS: [AtomicU64; PLACES.len()] = [const { AtomicU64::new(0) }; PLACES.len()];

pub fn at(place: usize) {
    COUNTS[place].fetch_add(1, Relaxed);
}

const RULE: &str = "the rule that adds and removes output requirements, display, execution, statistics: no walk calls them";
const WINDOW: &str = "windows: no file has one";
const COLUMNS: &str = "keys and projections are columns";
const DECLINES: &str = "asked where the aggregate does not meet the order; over a child that met the list, it would";
const MAINTAINS: &str = "nodes without children, and those that maintain nothing, are told apart before";

/// Lines that no plan file reaches, and why.
const UNREACHABLE: [(&str, RangeInclusive<usize>, &str); 30] = [
    ("output_requirements.rs", 1..=499, RULE),
    ("utils.rs", 51..=51, "an order that is not met has a key that is no constant"),
    ("utils.rs", 79..=79, "an order that is not met has a key that is no constant"),
    ("mod.rs", 461..=461, WINDOW),
    ("mod.rs", 546..=627, WINDOW),
    ("mod.rs", 815..=815, "asked of sorts and merges alone"),
    ("replace_with_order_preserving_variants.rs", 107..=107, "a coalesce with a fetch is never marked"),
    ("sort_pushdown.rs", 363..=399, WINDOW),
    ("sort_pushdown.rs", 401..=403, "sorts are taken out before"),
    ("sort_pushdown.rs", 440..=440, COLUMNS),
    ("sort_pushdown.rs", 604..=604, "grouping sets are left out"),
    ("sort_pushdown.rs", 615..=615, COLUMNS),
    ("sort_pushdown.rs", 629..=629, "an order that is asked has a key, and so has the list below"),
    ("sort_pushdown.rs", 639..=639, DECLINES),
    ("sort_pushdown.rs", 678..=693, WINDOW),
    ("sort_pushdown.rs", 711..=711, "a sort-merge join wants its keys on both sides"),
    ("sort_pushdown.rs", 725..=725, "a sort-merge join wants its keys on both sides"),
    ("sort_pushdown.rs", 736..=736, "called with a side"),
    ("sort_pushdown.rs", 764..=764, "called with a side"),
    ("sort_pushdown.rs", 828..=828, "the loop above has returned then"),
    ("sort_pushdown.rs", 866..=866, MAINTAINS),
    ("sort_pushdown.rs", 895..=895, MAINTAINS),
    ("sort_pushdown.rs", 928..=928, COLUMNS),
    ("sort_pushdown.rs", 944..=944, "limits and output requirements have one child, which they maintain"),
    ("sort_pushdown.rs", 951..=951, "limits and output requirements have their child's columns"),
    ("sort_pushdown.rs", 964..=964, MAINTAINS),
    ("sort_pushdown.rs", 981..=981, "no file has a hash join with a projection"),
    ("sort_pushdown.rs", 1010..=1010, COLUMNS),
    ("sort_pushdown.rs", 1051..=1051, "hash joins that don't keep right are told apart before"),
    ("sort_pushdown.rs", 1095..=1095, COLUMNS),
];

fn reason(file: &str, line: usize) -> Option<&'static str> {
    UNREACHABLE.iter().find(|(f, lines, _)| *f == file && lines.contains(&line)).map(|(_, _, why)| *why)
}

/// Whether each branch was reached or can't be.
pub fn print() -> bool {
    let (mut reached, mut explained, mut open) = (0, 0, 0);
    let mut least = u64::MAX;
    for ((file, line, text), count) in PLACES.iter().zip(&COUNTS) {
        let count = count.load(Relaxed);
        match reason(file, *line) {
            _ if count > 0 => {
                reached += 1;
                least = least.min(count);
            }
            Some(_) => explained += 1,
            None => {
                open += 1;
                println!("not reached: {file}:{line}: {text}");
            }
        }
    }
    println!("branches of the Rust's text: {}; reached {reached}, each at least {least} times;", PLACES.len());
    println!("not to be reached {explained} (src/branches.rs says why); left {open}");
    open == 0
}
