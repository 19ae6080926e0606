//! The export timed: microseconds of a dry run, the least of several, with an empty list and with one of many bytes.
use super::stepper;
use super::stepper::row::Row;
use super::stepper::source_rows::{sources, written};
use super::{Request, library};
use crate::random_plans::Rng;
use crate::times::time;
use sort_placement::exports;
use sort_placement::plan::{self, NO_FETCH, Node, Record, kind::*};
use sort_placement::text;

const ROWS: [usize; 3] = [16, 64, 256];
const NODES: [usize; 4] = [2, 8, 32, 126];

/// A dry run of rows that are spread over the sources' streams, in turn; a list of that many bytes.
fn request(tree: &Node, count: usize, list: usize) -> Request {
    let mut rng = Rng::new(3, count as u64);
    let sources = sources(tree);
    let widths: Vec<usize> = sources.iter().flat_map(|s| (0..s.streams).map(|_| s.width as usize)).collect();
    let mut streams: Vec<Vec<Row>> = vec![vec![]; widths.len()];
    // as far from each other as there are streams for it
    let apart = (widths.len() / count).max(1);
    for i in 0..count {
        let stream = i * apart % widths.len();
        streams[stream].push((0..widths[stream]).map(|_| Some(rng.below(100) as i64)).collect());
    }
    let choices = (0..list).map(|_| rng.next() as u8).collect();
    Request { plan: plan::write(tree), rows: written(&streams), choices, room: 1 << 20 }
}

/// Microseconds of a dry run that is accepted, and answered as the second stepper does.
fn micros(request: &Request) -> f64 {
    let wanted = stepper::answer(request);
    assert_eq!(library::answer(request, wanted.bytes.len()), Some(Ok(wanted)));
    let mut out = vec![0; request.room];
    time(|| assert_eq!(exports::dry_run(&request.plan, &request.rows, &request.choices, &mut out), Some(0)))
}

/// So many records of one kind over a tree.
fn chain(record: &Record, count: usize, below: Node) -> Node {
    (0..count).fold(below, |tree, _| Node::new(record.clone(), vec![tree]))
}

fn source(streams: u8) -> Node {
    Node::new(Record { streams, width: 1, ..Record::new(SOURCE) }, vec![])
}

fn filters(nodes: usize) -> Node {
    chain(&Record::new(FILTER), nodes - 1, source(1))
}

/// 57 sources of 64 streams under eight unions: the most streams that leave room for a chain above them.
fn widest() -> Node {
    let union = |children: Vec<Node>| Node::new(Record::new(UNION), children);
    let mut children: Vec<Node> = (0..7).map(|_| union((0..8).map(|_| source(64)).collect())).collect();
    children.push(source(64));
    union(children)
}

fn limit() -> Record {
    Record { fetch: 5, ..Record::new(LOCAL_LIMIT) }
}

fn merge() -> Record {
    Record { keys: vec![(0, 0)], fetch: NO_FETCH, ..Record::new(MERGE) }
}

const TEN_NODES: &str = "\
output-requirement keys=0
  global-limit fetch=30
    merge keys=0
      sort keys=0 preserve
        filter
          repartition streams=2
            projection columns=0,2
              local-limit fetch=18
                filter
                  source streams=2 width=3
";

/// Plans by name, with their rows.
fn plans() -> Vec<(&'static str, Node, usize)> {
    let ten = plan::read(&text::parse(TEN_NODES).expect("a plan").write()).expect("a plan");
    vec![
        ("125 filters over one stream, 256 rows", filters(126), 256),
        ("ten nodes over two streams, 40 rows", ten, 40),
        ("61 local limits over 3,648 streams, 256 rows", chain(&limit(), 61, widest()), 256),
        ("a merge over 60 of them, 256 rows", chain(&merge(), 1, chain(&limit(), 60, widest())), 256),
    ]
}

/// Bytes of a list that never starts over.
const LONG: usize = 1 << 17;

/// Prints the times; whether there was something to time.
pub fn run() -> bool {
    if exports::dry_run(&[], &[], &[], &mut []).is_none() {
        println!("the library does not export dry_run: nothing was timed");
        return false;
    }
    println!("Microseconds of a dry run\n\n| plan | empty list | random list |\n|---|---|---|");
    for (name, tree, rows) in plans() {
        let [empty, random] = [0, LONG].map(|list| micros(&request(&tree, rows, list)));
        println!("| {name} | {empty:.1} | {random:.1} |");
    }
    println!("\nFilters over one stream, random list, by nodes and rows\n");
    println!("| nodes | {} |\n|---|{}", ROWS.map(|n| n.to_string()).join(" | "), "---|".repeat(ROWS.len()));
    for nodes in NODES {
        let cells = ROWS.map(|rows| format!("{:.1}", micros(&request(&filters(nodes), rows, LONG))));
        println!("| {nodes} | {} |", cells.join(" | "));
    }
    true
}

#[cfg(test)]
mod tests {
    use super::super::stepper::delivered;
    use super::*;

    #[test]
    fn what_is_timed_is_stepped() {
        for (name, tree, rows) in plans() {
            assert!(delivered(&request(&tree, rows, 9)).is_ok(), "{name}");
        }
        let streams: u32 = sources(&widest()).iter().map(|s| s.streams as u32).sum();
        assert_eq!((streams, chain(&limit(), 61, widest()).count()), (3648, 126));
    }
}
