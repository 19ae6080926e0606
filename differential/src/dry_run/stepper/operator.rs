//! What a step asks of an operator, of each node by its number.
use super::row::Row;
use sort_placement::facts::{self, Facts, Key};
use sort_placement::plan::{Node, PRESERVE, Record, kind::*};

/// Where a row of an input stream can go to.
#[derive(Clone, Copy, Debug, PartialEq, Eq)]
pub enum Ways {
    /// to the output stream of its input stream's number
    Same,
    /// to stream 0
    First,
    /// to any stream
    Any,
}

/// Which of the waiting rows moves.
#[derive(Clone, Debug, PartialEq, Eq)]
pub enum Takes {
    /// the first of a chosen stream
    First,
    /// of the streams' first rows the first by these keys, from the lowest stream
    Merged(Vec<Key>),
    /// of a chosen stream's rows the first by these keys
    SortedStream(Vec<Key>),
    /// of all rows the first by these keys
    SortedWhole(Vec<Key>),
}

pub struct Operator {
    pub is_source: bool,
    pub ways: Ways,
    pub takes: Takes,
    pub children: Vec<usize>,
    /// the parent, and which of its input streams is the first of these
    pub above: Option<(usize, usize)>,
    pub outputs: usize,
    skip: u64,
    fetch: Option<u64>,
    /// the child columns of a projection
    columns: Option<Vec<u8>>,
}

/// A repartition whose preserve mark counts goes by its child's known order; over other streams it is as without the mark.
fn preserved_order(r: &Record, child: &Facts) -> Option<Vec<Key>> {
    (r.is(PRESERVE) && facts::preserve_counts(child)).then(|| child.order.clone())
}

fn ways(r: &Record) -> Ways {
    match r.kind {
        REPARTITION => Ways::Any,
        COALESCE | MERGE | GLOBAL_LIMIT => Ways::First,
        SORT | PARTIAL_SORT if !r.is(PRESERVE) => Ways::First,
        _ => Ways::Same,
    }
}

fn takes(r: &Record, child: Option<&Facts>) -> Takes {
    match r.kind {
        MERGE => Takes::Merged(r.keys.clone()),
        REPARTITION => child.and_then(|child| preserved_order(r, child)).map_or(Takes::First, Takes::Merged),
        SORT | PARTIAL_SORT if r.is(PRESERVE) => Takes::SortedStream(r.keys.clone()),
        SORT | PARTIAL_SORT => Takes::SortedWhole(r.keys.clone()),
        _ => Takes::First,
    }
}

impl Operator {
    fn new(r: &Record, children: Vec<usize>, facts: &[Facts], number: usize) -> Operator {
        Operator {
            is_source: r.kind == SOURCE,
            ways: ways(r),
            takes: takes(r, children.first().map(|child| &facts[*child])),
            outputs: facts[number].streams,
            children,
            above: None,
            skip: r.skip as u64,
            fetch: r.fetch().map(u64::from),
            columns: (r.kind == PROJECTION).then(|| r.columns.clone()),
        }
    }

    /// Whether fetch or skip cuts the row that comes to an output stream after so many others.
    pub fn cuts(&self, before: u64) -> bool {
        before < self.skip || self.fetch.is_some_and(|fetch| before >= self.skip + fetch)
    }

    /// A row as it comes out.
    pub fn put_out(&self, row: Row) -> Row {
        match &self.columns {
            Some(columns) => columns.iter().map(|column| row[*column as usize]).collect(),
            None => row,
        }
    }
}

/// A plan's operators and sources, by number.
pub fn operators(plan: &Node) -> Vec<Operator> {
    let facts = facts::of_tree(plan);
    let mut operators = vec![];
    for (number, (_, node)) in plan.walk().enumerate() {
        // each child's subtree ends where the next child's begins
        let numbers = node.children.iter().scan(number + 1, |next, child| {
            *next += child.count();
            Some(*next - child.count())
        });
        operators.push(Operator::new(&node.record, numbers.collect(), &facts, number));
    }
    for parent in 0..operators.len() {
        let mut stream = 0;
        for child in operators[parent].children.clone() {
            operators[child].above = Some((parent, stream));
            stream += operators[child].outputs;
        }
    }
    operators
}
