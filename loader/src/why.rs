//! Why a file, or rows, are refused: the number, the place and the rule in words. Messages only; the number that counts is the
//! library's.
use crate::facts::of_tree;
use crate::listing::keys_text;
use crate::plan::kind::{self, PARTIAL_SORT, SORT};
use crate::rows::{self, Stream};
use crate::{Plan, Refusal};
use std::fmt;

/// Where a plan file, or the rows of its sources, break a rule, and how.
///
/// ```
/// let mut file = sort_placement::text::parse("filter\n  source streams=1 width=2").unwrap().write();
/// file[8 + 2] = 9;
/// file[508] += 9;
/// let why = sort_placement::explain(&file).unwrap();
/// assert_eq!(why.to_string(), "refusal 6: node 0 (filter): streams are 9, and it has none");
/// assert_eq!((why.refusal.number(), why.node, why.field), (6, Some(0), Some("streams")));
/// ```
#[derive(Clone, Debug, PartialEq, Eq)]
#[non_exhaustive]
pub struct Why {
    /// What the library answers.
    pub refusal: Refusal,
    /// The block, counted from 0.
    pub block: Option<usize>,
    /// The node, counted from 0.
    pub node: Option<usize>,
    /// The stream of that node, counted from 0, where rows are refused.
    pub stream: Option<u32>,
    /// The row of that stream, counted from 0.
    pub row: Option<u32>,
    /// The field's name.
    pub field: Option<&'static str>,
    /// that node's; no kind has the number 0
    kind: u8,
    words: String,
}

/// What is wrong with a field, before it is known whose.
pub(crate) struct Fault {
    pub field: &'static str,
    pub words: String,
}

impl Fault {
    pub fn new(field: &'static str, words: String) -> Option<Fault> {
        Some(Fault { field, words })
    }
}

/// So many of something, in words.
pub(crate) fn counted(n: usize, one: &str, many: &str) -> String {
    format!("{n} {}", if n == 1 { one } else { many })
}

impl Why {
    /// Of the file as a whole.
    pub(crate) fn of_file(refusal: Refusal, words: &str) -> Why {
        Why { refusal, block: None, node: None, stream: None, row: None, field: None, kind: 0, words: words.into() }
    }

    pub(crate) fn of_block(refusal: Refusal, block: usize, fault: Fault) -> Why {
        Why { block: Some(block), field: Some(fault.field), ..Why::of_file(refusal, &fault.words) }
    }

    pub(crate) fn of_node(refusal: Refusal, node: usize, kind: u8, fault: Fault) -> Why {
        Why { node: Some(node), field: Some(fault.field), kind, ..Why::of_file(refusal, &fault.words) }
    }

    /// Of rows, 26.
    pub(crate) fn of_row(stream: &Stream, row: Option<usize>, fault: Fault) -> Why {
        let row = row.map(|row| row as u32);
        Why { stream: Some(stream.stream as u32), row, ..Why::of_node(Refusal::WrongRows, stream.node, stream.kind, fault) }
    }

    /// Of a dry run of an accepted plan, with the first place that the rule speaks of, where there is one.
    ///
    /// ```
    /// use sort_placement::{Refusal, Why, text};
    ///
    /// let plan = text::parse("filter\n  aggregate width=1 keys=0\n    source streams=1 width=1").unwrap();
    /// let why = Why::of_dry_run(Refusal::NotStepped(1), &plan, &[0; 4]);
    /// assert_eq!(why.to_string(), "refusal 257: node 1 (aggregate): a plan with an aggregate is not stepped");
    /// ```
    pub fn of_dry_run(refusal: Refusal, plan: &Plan, rows: &[u8]) -> Why {
        let found = rows::explain(plan, rows).filter(|why| why.refusal == refusal);
        found.unwrap_or_else(|| Why::of_file(refusal, refusal.sentence()))
    }

    /// Of a rewrite of an accepted plan, 20 and above, with the first node that the rule speaks of, where there is one.
    ///
    /// ```
    /// use sort_placement::{MOST_BYTES, Why, replace_with_partial_sort, text};
    ///
    /// let plan = text::parse("source streams=1 width=1").unwrap();
    /// let refusal = replace_with_partial_sort(&plan.write(), 7, &mut [0; MOST_BYTES]).unwrap_err();
    /// assert_eq!(Why::of_rewrite(refusal, &plan, Some(7)).to_string(), "refusal 20: there is no node 7, the last is 0");
    /// ```
    pub fn of_rewrite(refusal: Refusal, plan: &Plan, node: Option<u32>) -> Why {
        let at = |number: usize, kind: u8, words: String| Why::of_node(refusal, number, kind, Fault { field: "", words });
        let found = match (refusal, node) {
            (Refusal::NoSuchNode, Some(node)) => {
                Some(Why::of_file(refusal, &format!("there is no node {node}, the last is {}", plan.count() - 1)))
            }
            (Refusal::PartialSort, _) => {
                first(plan, PARTIAL_SORT).map(|n| at(n, PARTIAL_SORT, "a tree with a partial sort is not rewritten".into()))
            }
            (Refusal::ConstantSort, _) => {
                constant_sort(plan).map(|(n, keys)| at(n, SORT, format!("its keys {keys} are all constant, and push meets it")))
            }
            _ => None,
        };
        Why { field: None, ..found.unwrap_or_else(|| Why::of_file(refusal, refusal.sentence())) }
    }

    /// The place and the rule, without the refusal's number.
    pub fn words(&self) -> String {
        let kind = if kind::is_known(self.kind) { format!(" ({})", kind::name(self.kind)) } else { String::new() };
        let row = match (self.stream, self.row) {
            (Some(stream), Some(row)) => format!(" stream {stream}, row {row}:"),
            (Some(stream), None) => format!(" stream {stream}:"),
            _ => String::new(),
        };
        match (self.block, self.node) {
            (Some(block), _) => format!("block {block}: {}", self.words),
            (_, Some(node)) => format!("node {node}{kind}:{row} {}", self.words),
            _ => self.words.clone(),
        }
    }
}

/// The first node of a kind.
fn first(plan: &Plan, kind: u8) -> Option<usize> {
    plan.root().walk().position(|(_, n)| n.record.kind == kind)
}

/// The first sort whose keys its child's facts make constant.
fn constant_sort(plan: &Plan) -> Option<(usize, String)> {
    let facts = of_tree(plan.root());
    // a sort's child is the next node
    let mut sorts = plan.root().walk().enumerate().filter(|(_, (_, n))| n.record.kind == SORT);
    let found = sorts.find(|(i, (_, n))| facts[i + 1].normal(&n.record.keys).is_empty());
    found.map(|(i, (_, n))| (i, keys_text(&n.record.keys)))
}

impl fmt::Display for Why {
    fn fmt(&self, f: &mut fmt::Formatter) -> fmt::Result {
        write!(f, "refusal {}: {}", self.refusal.number(), self.words())
    }
}

impl std::error::Error for Why {}
