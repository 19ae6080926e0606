//! The streams that rows stand on: those of a plan's sources, and those of its root.
use crate::Plan;
use crate::facts::of_tree;
use crate::plan::kind::{SOURCE, name};

/// One stream of a node.
#[derive(Clone, Copy, Debug, PartialEq, Eq)]
#[non_exhaustive]
pub struct Stream {
    /// The node's number in the plan.
    pub node: usize,
    /// The stream's number, counted from 0 at each node.
    pub stream: usize,
    /// How many columns it has.
    pub width: usize,
    pub(crate) kind: u8,
}

impl Stream {
    /// Its node in words.
    pub(crate) fn node_words(&self) -> String {
        format!("{} {}", name(self.kind), self.node)
    }
}

fn of_node(node: usize, kind: u8, streams: usize, width: usize) -> impl Iterator<Item = Stream> {
    (0..streams).map(move |stream| Stream { node, stream, width, kind })
}

/// The streams of a plan's sources, in node and stream order: a dry run takes the rows of these.
pub fn source_streams(plan: &Plan) -> Vec<Stream> {
    let nodes = plan.root().walk().enumerate().map(|(number, (_, node))| (number, &node.record));
    let sources = nodes.filter(|(_, r)| r.kind == SOURCE);
    sources.flat_map(|(number, r)| of_node(number, r.kind, r.streams as usize, r.width as usize)).collect()
}

/// The streams of a plan's root: a dry run delivers the rows of these.
pub fn root_streams(plan: &Plan) -> Vec<Stream> {
    let facts = of_tree(plan.root()).swap_remove(0);
    of_node(0, plan.root().record.kind, facts.streams, facts.width).collect()
}
