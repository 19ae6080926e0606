//! A plan as a Graphviz graph: each node's kind, streams and known order. An edge whose wanted order is not met is marked, with
//! how far it is met.
use crate::Plan;
use crate::facts::{Facts, of_tree};
use crate::listing::keys_text;
use crate::plan::Node;
use crate::text::line;
use crate::unmet::{Edge, edges};
use crate::why::counted;

fn edge_line(edge: &Edge) -> String {
    let attributes = match edge.wanted.len() {
        0 => String::new(),
        n if edge.met == n => format!(" [label=\"{}\"]", keys_text(&edge.wanted)),
        n => format!(" [color=red, penwidth=2, label=\"wants {}: {} of {n} met\"]", keys_text(&edge.wanted), edge.met),
    };
    format!("  n{} -> n{}{attributes};\n", edge.child.0, edge.parent.0)
}

fn node_line(number: usize, node: &Node, facts: &Facts) -> String {
    let (line, streams, order) = (line(&node.record), counted(facts.streams, "stream", "streams"), keys_text(&facts.order));
    format!("  n{number} [label=\"{number} {line}\\n{streams}, order {order}\"];\n")
}

/// A graph in Graphviz's language. Rows flow upwards, from the sources to the root; red edges want an order that is not met.
pub fn draw(plan: &Plan) -> String {
    let mut out = String::from("digraph plan {\n  rankdir=BT;\n  node [shape=box, fontname=\"monospace\"];\n");
    let facts = of_tree(plan.root());
    for (number, (_, node)) in plan.root().walk().enumerate() {
        out += &node_line(number, node, &facts[number]);
    }
    out.extend(edges(plan.root(), &facts).iter().map(edge_line));
    out + "}\n"
}
