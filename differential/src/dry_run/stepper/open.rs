//! Which streams are open: a row waiting below can still reach them, cuts aside.
use super::operator::{Operator, Ways};

/// By node and output stream.
pub type Open = Vec<Vec<bool>>;

/// Opens every stream to which ways lead from an input of a node.
fn follow(operators: &[Operator], node: usize, input: usize, open: &mut Open) {
    let operator = &operators[node];
    let outputs = match operator.ways {
        Ways::Same => input..input + 1,
        Ways::First => 0..1,
        Ways::Any => 0..operator.outputs,
    };
    for output in outputs {
        // from an open stream the ways have been followed
        if !std::mem::replace(&mut open[node][output], true)
            && let Some((above, first)) = operator.above
        {
            follow(operators, above, first + output, open);
        }
    }
}

/// The output streams of each node, by the nodes and inputs where rows wait. A source's are never open, for its rows wait above it.
pub fn streams(operators: &[Operator], waiting: impl Iterator<Item = (usize, usize)>) -> Open {
    let mut open: Open = operators.iter().map(|operator| vec![false; operator.outputs]).collect();
    waiting.for_each(|(node, input)| follow(operators, node, input, &mut open));
    open
}

/// The input streams of a node: open as output streams of its children. Rows that already wait there don't count.
pub fn inputs<'a>(operator: &'a Operator, open: &'a Open) -> impl Iterator<Item = bool> + 'a {
    operator.children.iter().flat_map(|child| open[*child].iter().copied())
}
