//! Where a plan fails the order check: each child that does not meet the order that its parent wants of it.
use crate::Plan;
use crate::facts::{Facts, Key, of_tree, wanted};
use crate::listing::keys_text;
use crate::plan::{Node, kind};
use crate::why::counted;
use std::fmt;

/// A wanted order that a child does not meet. Orders are written as in a [`listing`](crate::listing()).
///
/// ```
/// let plan = sort_placement::text::parse("merge keys=1,0\n  source streams=2 width=2 keys=1").unwrap();
/// let places: Vec<String> = sort_placement::unmet(&plan).iter().map(|u| u.to_string()).collect();
/// assert_eq!(places, ["node 0 (merge) wants 1al,0al of child 0, node 1 (source), which knows 1al: 1 of 2 keys are met"]);
/// ```
#[derive(Clone, Debug, PartialEq, Eq)]
#[non_exhaustive]
pub struct Unmet {
    /// The number of the node that wants the order.
    pub node: usize,
    /// Its child's place, 0 or 1.
    pub child: usize,
    /// That child's number.
    pub child_node: usize,
    /// The order that is wanted.
    pub wanted: String,
    /// The order that the child is known to have; a hyphen for none.
    pub known: String,
    /// How many leading keys of it are met.
    pub met: usize,
    /// How many keys it has.
    pub keys: usize,
    kinds: [&'static str; 2],
}

impl fmt::Display for Unmet {
    fn fmt(&self, f: &mut fmt::Formatter) -> fmt::Result {
        let Unmet { node, child, child_node, wanted, known, met, keys, kinds: [kind, below] } = self;
        let known = if known == "-" { "no order" } else { known };
        let of_keys = counted(*keys, "key is", "keys are");
        write!(f, "node {node} ({kind}) wants {wanted} of child {child}, node {child_node} ({below}), ")?;
        write!(f, "which knows {known}: {met} of {of_keys} met")
    }
}

/// A parent and one of its children, with what it wants of it.
pub(crate) struct Edge<'a> {
    pub parent: (usize, &'a Node),
    pub place: usize,
    pub child: (usize, &'a Node),
    pub wanted: Vec<Key>,
    pub met: usize,
}

/// All edges of a plan, by the child's number.
pub(crate) fn edges<'a>(root: &'a Node, facts: &[Facts]) -> Vec<Edge<'a>> {
    let mut out = vec![];
    // the nodes above the next one, each with how many of its children are done
    let mut open: Vec<(usize, &Node, usize)> = vec![];
    for (number, (depth, node)) in root.walk().enumerate() {
        open.truncate(depth);
        if let Some((above, parent, done)) = open.last_mut() {
            let wanted = wanted(&parent.record, parent.children.len()).swap_remove(*done);
            let met = facts[number].keys_met(&wanted);
            out.push(Edge { parent: (*above, *parent), place: *done, child: (number, node), wanted, met });
            *done += 1;
        }
        open.push((number, node, 0));
    }
    out
}

/// Each place where the plan fails the order check; none where it passes.
pub fn unmet(plan: &Plan) -> Vec<Unmet> {
    let facts = of_tree(plan.root());
    let failing = edges(plan.root(), &facts).into_iter().filter(|e| e.met < e.wanted.len());
    failing
        .map(|e| Unmet {
            node: e.parent.0,
            child: e.place,
            child_node: e.child.0,
            wanted: keys_text(&e.wanted),
            known: keys_text(&facts[e.child.0].order),
            met: e.met,
            keys: e.wanted.len(),
            kinds: [e.parent.1, e.child.1].map(|n| kind::name(n.record.kind)),
        })
        .collect()
}
