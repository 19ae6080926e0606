//! The compared domain: trees whose facts the published crate reports the same. Its facts are not in the five files, so this
//! counts the trees that use a rule of documents 01 and 02 which the crate has otherwise, as far as its text shows or is believed.
use sort_placement::facts::{self, Facts};
use sort_placement::plan::{Node, PRESERVE, kind::*};
use std::collections::BTreeSet;

/// The rules that a tree uses.
pub fn rules(tree: &Node) -> BTreeSet<&'static str> {
    let mut found = BTreeSet::new();
    walk(tree, &mut found);
    found
}

fn walk(node: &Node, found: &mut BTreeSet<&'static str>) -> Facts {
    let children: Vec<Facts> = node.children.iter().map(|c| walk(c, found)).collect();
    let known: Vec<&Facts> = children.iter().collect();
    let r = &node.record;
    match r.kind {
        OUTPUT_REQUIREMENT => {
            if r.fetch().is_some() && facts::is_unbounded(&node.children[0]) {
                found.insert("an output requirement with a fetch is unbounded if its child is (the Rust: bounded)");
            }
            if node.children[0].record.kind == REPARTITION {
                found.insert("an output requirement passes on the number of streams (the Rust: the partitioning)");
            }
        }
        REPARTITION if r.is(PRESERVE) && !facts::preserve_counts(known[0]) => {
            found.insert("a preserve mark that doesn't count stands in a file (the Rust makes none)");
        }
        GLOBAL_LIMIT if known[0].streams > 1 => {
            found.insert("a global limit over several streams knows no order");
        }
        MERGE if r.fetch().is_none() && known[0].normal(&r.keys).is_empty() => {
            found.insert("a merge whose keys are all constant lets no order be pushed past it (the Rust panics)");
        }
        AGGREGATE => {
            found.insert("an aggregate wants nothing, maintains by one key and has no unique columns (the Rust: more of each)");
        }
        UNION if known.iter().fold(u32::MAX, |all, f| all & f.constants) != 0 => {
            found.insert("a union has no constants, though all children have");
        }
        _ => {}
    }
    facts::of(r, &known)
}
