//! Refusals 6 (unequal union), 7 and 8, node by node from the last to the first.
use super::kind::*;
use super::{MOST_COLUMNS, MOST_KEYS, number};
use crate::Refusal;
use crate::why::{Fault, Why};

/// A node's children, by number and width.
struct Child {
    node: usize,
    width: usize,
}

/// Columns of one list, each below a width; in a key list none stands twice.
fn list_fault(field: &'static str, columns: &[u8], width: usize, whose: &str, may_repeat: bool) -> Option<Fault> {
    let what = field.strip_suffix('s').unwrap_or(field);
    for (i, c) in columns.iter().enumerate() {
        if *c as usize >= width {
            return Fault::new(field, format!("{what} {c} is not below {whose} {width}"));
        }
        if !may_repeat && columns[..i].contains(c) {
            return Fault::new(field, format!("{what} {c} stands twice"));
        }
    }
    None
}

fn set_fault(field: &'static str, set: u32, width: usize, whose: &str) -> Option<Fault> {
    // bits at or above the width
    let above = set & u32::MAX.checked_shl(width as u32).unwrap_or(0);
    if above == 0 { None } else { list_fault(field, &[above.trailing_zeros() as u8], width, whose, true) }
}

/// Refusal 7.
fn column_fault(r: &[u8], children: &[Child]) -> Option<Fault> {
    let (kind, count) = (r[0], r[12] as usize);
    let (width, whose) = match kind {
        SOURCE => (r[13] as usize, "its width"),
        _ if is_join(kind) => (children[0].width, "the left child's width"),
        _ => (children[0].width, "the child's width"),
    };
    let keys: [u8; MOST_KEYS] = std::array::from_fn(|i| r[16 + 2 * i]);
    let rest = || match kind {
        SOURCE => set_fault("constant columns", number(&r[32..]), width, whose),
        OUTPUT_REQUIREMENT => set_fault("keyed columns", number(&r[32..]), width, whose),
        PROJECTION => list_fault("columns", &r[32..32 + r[13] as usize], width, whose, true),
        _ if is_join(kind) => {
            list_fault("right columns", &r[32..32 + count], children[1].width, "the right child's width", false)
        }
        _ => None,
    };
    list_fault("key columns", &keys[..count], width, whose, false).or_else(rest)
}

fn union_fault(r: &[u8], children: &[Child]) -> Option<Fault> {
    let first = children.first().filter(|_| r[0] == UNION)?;
    let other = children.iter().find(|c| c.width != first.width)?;
    let words =
        format!("node {} has width {}, its first child, node {}, width {}", other.node, other.width, first.node, first.width);
    Fault::new("children", words)
}

/// A node's width, over its children's.
fn width_of(r: &[u8], children: &[Child]) -> usize {
    match (r[0], r[14]) {
        (SOURCE | PROJECTION | AGGREGATE, _) => r[13] as usize,
        (SORT_MERGE_JOIN | HASH_JOIN, 0..=3) => children[0].width + children[1].width,
        (SORT_MERGE_JOIN | HASH_JOIN, 6 | 7) => children[1].width,
        _ => children[0].width,
    }
}

fn width_fault(width: usize) -> Option<Fault> {
    let words = || format!("it is {width} columns wide, more than 32");
    (width > MOST_COLUMNS).then(|| Fault { field: "width", words: words() })
}

/// The first of these refusals; the records have the right counts, and as many children as they say.
pub(super) fn fault(records: &[&[u8]]) -> Option<Why> {
    let mut open: Vec<Child> = vec![];
    for (node, r) in records.iter().enumerate().rev() {
        // the trees that are finished last come first in the file
        let rest = open.len() - r[1] as usize;
        let children = &mut open[rest..];
        children.reverse();
        let why = |refusal, fault| Why::of_node(refusal, node, r[0], fault);
        if let Some(fault) = union_fault(r, children) {
            return Some(why(Refusal::Field, fault));
        }
        if let Some(fault) = column_fault(r, children) {
            return Some(why(Refusal::Column, fault));
        }
        let width = width_of(r, children);
        if let Some(fault) = width_fault(width) {
            return Some(why(Refusal::Width, fault));
        }
        open.truncate(rest);
        open.push(Child { node, width });
    }
    None
}
