//! The facts of a node, what it wants and what it maintains, as document 01 states them, and document 02 for an aggregate. Written
//! from their text alone.
//!
//! # Panics
//!
//! Functions here take records and columns of an accepted plan, and can panic on others: a column of 32, a merge without a child.
use crate::plan::{Node, PRESERVE, Record, UNBOUNDED, kind::*};

/// A key: column and options (bit 0 descending, bit 1 nulls first).
pub type Key = (u8, u8);

/// What is known of a node's rows.
#[derive(Clone, Debug, PartialEq)]
pub struct Facts {
    /// Its columns.
    pub width: usize,
    /// Its streams.
    pub streams: usize,
    /// Constant columns by bits.
    pub constants: u32,
    /// The lowest column of each column's class.
    pub class: [u8; 32],
    /// The known order in normal form; empty for none.
    pub order: Vec<Key>,
}

/// Whether a join type, by its number in a file, is Right, RightSemi or RightAnti.
pub fn is_right_type(join_type: u8) -> bool {
    matches!(join_type, 2 | 6 | 7)
}

/// Whether a join keeps its left side's order, and its right side's.
pub fn kept_sides(hash: bool, join_type: u8) -> (bool, bool) {
    if hash {
        (false, join_type == 0 || is_right_type(join_type))
    } else {
        (matches!(join_type, 0 | 1 | 4 | 5), is_right_type(join_type))
    }
}

impl Facts {
    /// No constants, no equal columns, no order.
    pub fn free(width: usize) -> Facts {
        Facts { width, streams: 0, constants: 0, class: std::array::from_fn(|c| c as u8), order: vec![] }
    }

    /// Whether a column has one value over all streams.
    pub fn is_constant(&self, column: usize) -> bool {
        self.constants >> column & 1 == 1
    }

    /// Each column by its class's lowest, constants and later repeats dropped.
    pub fn normal(&self, keys: &[Key]) -> Vec<Key> {
        let mut out: Vec<Key> = Vec::with_capacity(keys.len());
        for &(column, options) in keys {
            let low = self.class[column as usize];
            if !self.is_constant(low as usize) && !out.iter().any(|k| k.0 == low) {
                out.push((low, options));
            }
        }
        out
    }

    /// Whether a wanted order is met.
    pub fn meets(&self, wanted: &[Key]) -> bool {
        self.order.starts_with(&self.normal(wanted))
    }

    /// How many leading keys of the list are met.
    pub fn keys_met(&self, wanted: &[Key]) -> usize {
        (1..=wanted.len()).take_while(|n| self.meets(&wanted[..*n])).count()
    }

    /// One list is compatible with a second when the second's normal form is a prefix of the first's.
    pub fn compatible(&self, first: &[Key], second: &[Key]) -> bool {
        self.normal(first).starts_with(&self.normal(second))
    }

    /// Puts a list's normal form in the known order's place; whether that changed it.
    pub fn reorder(&mut self, keys: &[Key]) -> bool {
        let new = self.normal(keys);
        let changed = new != self.order;
        self.order = new;
        changed
    }

    /// A source's, by what it declares.
    pub fn source(width: usize, streams: usize, constants: u32, keys: &[Key]) -> Facts {
        let mut facts = Facts { streams, constants, ..Facts::free(width) };
        facts.order = facts.normal(keys);
        facts
    }

    /// The same with other streams and another order.
    pub fn with_order(&self, streams: usize, order: Vec<Key>) -> Facts {
        Facts { streams, order, ..self.clone_without_order() }
    }

    fn clone_without_order(&self) -> Facts {
        Facts { order: vec![], ..*self }
    }

    /// A projection's, over these of its child.
    pub fn projection(&self, columns: &[u8]) -> Facts {
        let class_of = |c: u8| self.class[c as usize];
        let first = |low: u8| columns.iter().position(|c| class_of(*c) == low).map(|i| i as u8);
        let mut facts = Facts { streams: self.streams, ..Facts::free(columns.len()) };
        for (i, c) in columns.iter().enumerate() {
            facts.class[i] = first(class_of(*c)).expect("itself");
            facts.constants |= (self.is_constant(*c as usize) as u32) << i;
        }
        facts.order = self.order.iter().map_while(|(c, o)| Some((first(*c)?, *o))).collect();
        facts
    }

    /// A union's, over its children's.
    pub fn union(children: &[&Facts]) -> Facts {
        let first = children[0];
        let mut all = Facts { streams: children.iter().map(|f| f.streams).sum(), ..Facts::free(first.width) };
        for c in 0..first.width {
            let together = |d: &usize| children.iter().all(|f| f.class[*d] == f.class[c]);
            all.class[c] = (0..=c).find(together).expect("itself") as u8;
        }
        let common = |i: &usize| children.iter().all(|f| f.order.get(*i) == Some(&first.order[*i]));
        all.order = first.order[..(0..first.order.len()).take_while(common).count()].to_vec();
        all
    }

    /// The sides side by side, with the constants and classes of those that are kept.
    fn beside(left: &Facts, right: &Facts, keep: (bool, bool)) -> Facts {
        let mut all = Facts::free(left.width + right.width);
        if keep.0 {
            all.class[..left.width].copy_from_slice(&left.class[..left.width]);
            all.constants |= left.constants;
        }
        if keep.1 {
            for c in 0..right.width {
                all.class[left.width + c] = left.width as u8 + right.class[c];
                all.constants |= (right.is_constant(c) as u32) << (left.width + c);
            }
        }
        all
    }

    /// Two columns are equal from now on. A class that holds a constant is all constant.
    fn link(&mut self, a: usize, b: usize) {
        let (low, high) = (self.class[a].min(self.class[b]), self.class[a].max(self.class[b]));
        for c in 0..self.width {
            if self.class[c] == high {
                self.class[c] = low;
            }
        }
        let members = (0..self.width).filter(|c| self.class[*c] == low).fold(0u32, |set, c| set | 1 << c);
        if members & self.constants != 0 {
            self.constants |= members;
        }
    }

    /// A join's, over its sides'; the pairs are left and right key columns.
    pub fn join(hash: bool, join_type: u8, left: &Facts, right: &Facts, pairs: &[(u8, u8)]) -> Facts {
        let mut all = match join_type {
            0 => Facts::beside(left, right, (true, true)),
            1 => Facts::beside(left, right, (true, false)),
            2 => Facts::beside(left, right, (false, true)),
            3 => Facts::beside(left, right, (false, false)),
            4 | 5 => left.clone_without_order(),
            _ => right.clone_without_order(),
        };
        if join_type == 0 {
            for (l, r) in pairs {
                all.link(*l as usize, left.width + *r as usize);
            }
        }
        let offset = if join_type <= 3 { left.width as u8 } else { 0 };
        let order: Vec<Key> = match kept_sides(hash, join_type) {
            (true, _) => left.order.clone(),
            (_, true) => right.order.iter().map(|(c, o)| (c + offset, *o)).collect(),
            _ => vec![],
        };
        all.streams = if hash || is_right_type(join_type) { right.streams } else { left.streams };
        all.order = all.normal(&order);
        all
    }
}

/// The facts of a node over its children's.
pub fn of(r: &Record, children: &[&Facts]) -> Facts {
    let known = |streams: usize| {
        let child = children[0];
        child.with_order(streams, child.normal(&r.keys))
    };
    match r.kind {
        SOURCE => Facts::source(r.width as usize, r.streams as usize, r.set, &r.keys),
        PROJECTION => children[0].projection(&r.columns),
        // its aggregate columns, behind the groups, are free
        AGGREGATE => {
            let groups: Vec<u8> = r.keys.iter().map(|k| k.0).collect();
            Facts { width: r.width as usize, ..children[0].projection(&groups) }
        }
        UNION => Facts::union(children),
        SORT_MERGE_JOIN | HASH_JOIN => {
            let pairs: Vec<(u8, u8)> = r.keys.iter().map(|k| k.0).zip(r.right.iter().copied()).collect();
            Facts::join(r.kind == HASH_JOIN, r.variant, children[0], children[1], &pairs)
        }
        REPARTITION => {
            let order = if repartition_maintains(r, children[0]) { children[0].order.clone() } else { vec![] };
            children[0].with_order(r.streams as usize, order)
        }
        COALESCE => children[0].with_order(1, vec![]),
        SORT | PARTIAL_SORT => known(if r.is(PRESERVE) { children[0].streams } else { 1 }),
        MERGE => known(1),
        GLOBAL_LIMIT => {
            let order = if children[0].streams > 1 { vec![] } else { children[0].order.clone() };
            children[0].with_order(1, order)
        }
        _ => children[0].clone(),
    }
}

/// A repartition's preserve mark counts only over an ordered child of several streams.
pub fn preserve_counts(child: &Facts) -> bool {
    !child.order.is_empty() && child.streams > 1
}

fn repartition_maintains(r: &Record, child: &Facts) -> bool {
    child.streams <= 1 || (r.is(PRESERVE) && preserve_counts(child))
}

/// Whether a node maintains the order of each child.
pub fn maintains(r: &Record, own: &Facts, children: &[&Facts]) -> Vec<bool> {
    match r.kind {
        SOURCE => vec![],
        UNION => children.iter().map(|c| !own.order.is_empty() && c.order.len() == own.order.len()).collect(),
        REPARTITION => vec![repartition_maintains(r, children[0])],
        AGGREGATE => {
            let class = children[0].class;
            let is_group = |k: &Key| r.keys.iter().any(|g| class[g.0 as usize] == k.0);
            vec![children[0].order.first().is_some_and(is_group)]
        }
        COALESCE | SORT | PARTIAL_SORT => vec![false],
        SORT_MERGE_JOIN | HASH_JOIN => {
            let (left, right) = kept_sides(r.kind == HASH_JOIN, r.variant);
            vec![left, right]
        }
        _ => vec![true],
    }
}

/// The order that a node wants of each child; empty for none.
pub fn wanted(r: &Record, children: usize) -> Vec<Vec<Key>> {
    match r.kind {
        MERGE | OUTPUT_REQUIREMENT => vec![r.keys.clone()],
        SORT_MERGE_JOIN => vec![r.keys.clone(), r.right_keys()],
        PARTIAL_SORT => vec![r.keys[..r.variant as usize].to_vec()],
        _ => vec![vec![]; children],
    }
}

/// Limits are bounded; any other node is unbounded if a child is.
pub fn is_unbounded(node: &Node) -> bool {
    match node.record.kind {
        SOURCE => node.record.is(UNBOUNDED),
        GLOBAL_LIMIT | LOCAL_LIMIT => false,
        _ => node.children.iter().any(is_unbounded),
    }
}

/// The facts of a whole tree's nodes, parent first, then each child's subtree.
pub fn of_tree(node: &Node) -> Vec<Facts> {
    fn walk(node: &Node, out: &mut Vec<Facts>) -> usize {
        let at = out.len();
        out.push(Facts::free(0));
        let children: Vec<usize> = node.children.iter().map(|c| walk(c, out)).collect();
        let facts = of(&node.record, &children.iter().map(|c| &out[*c]).collect::<Vec<_>>());
        out[at] = facts;
        at
    }
    let mut out = vec![];
    walk(node, &mut out);
    out
}
