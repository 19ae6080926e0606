//! The tree of records. Numbers count a parent first, then each child's subtree.
use super::Record;
use super::kind::*;

/// A record over its children's trees.
#[derive(Clone, Debug, PartialEq, Eq)]
pub struct Node {
    /// its own fields
    pub record: Record,
    /// as many as its kind has
    pub children: Vec<Node>,
}

impl Node {
    /// A record over children.
    pub fn new(record: Record, children: Vec<Node>) -> Node {
        Node { record, children }
    }

    /// The nodes of the tree.
    pub fn count(&self) -> usize {
        1 + self.children.iter().map(Node::count).sum::<usize>()
    }

    /// Its columns.
    ///
    /// # Panics
    ///
    /// Where it has fewer children than its kind has.
    pub fn width(&self) -> usize {
        let r = &self.record;
        match (r.kind, r.variant) {
            (SOURCE | PROJECTION | AGGREGATE, _) => r.width as usize,
            (SORT_MERGE_JOIN | HASH_JOIN, 0..=3) => self.children[0].width() + self.children[1].width(),
            (SORT_MERGE_JOIN | HASH_JOIN, 6 | 7) => self.children[1].width(),
            _ => self.children[0].width(),
        }
    }

    /// Whether a test holds of some node.
    pub fn any(&self, test: &mut impl FnMut(&Node) -> bool) -> bool {
        test(self) || self.children.iter().any(|c| c.any(test))
    }

    /// Each node with its depth, by number.
    pub fn walk(&self) -> impl Iterator<Item = (usize, &Node)> {
        let mut stack = vec![(0, self)];
        std::iter::from_fn(move || {
            let (depth, node) = stack.pop()?;
            stack.extend(node.children.iter().rev().map(|c| (depth + 1, c)));
            Some((depth, node))
        })
    }

    /// The node of a number.
    pub fn at(&self, number: usize) -> Option<&Node> {
        self.walk().nth(number).map(|(_, node)| node)
    }

    /// The node of a number, to be changed.
    pub fn at_mut(&mut self, number: usize) -> Option<&mut Node> {
        if number == 0 {
            return Some(self);
        }
        let mut left = number - 1;
        for child in &mut self.children {
            let count = child.count();
            if left < count {
                return child.at_mut(left);
            }
            left -= count;
        }
        None
    }
}
