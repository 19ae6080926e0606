//! The order of rows, as document 01 takes it from ISO/IEC 9075-2:2023, and which rows of a stream are out of it.
use super::{Cell, Row};
use crate::Plan;
use crate::facts::{Key, of_tree};
use crate::listing::keys_text;
use crate::plan::kind::{MERGE, OUTPUT_REQUIREMENT, PARTIAL_SORT, SORT};
use std::cmp::Ordering;
use std::fmt;

/// Nulls are peers, and where they stand does not turn with descending.
fn compare_cells(options: u8, a: Cell, b: Cell) -> Ordering {
    let (descending, nulls_first) = (options & 1 != 0, options & 2 != 0);
    match (a, b) {
        (Some(a), Some(b)) if descending => b.cmp(&a),
        (Some(a), Some(b)) => a.cmp(&b),
        (a, b) if nulls_first => a.is_some().cmp(&b.is_some()),
        (a, b) => a.is_none().cmp(&b.is_none()),
    }
}

/// An order of rows: a key list, shown as in a [`listing`](crate::listing()).
///
/// ```
/// let plan = sort_placement::text::parse("filter\n  source streams=1 width=2 keys=0d").unwrap();
/// let order = sort_placement::rows::Order::of_root(&plan);
/// assert_eq!(order.to_string(), "0dl");
/// // a row of 3, 5, 4, null: 5 and 4 sort before 3, and nulls stand last
/// let stream: Vec<_> = [Some(3), Some(5), Some(4), None].map(|cell| vec![cell, Some(1)]).into();
/// assert_eq!(order.out_of_order(&stream), [false, true, true, false]);
/// ```
#[derive(Clone, Debug, PartialEq, Eq)]
pub struct Order {
    keys: Vec<Key>,
}

impl Order {
    pub(crate) fn of_keys(keys: &[Key]) -> Order {
        Order { keys: keys.to_vec() }
    }

    /// Rows compare at the first key where they differ.
    pub(crate) fn compare(&self, a: &[Cell], b: &[Cell]) -> Ordering {
        let cell = |row: &[Cell], column: u8| row.get(column as usize).copied().flatten();
        let mut keys = self.keys.iter().map(|(column, options)| compare_cells(*options, cell(a, *column), cell(b, *column)));
        keys.find(|key| key.is_ne()).unwrap_or(Ordering::Equal)
    }

    /// The order that is asked of a plan as a whole: the keys of its root, if that is a sort, a partial sort, a merge or an output
    /// requirement that has some; else the order that its root is known to have, which may be none.
    pub fn of_root(plan: &Plan) -> Order {
        let root = &plan.root().record;
        let asks = matches!(root.kind, SORT | MERGE | OUTPUT_REQUIREMENT | PARTIAL_SORT) && !root.keys.is_empty();
        if asks { Order::of_keys(&root.keys) } else { Order { keys: of_tree(plan.root()).swap_remove(0).order } }
    }

    /// Whether it is none.
    pub fn is_none(&self) -> bool {
        self.keys.is_empty()
    }

    /// Which rows of a stream are out of order: a row that sorts before an earlier one.
    pub fn out_of_order(&self, stream: &[Row]) -> Vec<bool> {
        // of the rows so far, the last by the order
        let mut last = 0;
        let sorts_before = |row: usize| {
            let before = self.compare(&stream[row], &stream[last]).is_lt();
            if !before {
                last = row;
            }
            before
        };
        (0..stream.len()).map(sorts_before).collect()
    }

    /// The first row that is out of order: it sorts before the one above it.
    pub(crate) fn first_out(&self, stream: &[Row]) -> Option<usize> {
        self.out_of_order(stream).iter().position(|out| *out)
    }
}

impl fmt::Display for Order {
    fn fmt(&self, f: &mut fmt::Formatter) -> fmt::Result {
        write!(f, "{}", keys_text(&self.keys))
    }
}
