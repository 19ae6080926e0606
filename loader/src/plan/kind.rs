//! The kinds' numbers, their names, and what is settled by the kind alone.
use std::ops::RangeInclusive;

/// A table that gives its rows.
pub const SOURCE: u8 = 1;
/// Rows that pass a test.
pub const FILTER: u8 = 2;
/// Columns picked.
pub const PROJECTION: u8 = 3;
/// Its children's streams side by side.
pub const UNION: u8 = 4;
/// Streams split anew.
pub const REPARTITION: u8 = 5;
/// Streams put together in no order.
pub const COALESCE: u8 = 6;
/// A sort, of each stream or of all together.
pub const SORT: u8 = 7;
/// Streams put together in order.
pub const MERGE: u8 = 8;
/// A limit over all streams.
pub const GLOBAL_LIMIT: u8 = 9;
/// A limit on each stream.
pub const LOCAL_LIMIT: u8 = 10;
/// A join of ordered sides.
pub const SORT_MERGE_JOIN: u8 = 11;
/// A join whose left side is collected.
pub const HASH_JOIN: u8 = 12;
/// What the plan's reader asks for.
pub const OUTPUT_REQUIREMENT: u8 = 13;
/// A sort over a child that already meets its first keys.
pub const PARTIAL_SORT: u8 = 14;
/// Rows grouped.
pub const AGGREGATE: u8 = 15;

/// The kinds' names, by number; number 0 has none.
pub const NAMES: [&str; 16] = [
    "",
    "source",
    "filter",
    "projection",
    "union",
    "repartition",
    "coalesce",
    "sort",
    "merge",
    "global-limit",
    "local-limit",
    "sort-merge-join",
    "hash-join",
    "output-requirement",
    "partial-sort",
    "aggregate",
];

/// The join types' names, by number.
pub const JOIN_TYPES: [&str; 8] = ["Inner", "Left", "Right", "Full", "LeftSemi", "LeftAnti", "RightSemi", "RightAnti"];

/// Whether there is a kind of that number.
pub(crate) fn is_known(kind: u8) -> bool {
    (SOURCE..=AGGREGATE).contains(&kind)
}

/// The name of a kind, or of a number that no kind has.
pub(crate) fn name(kind: u8) -> &'static str {
    if is_known(kind) { NAMES[kind as usize] } else { "no kind" }
}

/// Whether records of the kind have a fetch.
pub(crate) fn has_fetch(kind: u8) -> bool {
    matches!(kind, COALESCE..=LOCAL_LIMIT | OUTPUT_REQUIREMENT | PARTIAL_SORT)
}

/// How many children a kind can have.
pub(crate) fn children_allowed(kind: u8) -> RangeInclusive<usize> {
    match kind {
        SOURCE => 0..=0,
        UNION => 2..=8,
        SORT_MERGE_JOIN | HASH_JOIN => 2..=2,
        _ => 1..=1,
    }
}

/// Whether it is a join.
pub(crate) fn is_join(kind: u8) -> bool {
    matches!(kind, SORT_MERGE_JOIN | HASH_JOIN)
}
