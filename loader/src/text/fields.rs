//! Which kind has which fields in a text. The order is that of the normal layout.
use crate::plan::kind::*;

/// A field's name, and whether a value stands behind it.
#[derive(Clone, Copy, Debug, PartialEq, Eq)]
pub(super) enum Field {
    /// `name=value`
    Valued(&'static str),
    /// the name alone
    Mark(&'static str),
}

use Field::{Mark, Valued};

const STREAMS: Field = Valued("streams");
const WIDTH: Field = Valued("width");
const KEYS: Field = Valued("keys");
const FETCH: Field = Valued("fetch");
const PRESERVE: Field = Mark("preserve");

impl Field {
    pub(super) fn name(self) -> &'static str {
        match self {
            Valued(name) | Mark(name) => name,
        }
    }
}

/// The fields of a kind.
pub(super) fn of_kind(kind: u8) -> &'static [Field] {
    match kind {
        SOURCE => &[STREAMS, WIDTH, KEYS, Valued("constants"), Mark("unbounded")],
        PROJECTION => &[Valued("columns")],
        REPARTITION => &[STREAMS, KEYS, PRESERVE, Mark("hash")],
        COALESCE => &[FETCH],
        SORT => &[KEYS, FETCH, PRESERVE],
        MERGE | LOCAL_LIMIT => &[KEYS, FETCH],
        GLOBAL_LIMIT => &[KEYS, FETCH, Valued("skip")],
        SORT_MERGE_JOIN | HASH_JOIN => &[KEYS, Valued("right"), Valued("type")],
        OUTPUT_REQUIREMENT => &[KEYS, Valued("keyed"), FETCH, Mark("single")],
        PARTIAL_SORT => &[KEYS, Valued("prefix"), FETCH, PRESERVE],
        AGGREGATE => &[WIDTH, KEYS],
        _ => &[],
    }
}

/// The fields of a kind in words.
pub(super) fn in_words(kind: u8) -> String {
    let names: Vec<&str> = of_kind(kind).iter().map(|f| f.name()).collect();
    if names.is_empty() { "no fields".into() } else { names.join(", ") }
}
