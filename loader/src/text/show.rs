//! A plan's text, in normal layout.
use super::fields::{self, Field};
use crate::Plan;
use crate::listing::keys_text;
use crate::plan::kind::{JOIN_TYPES, OUTPUT_REQUIREMENT, name};
use crate::plan::{HASH, PRESERVE, Record, UNBOUNDED};

fn columns_text(columns: impl IntoIterator<Item = u8>) -> String {
    columns.into_iter().map(|c| c.to_string()).collect::<Vec<_>>().join(",")
}

fn set_columns(set: u32) -> impl Iterator<Item = u8> {
    (0..32).filter(move |c| set >> c & 1 == 1)
}

/// What stands behind a field's name; `None` where the field is not written.
fn value(r: &Record, field: &str) -> Option<String> {
    match field {
        "streams" => Some(r.streams.to_string()),
        "width" => Some(r.width.to_string()),
        "keys" => (!r.keys.is_empty()).then(|| keys_text(&r.keys)),
        "right" => (!r.right.is_empty()).then(|| columns_text(r.right.iter().copied())),
        "columns" => Some(columns_text(r.columns.iter().copied())),
        "type" => JOIN_TYPES.get(r.variant as usize).map(|t| t.to_string()),
        "prefix" => Some(r.variant.to_string()),
        "constants" => (r.set != 0).then(|| columns_text(set_columns(r.set))),
        "keyed" => (r.variant == 2).then(|| columns_text(set_columns(r.set))),
        "fetch" => r.fetch().map(|f| f.to_string()),
        "skip" => (r.skip != 0).then(|| r.skip.to_string()),
        _ => None,
    }
}

fn is_marked(r: &Record, mark: &str) -> bool {
    match mark {
        "preserve" => r.is(PRESERVE),
        "hash" => r.is(HASH),
        "unbounded" => r.is(UNBOUNDED),
        _ => r.kind == OUTPUT_REQUIREMENT && r.variant == 1,
    }
}

/// A node's line, without its depth.
pub(crate) fn line(r: &Record) -> String {
    let mut out = name(r.kind).to_string();
    for field in fields::of_kind(r.kind) {
        match field {
            Field::Valued(name) => out.extend(value(r, name).map(|v| format!(" {name}={v}"))),
            Field::Mark(name) if is_marked(r, name) => out = out + " " + name,
            Field::Mark(_) => {}
        }
    }
    out
}

/// The text of a plan.
pub fn show(plan: &Plan) -> String {
    let lines = plan.root().walk().map(|(depth, node)| format!("{:indent$}{}\n", "", line(&node.record), indent = 2 * depth));
    lines.collect()
}
