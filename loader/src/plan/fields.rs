//! Refusals 4 and 6 of one record: its kind and children, and each field by the rule of its kind. Lists stand in `lists`.
use super::kind::*;
use super::record::{HASH, PRESERVE, UNBOUNDED};
use super::{MOST_COLUMNS, MOST_KEYS, NO_FETCH, number};
use crate::why::{Fault, counted};

/// Whether a record is a repartition by hash.
pub(super) fn is_hash(r: &[u8]) -> bool {
    r[0] == REPARTITION && r[3] & HASH != 0
}

/// Refusal 4.
pub(super) fn kind_fault(r: &[u8]) -> Option<Fault> {
    let (kind, children) = (r[0], r[1] as usize);
    if !is_known(kind) {
        return Fault::new("kind", format!("no kind has the number {kind}"));
    }
    let allowed = children_allowed(kind);
    if allowed.contains(&children) {
        return None;
    }
    let can_have = if kind == UNION { "2 to 8".into() } else { allowed.start().to_string() };
    Fault::new("children", format!("it has {}, and can have {can_have}", counted(children, "child", "children")))
}

/// A field that is wrong; one that the kind does not have must be zero.
fn outside(field: &'static str, verb: &str, value: u32, rule: Option<String>) -> Option<Fault> {
    let rule = rule.map_or("and it has none".into(), |r| format!("not {r}"));
    Fault::new(field, format!("{field} {verb} {value}, {rule}"))
}

fn streams_fault(r: &[u8]) -> Option<Fault> {
    match (r[0], r[2]) {
        (SOURCE | REPARTITION, 1..=64) => None,
        (SOURCE | REPARTITION, n) => outside("streams", "are", n.into(), Some("1 to 64".into())),
        (_, 0) => None,
        (_, n) => outside("streams", "are", n.into(), None),
    }
}

fn marks_fault(r: &[u8]) -> Option<Fault> {
    let allowed = match r[0] {
        SOURCE => UNBOUNDED,
        REPARTITION => PRESERVE | HASH,
        SORT | PARTIAL_SORT => PRESERVE,
        _ => 0,
    };
    let extra = r[3] & !allowed;
    let words = || format!("marks are {}, and bit {} is none of its own", r[3], extra.trailing_zeros());
    if extra == 0 { None } else { Fault::new("marks", words()) }
}

fn fetch_fault(r: &[u8]) -> Option<Fault> {
    let fetch = number(&r[4..]);
    match r[0] {
        LOCAL_LIMIT if fetch == NO_FETCH => Fault::new("fetch", "it has no fetch, and must have one".into()),
        kind if has_fetch(kind) || fetch == 0 => None,
        _ => outside("fetch", "is", fetch, None),
    }
}

fn skip_fault(r: &[u8]) -> Option<Fault> {
    let skip = number(&r[8..]);
    if r[0] == GLOBAL_LIMIT || skip == 0 { None } else { outside("skip", "is", skip, None) }
}

fn key_count_fault(r: &[u8]) -> Option<Fault> {
    let (kind, keys) = (r[0], r[12]);
    let wrong = |rule: &str| Fault::new("key count", format!("it has {}, {rule}", counted(keys as usize, "key", "keys")));
    let must = matches!(kind, SORT | MERGE | SORT_MERGE_JOIN | HASH_JOIN | PARTIAL_SORT | AGGREGATE) || is_hash(r);
    let may = must || matches!(kind, SOURCE | GLOBAL_LIMIT | LOCAL_LIMIT | OUTPUT_REQUIREMENT);
    match keys {
        0 if must => wrong("and needs one"),
        0 => None,
        _ if !may && kind == REPARTITION => wrong("and round robin has none"),
        _ if !may => wrong("and its kind has none"),
        n if n as usize > MOST_KEYS => wrong("more than 8"),
        _ => None,
    }
}

fn width_fault(r: &[u8]) -> Option<Fault> {
    let (kind, keys, width) = (r[0], r[12], r[13]);
    let fits = |least: u8| (least..=MOST_COLUMNS as u8).contains(&width);
    match kind {
        SOURCE | PROJECTION if fits(1) => None,
        SOURCE | PROJECTION => outside("width", "is", width.into(), Some("1 to 32".into())),
        AGGREGATE if fits(keys) => None,
        AGGREGATE => outside("width", "is", width.into(), Some(format!("{keys} (its group columns) to 32"))),
        _ if width == 0 => None,
        _ => outside("width", "is", width.into(), None),
    }
}

fn variant_fault(r: &[u8]) -> Option<Fault> {
    let (kind, keys, variant) = (r[0], r[12], r[14]);
    let wrong = |field, rule| outside(field, "is", variant.into(), rule);
    match kind {
        SORT_MERGE_JOIN | HASH_JOIN if variant > 7 => wrong("join type", Some("0 to 7".into())),
        OUTPUT_REQUIREMENT if variant > 2 => wrong("distribution", Some("0 to 2".into())),
        PARTIAL_SORT if keys == 1 => Fault::new("prefix", "it has one key, so no prefix can be met and a key be left".into()),
        PARTIAL_SORT if !(1..keys).contains(&variant) => wrong("prefix", Some(format!("1 to {}", keys - 1))),
        SORT_MERGE_JOIN | HASH_JOIN | OUTPUT_REQUIREMENT | PARTIAL_SORT => None,
        _ if variant == 0 => None,
        _ => outside("byte 14", "is", variant.into(), Some("zero".into())),
    }
}

fn byte_15_fault(r: &[u8]) -> Option<Fault> {
    if r[15] == 0 { None } else { outside("byte 15", "is", r[15].into(), Some("zero".into())) }
}

/// Refusal 6, of the fields that are numbers.
pub(super) fn number_fault(r: &[u8]) -> Option<Fault> {
    let rules = [streams_fault, marks_fault, fetch_fault, skip_fault, key_count_fault, width_fault, variant_fault, byte_15_fault];
    rules.iter().find_map(|rule| rule(r))
}
