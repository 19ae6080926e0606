//! Refusal 6 of a record's lists: the keys' options, a keyed set, and zeros behind each list. The counts are right.
use super::fields::is_hash;
use super::kind::*;
use super::number;
use crate::why::Fault;

const KEYS: usize = 16;
const REST: usize = 32;

fn options_fault(r: &[u8]) -> Option<Fault> {
    let plain = matches!(r[0], HASH_JOIN | AGGREGATE) || is_hash(r);
    let most = if plain { 0 } else { 3 };
    let options = (0..r[12] as usize).map(|i| r[KEYS + 1 + 2 * i]);
    let (i, wrong) = options.enumerate().find(|(_, o)| *o > most)?;
    let rule = if plain { "its keys have none" } else { "only bits 0 and 1 have a meaning" };
    Fault::new("keys", format!("key {i} has options {wrong}, and {rule}"))
}

fn keyed_fault(r: &[u8]) -> Option<Fault> {
    let ones = number(&r[REST..]).count_ones();
    let wrong = r[0] == OUTPUT_REQUIREMENT && r[14] == 2 && !(1..=8).contains(&ones);
    wrong.then(|| Fault { field: "keyed columns", words: format!("it has {ones} keyed columns, not 1 to 8") })
}

/// Zeros behind the keys, and behind what stands from byte 32.
fn zeros_fault(r: &[u8]) -> Option<Fault> {
    let (keys, width) = (r[12] as usize, r[13] as usize);
    let used = match r[0] {
        SOURCE => 4,
        OUTPUT_REQUIREMENT if r[14] == 2 => 4,
        PROJECTION => width,
        SORT_MERGE_JOIN | HASH_JOIN => keys,
        _ => 0,
    };
    let zeros = (KEYS + 2 * keys..REST).chain(REST + used..r.len());
    let wrong = zeros.into_iter().find(|i| r[*i] != 0)?;
    Fault::new("unused bytes", format!("its byte {wrong} is {}, and unused bytes are zero", r[wrong]))
}

/// Refusal 6, of the lists.
pub(super) fn fault(r: &[u8]) -> Option<Fault> {
    options_fault(r).or_else(|| keyed_fault(r)).or_else(|| zeros_fault(r))
}
