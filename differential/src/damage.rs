//! Damaged files through every export: the number that documents 01 and 02 give, and no byte written outside of the answer.
use crate::library;
use crate::random_plans::{self, Rng};
use crate::rust_side;
use sort_placement::exports::{ALL, Call};
use sort_placement::plan::{self, BLOCK, MOST_BLOCKS, kind::*};
use std::collections::BTreeMap;

/// Where the first record of one of the kinds stands, from record `from` on.
fn record_of(file: &[u8], kinds: &[u8], from: usize) -> Option<usize> {
    let mut starts = (0..file.len() / BLOCK).flat_map(|b| (0..7).map(move |i| b * BLOCK + 8 + 64 * i)).skip(from);
    starts.find(|at| kinds.contains(&file[*at]))
}

/// Another child count on a union, or a join that keeps both sides' columns: refusals 5 and 8.
fn reshape(rng: &mut Rng, file: &mut [u8]) {
    let from = rng.below(7);
    if rng.one_in(2) {
        if let Some(at) = record_of(file, &[UNION], from) {
            file[at + 1] = 2 + rng.below(7) as u8;
        }
    } else if let Some(at) = record_of(file, &[SORT_MERGE_JOIN, HASH_JOIN], from) {
        file[at + 14] = rng.below(4) as u8;
    }
}

/// An aggregate's width beside its key count, options on a group column, no key or nine, a column twice or too high, a field that it
/// has no use for: refusals 6 and 7.
fn regroup(rng: &mut Rng, file: &mut [u8]) {
    let from = rng.below(7);
    let Some(at) = record_of(file, &[AGGREGATE], from) else { return };
    let (place, value) = match rng.below(6) {
        0 => (13, (file[at + 12] as usize + rng.below(3)).wrapping_sub(1) as u8),
        1 => (13, 31 + rng.below(3) as u8),
        2 => (17 + 2 * rng.below(8), 1 + rng.below(3) as u8),
        3 => (12, rng.pick(&[0, 1, 8, 9])),
        4 => (16 + 2 * rng.below(8), rng.below(4) as u8),
        _ => (rng.pick(&[1, 2, 3, 4, 8, 14, 15, 32, 63]), rng.below(3) as u8),
    };
    file[at + place] = value;
}

fn damage_once(rng: &mut Rng, file: &mut [u8]) {
    let block = BLOCK * rng.below(file.len() / BLOCK);
    let records = (file[block + 4] as usize).clamp(1, 7);
    let record = block + 8 + 64 * rng.below(records);
    let field = [0, 1, 2, 3, 4, 7, 8, 12, 13, 14, 15, 16, 17, 18, 19, 31, 32, 33, 35, 36, 63][rng.below(21)];
    match rng.below(11) {
        0 => file[block + rng.below(8)] = rng.below(9) as u8,
        1 => file[block + rng.below(508)] ^= 1 << rng.below(8),
        2 => {
            let padding = 8 + 64 * records;
            if padding < 508 {
                file[block + padding + rng.below(508 - padding)] = 1;
            }
        }
        3 => file[record + field] = rng.next() as u8,
        4 => file[record + field] = rng.below(9) as u8,
        5 => file[record] = rng.below(17) as u8,
        6 => file[record + 16 + rng.below(48)] = rng.below(34) as u8,
        7 => file[record + 32 + rng.below(4)] = rng.next() as u8,
        8 => regroup(rng, file),
        _ => reshape(rng, file),
    }
}

/// A copy with one to three faults; most have their sums put right again.
pub fn damaged(rng: &mut Rng, file: &[u8]) -> Vec<u8> {
    let mut copy = file.to_vec();
    for _ in 0..1 + rng.below(3) {
        damage_once(rng, &mut copy);
    }
    if !rng.one_in(12) {
        copy.chunks_mut(BLOCK).for_each(plan::repair_sum);
    }
    if rng.one_in(40) {
        copy.truncate(rng.below(copy.len()));
    }
    if rng.one_in(40) {
        copy.resize(rng.pick(&[0, 511, 513, MOST_BLOCKS * BLOCK, (MOST_BLOCKS + 1) * BLOCK]), 0);
    }
    copy
}

/// Whether all exports answered as documents 01 and 02 say. A file is refused by `explain`, so that what the package says of a refused
/// file is held to the library's number here. With `heap` the buffers are allocations of just their length, so that a
/// memory checker sees a step outside.
pub fn run(files: u64, seed: u64, heap: bool) -> bool {
    let calls: Vec<Call> = ALL.into_iter().filter(|c| c.is_present()).collect();
    let mut seen: BTreeMap<u32, u64> = BTreeMap::new();
    for i in 0..files {
        if i % 100_000 == 0 {
            eprintln!("{i} files");
        }
        let mut rng = Rng::new(seed, i);
        let whole = plan::write(&random_plans::plan(&mut rng));
        let file = if rng.one_in(10) { whole } else { damaged(&mut rng, &whole) };
        for call in &calls {
            let call = match call {
                Call::Preserve(_) => Call::Preserve(std::array::from_fn(|_| rng.below(2) as u8)),
                Call::Partial(_) => Call::Partial(rng.below(30) as u32),
                other => *other,
            };
            let room = if call == Call::Check { 1 } else { rng.pick(&[0, 511, 512, 4608, MOST_BLOCKS * BLOCK]) };
            let want = rust_side::answer(call, &file, room);
            *seen.entry(want.number).or_default() += 1;
            let got = if heap { library::answer_on_heap(call, &file, room) } else { library::answer(call, &file, room) };
            match got.expect("a call that is present") {
                Ok(got) if (got.number, &got.bytes) == (want.number, &want.bytes) => {}
                Ok(got) => {
                    println!("file {i} of seed {seed}: {call:?} gives {}, the documents {}", got.number, want.number);
                    return false;
                }
                Err(why) => {
                    println!("file {i} of seed {seed}: {why}");
                    return false;
                }
            }
        }
    }
    let answers: Vec<String> = seen.iter().map(|(number, n)| format!("{number}: {n}")).collect();
    println!("{files} files through {} exports, all as the documents say, by number: {}", calls.len(), answers.join(", "));
    true
}
