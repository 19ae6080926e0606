//! Random plans and damaged files for the package's own tests, by a seeded generator. Every kind and every field comes.
use crate::Plan;
use crate::plan::kind::*;
use crate::plan::{self, BLOCK, HASH, MOST_BLOCKS, NO_FETCH, Node, PRESERVE, Record, UNBOUNDED};
use crate::random::Rng;

/// Distinct columns below a width, at least one.
fn columns(rng: &mut Rng, width: usize, most: usize) -> Vec<u8> {
    let mut all: Vec<u8> = (0..width as u8).collect();
    let count = (1 + rng.below(most)).min(width);
    (0..count).map(|_| all.swap_remove(rng.below(all.len()))).collect()
}

fn keys(rng: &mut Rng, width: usize) -> Vec<(u8, u8)> {
    let most = rng.pick(&[1, 2, 3, 8]);
    columns(rng, width, most).into_iter().map(|c| (c, rng.below(4) as u8)).collect()
}

fn plain_keys(rng: &mut Rng, width: usize) -> Vec<(u8, u8)> {
    keys(rng, width).into_iter().map(|k| (k.0, 0)).collect()
}

fn set(rng: &mut Rng, width: usize) -> u32 {
    columns(rng, width, 8).into_iter().fold(0, |set, c| set | 1 << c)
}

fn source(rng: &mut Rng) -> Node {
    let mut r = Record::new(SOURCE);
    r.width = rng.pick(&[1, 2, 3, 4, 5, 16, 32]);
    r.streams = rng.pick(&[1, 1, 2, 3, 64]);
    let width = r.width as usize;
    r.keys = if rng.one_in(2) { keys(rng, width) } else { vec![] };
    r.set = if rng.one_in(3) { set(rng, width) } else { 0 };
    r.marks = if rng.one_in(3) { UNBOUNDED } else { 0 };
    Node::new(r, vec![])
}

fn join(rng: &mut Rng, kind: u8, size: usize) -> Node {
    let left = 1 + rng.below(size - 2);
    let children = vec![tree(rng, left), tree(rng, size - 1 - left)];
    let (l, r) = (children[0].width(), children[1].width());
    let mut record = Record::new(kind);
    record.variant = if l + r > 32 { 4 + rng.below(4) as u8 } else { rng.below(8) as u8 };
    record.right = columns(rng, r, l.min(8));
    record.keys = columns(rng, l, 8).into_iter().map(|c| (c, 0)).collect();
    let count = record.right.len().min(record.keys.len());
    record.right.truncate(count);
    record.keys.truncate(count);
    if kind == SORT_MERGE_JOIN {
        record.keys.iter_mut().for_each(|k| k.1 = rng.below(4) as u8);
    }
    Node::new(record, children)
}

fn projection(rng: &mut Rng, child: Node, width: usize) -> Node {
    let mut r = Record { width: width as u8, ..Record::new(PROJECTION) };
    r.columns = (0..width).map(|_| rng.below(child.width()) as u8).collect();
    Node::new(r, vec![child])
}

fn union(rng: &mut Rng, size: usize) -> Node {
    let count = (2 + rng.below(7)).min(size - 1);
    let width = 1 + rng.below(4);
    let children = (0..count)
        .map(|_| {
            let child = tree(rng, 1.max((size - 1) / count - 1));
            projection(rng, child, width)
        })
        .collect();
    Node::new(Record::new(UNION), children)
}

/// The fields of a kind with one child.
fn fill(rng: &mut Rng, r: &mut Record, width: usize) {
    if has_fetch(r.kind) {
        r.fetch = if rng.one_in(2) || r.kind == LOCAL_LIMIT { rng.pick(&[0, 1, 5, NO_FETCH - 1]) } else { NO_FETCH };
    }
    match r.kind {
        REPARTITION => {
            r.streams = rng.pick(&[1, 2, 64]);
            r.marks = rng.pick(&[0, PRESERVE, HASH, HASH | PRESERVE]);
            r.keys = if r.is(HASH) { plain_keys(rng, width) } else { vec![] };
        }
        SORT | MERGE | PARTIAL_SORT => r.keys = keys(rng, width),
        GLOBAL_LIMIT | LOCAL_LIMIT | OUTPUT_REQUIREMENT if rng.one_in(2) => r.keys = keys(rng, width),
        AGGREGATE => {
            r.keys = plain_keys(rng, width);
            r.width = (r.keys.len() + rng.below(3)) as u8;
        }
        _ => {}
    }
    match r.kind {
        SORT | PARTIAL_SORT if rng.one_in(2) => r.marks = PRESERVE,
        GLOBAL_LIMIT => r.skip = rng.pick(&[0, 0, 3, u32::MAX]),
        OUTPUT_REQUIREMENT => {
            r.variant = rng.below(3) as u8;
            r.set = if r.variant == 2 { set(rng, width) } else { 0 };
        }
        _ => {}
    }
    if r.kind == PARTIAL_SORT && r.keys.len() > 1 {
        r.variant = 1 + rng.below(r.keys.len() - 1) as u8;
    }
}

fn tree(rng: &mut Rng, size: usize) -> Node {
    if size <= 1 {
        return source(rng);
    }
    match 2 + rng.below(14) as u8 {
        UNION if size >= 3 => union(rng, size),
        kind @ (SORT_MERGE_JOIN | HASH_JOIN) if size >= 3 => join(rng, kind, size),
        PROJECTION => {
            let child = tree(rng, size - 1);
            let width = 1 + rng.below(5);
            projection(rng, child, width)
        }
        kind => {
            let kind = if kind == UNION || is_join(kind) { SORT } else { kind };
            let child = tree(rng, size - 1);
            let mut r = Record::new(kind);
            fill(rng, &mut r, child.width());
            Node::new(r, vec![child])
        }
    }
}

/// An accepted plan of 1 to 126 nodes.
pub fn plan(rng: &mut Rng) -> Plan {
    loop {
        let size = rng.pick(&[1, 2, 3, 5, 8, 8, 12, 20, 60, 126]);
        let node = tree(rng, size);
        if let Ok(plan) = Plan::read(&plan::write(&node)) {
            return plan;
        }
    }
}

/// Where a record of one of the kinds stands, if the file has one.
fn record_of(rng: &mut Rng, file: &[u8], kinds: &[u8]) -> Option<usize> {
    let blocks = file.chunks(BLOCK).enumerate();
    let starts = blocks.flat_map(|(i, b)| (0..(b[4] as usize).min(7)).map(move |r| i * BLOCK + 8 + 64 * r));
    let found: Vec<usize> = starts.filter(|at| kinds.contains(&file[*at])).collect();
    (!found.is_empty()).then(|| rng.pick(&found))
}

/// Another child count on a union, a join that keeps both sides' columns, a wider source, another column: refusals 5 to 8.
fn damage_tree(rng: &mut Rng, file: &mut [u8]) {
    let (kinds, place, value): (&[u8], usize, usize) = match rng.below(4) {
        0 => (&[UNION], 1, 2 + rng.below(7)),
        1 => (&[SORT_MERGE_JOIN, HASH_JOIN], 14, rng.below(4)),
        2 => (&[SOURCE], 13, 1 + rng.below(32)),
        _ => (&[SORT, MERGE, HASH_JOIN, AGGREGATE], 16, rng.below(33)),
    };
    if let Some(at) = record_of(rng, file, kinds) {
        file[at + place] = value as u8;
    }
}

fn damage_once(rng: &mut Rng, file: &mut [u8]) {
    let block = BLOCK * rng.below(file.len() / BLOCK);
    let record = block + 8 + 64 * rng.below((file[block + 4] as usize).clamp(1, 7));
    match rng.below(15) {
        0 => file[block + rng.below(8)] = rng.below(9) as u8,
        1 => file[block + rng.below(508)] ^= 1 << rng.below(8),
        2 => file[record] = rng.below(17) as u8,
        3 => file[record + 1] = rng.below(9) as u8,
        4 => file[record + rng.below(16)] = rng.next() as u8,
        5 => file[record + 12 + rng.below(3)] = rng.below(34) as u8,
        6 => file[record + 14] = rng.below(4) as u8,
        7 => file[record + 16 + rng.below(16)] = rng.below(9) as u8,
        8 => file[record + 32 + rng.below(32)] = rng.below(34) as u8,
        9 => file[record + rng.pick(&[2, 3, 4, 8, 13, 15, 36, 63])] = rng.below(4) as u8,
        _ => damage_tree(rng, file),
    }
}

/// A copy of a file with one to three faults; most have their sums put right again.
pub fn damaged(rng: &mut Rng, file: &[u8]) -> Vec<u8> {
    let mut file = file.to_vec();
    for _ in 0..rng.pick(&[1, 1, 2, 3]) {
        damage_once(rng, &mut file);
    }
    if !rng.one_in(12) {
        file.chunks_mut(BLOCK).for_each(plan::repair_sum);
    }
    if rng.one_in(40) {
        file.truncate(rng.below(file.len()));
    }
    if rng.one_in(60) {
        file.resize(rng.pick(&[0, 511, 513, MOST_BLOCKS * BLOCK, (MOST_BLOCKS + 1) * BLOCK]), 0);
    }
    file
}

#[cfg(test)]
mod tests {
    use super::*;

    #[test]
    fn every_kind_comes() {
        let mut seen = [false; 16];
        let mut rng = Rng::new(1, 0);
        for _ in 0..500 {
            plan(&mut rng).root().walk().for_each(|(_, n)| seen[n.record.kind as usize] = true);
        }
        assert!(seen[1..].iter().all(|s| *s), "{seen:?}");
    }
}
