//! A plan file read, written, and explained where it is refused.
use super::blocks::{self, MOST_RECORDS, RECORD, RECORDS_FROM};
use super::{BLOCK, Node, Record, columns, fields, lists};
use crate::Refusal;
use crate::why::{Fault, Why, counted};

/// The records of a file whose blocks are right, one after another.
pub(super) fn each_record(file: &[u8]) -> impl DoubleEndedIterator<Item = &[u8]> {
    file.chunks(BLOCK).flat_map(|b| b[RECORDS_FROM..RECORDS_FROM + RECORD * b[4] as usize].chunks(RECORD))
}

/// The same, by number.
fn records(file: &[u8]) -> Vec<&[u8]> {
    each_record(file).collect()
}

/// Refusal 5 where records are left over: the root's tree ends before the last of them.
fn left_over(records: &[&[u8]]) -> Option<Why> {
    let mut wanted = 1usize;
    for (node, r) in records.iter().enumerate() {
        if wanted == 0 {
            let left = counted(records.len() - node, "record is", "records are");
            return Some(Why::of_file(
                Refusal::Shape,
                &format!("the root's tree ends with node {}, and {left} left over", node - 1),
            ));
        }
        wanted = wanted - 1 + r[1] as usize;
    }
    None
}

/// Refusal 5 where records are missing, counted from the last: each takes its children from the trees that are finished.
fn missing(records: &[&[u8]]) -> Option<Why> {
    let mut finished = 0usize;
    for (node, r) in records.iter().enumerate().rev() {
        let children = r[1] as usize;
        if finished < children {
            let has = counted(children, "child", "children");
            let words = format!("it has {has}, and {finished} of them in the file: records are missing");
            return Some(Why::of_node(Refusal::Shape, node, r[0], Fault { field: "children", words }));
        }
        finished = finished - children + 1;
    }
    None
}

/// Why documents 01 and 02 refuse a file, in their order of refusals; `None` where they accept it.
pub(crate) fn explain(file: &[u8]) -> Option<Why> {
    if let Some(why) = blocks::fault(file) {
        return Some(why);
    }
    let records = records(file);
    let first = |refusal: Refusal, rule: fn(&[u8]) -> Option<Fault>| {
        records.iter().enumerate().find_map(|(i, r)| Some(Why::of_node(refusal, i, r[0], rule(r)?)))
    };
    first(Refusal::Kind, fields::kind_fault)
        .or_else(|| left_over(&records))
        .or_else(|| missing(&records))
        .or_else(|| first(Refusal::Field, |r| fields::number_fault(r).or_else(|| lists::fault(r))))
        .or_else(|| columns::fault(&records))
}

/// The plan of a file, or its refusal's number.
///
/// # Errors
///
/// The number of the refusal that documents 01 and 02 give.
pub fn read(file: &[u8]) -> Result<Node, u32> {
    match explain(file) {
        Some(why) => Err(why.refusal.number()),
        None => Ok(tree(file)),
    }
}

/// The tree of an accepted file.
pub(crate) fn tree(file: &[u8]) -> Node {
    let mut finished: Vec<Node> = vec![];
    for r in records(file).iter().rev() {
        // the trees that are finished last come first in the file
        let mut children = finished.split_off(finished.len() - r[1] as usize);
        children.reverse();
        finished.push(Node::new(Record::read(r), children));
    }
    finished.pop().expect("an accepted file has a root")
}

fn put_records(node: &Node, out: &mut Vec<[u8; 64]>) {
    out.push(node.record.write(node.children.len()));
    for child in &node.children {
        put_records(child, out);
    }
}

/// Puts the right sum into a block.
///
/// # Panics
///
/// Where the block is shorter than 512 bytes.
pub fn repair_sum(block: &mut [u8]) {
    blocks::put_sum(block);
}

/// The file of a plan.
///
/// # Panics
///
/// Where a list of a record is longer than its place in the file.
pub fn write(plan: &Node) -> Vec<u8> {
    let mut records = vec![];
    put_records(plan, &mut records);
    let total = records.len().div_ceil(MOST_RECORDS);
    let mut file = vec![0u8; total * BLOCK];
    for (at, (block, group)) in file.chunks_mut(BLOCK).zip(records.chunks(MOST_RECORDS)).enumerate() {
        block[0..2].copy_from_slice(&(at as u16).to_le_bytes());
        block[2..4].copy_from_slice(&(total as u16).to_le_bytes());
        block[4] = group.len() as u8;
        for (i, r) in group.iter().enumerate() {
            let from = RECORDS_FROM + RECORD * i;
            block[from..from + RECORD].copy_from_slice(r);
        }
        blocks::put_sum(block);
    }
    file
}
