//! Refusals 1, 2 and 3: a file as blocks.
use super::{BLOCK, MOST_BLOCKS, number};
use crate::Refusal;
use crate::why::{Fault, Why, counted};

/// A block's records and what stands around them.
pub(super) const RECORDS_FROM: usize = 8;
pub(super) const RECORD: usize = 64;
pub(super) const MOST_RECORDS: usize = 7;
const SUM_AT: usize = 508;

/// The sum that a block should have.
pub(super) fn sum(block: &[u8]) -> u32 {
    block[..SUM_AT].iter().map(|b| *b as u32).sum()
}

/// Puts the right sum into a block.
pub(super) fn put_sum(block: &mut [u8]) {
    let right = sum(block);
    block[SUM_AT..BLOCK].copy_from_slice(&right.to_le_bytes());
}

fn length_fault(length: usize) -> Option<&'static str> {
    match length {
        0 => Some("the file is empty"),
        n if n > MOST_BLOCKS * BLOCK => Some("the file is longer than 18 blocks, 9216 bytes"),
        n if !n.is_multiple_of(BLOCK) => Some("the file's length is no multiple of 512"),
        _ => None,
    }
}

fn sum_fault(block: &[u8]) -> Option<Fault> {
    let (said, right) = (number(&block[SUM_AT..]), sum(block));
    if said == right { None } else { Fault::new("sum", format!("its sum is {said}, that of its bytes 0 to 507 is {right}")) }
}

fn header_fault(block: &[u8], at: usize, total: usize) -> Option<Fault> {
    let half = |i: usize| u16::from_le_bytes([block[i], block[i + 1]]) as usize;
    let count = block[4] as usize;
    if half(0) != at {
        return Fault::new("number", format!("its number is {}", half(0)));
    }
    if half(2) != total {
        return Fault::new("block total", format!("its block total is {}, the file has {total}", half(2)));
    }
    if at + 1 < total && count != MOST_RECORDS {
        return Fault::new("records", format!("it has {}; a block before the last has 7", counted(count, "record", "records")));
    }
    if !(1..=MOST_RECORDS).contains(&count) {
        return Fault::new("records", format!("it has {count} records, not 1 to 7"));
    }
    let zeros = (5..RECORDS_FROM).chain(RECORDS_FROM + RECORD * count..SUM_AT);
    let wrong = zeros.into_iter().find(|i| block[*i] != 0)?;
    Fault::new("padding", format!("its byte {wrong} is {}, not zero", block[wrong]))
}

/// The first of these refusals, each over all blocks.
pub(super) fn fault(file: &[u8]) -> Option<Why> {
    if let Some(words) = length_fault(file.len()) {
        return Some(Why::of_file(Refusal::Length, words));
    }
    let total = file.len() / BLOCK;
    let blocks = || file.chunks(BLOCK).enumerate();
    let sums = || blocks().find_map(|(i, b)| Some(Why::of_block(Refusal::Sum, i, sum_fault(b)?)));
    let headers = || blocks().find_map(|(i, b)| Some(Why::of_block(Refusal::Header, i, header_fault(b, i, total)?)));
    sums().or_else(headers)
}
