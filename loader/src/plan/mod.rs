//! A plan as a tree of records, read from a plan file and written to one, by the text of documents 01 and 02 alone.
//!
//! A record is held as the file has it, so a tree can be built here that no file holds; what reads such a tree can panic. A
//! [`Plan`](crate::Plan) is a tree that was checked.
mod blocks;
mod columns;
mod fields;
mod file;
pub mod kind;
mod lists;
mod node;
mod record;
#[cfg(has_dry_run)]
mod root_streams;

pub use file::{read, repair_sum, write};
pub use node::Node;
pub use record::{HASH, PRESERVE, Record, UNBOUNDED};

pub(crate) use file::{explain, tree};
#[cfg(has_dry_run)]
pub(crate) use root_streams::root_streams;

/// Bytes of a block.
pub const BLOCK: usize = 512;
/// Blocks of the longest file.
pub const MOST_BLOCKS: usize = 18;
/// Nodes of the largest plan.
pub const MOST_NODES: usize = 126;
/// What stands in a record's fetch where there is none.
pub const NO_FETCH: u32 = u32::MAX;
/// Columns of the widest node.
pub const MOST_COLUMNS: usize = 32;
/// Keys of the longest list.
pub const MOST_KEYS: usize = 8;
/// Streams of a plan's sources together: at most 110 of 126 nodes are sources, and a source has up to 64. No node has more.
pub const MOST_STREAMS: usize = 110 * 64;

/// Four bytes as a number.
pub(crate) fn number(bytes: &[u8]) -> u32 {
    u32::from_le_bytes([bytes[0], bytes[1], bytes[2], bytes[3]])
}

#[cfg(test)]
mod tests;
