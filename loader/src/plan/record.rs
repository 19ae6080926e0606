//! A node's record, from the file's 64 bytes and to them.
use super::kind::{OUTPUT_REQUIREMENT, PROJECTION, SOURCE, has_fetch, is_join};
use super::{NO_FETCH, number};

/// The mark of a sort, a partial sort or a repartition that keeps its streams or their order.
pub const PRESERVE: u8 = 1;
/// The mark of a repartition by hash.
pub const HASH: u8 = 2;
/// The mark of a source without end.
pub const UNBOUNDED: u8 = 4;

/// A record's fields; those that its kind has no use for are zero or empty.
#[derive(Clone, Debug, PartialEq, Eq)]
pub struct Record {
    /// the kind's number
    pub kind: u8,
    /// of a source, a repartition
    pub streams: u8,
    /// [`PRESERVE`], [`HASH`], [`UNBOUNDED`] by bits
    pub marks: u8,
    /// [`NO_FETCH`] for none
    pub fetch: u32,
    /// of a global limit
    pub skip: u32,
    /// column and options; an aggregate's group columns
    pub keys: Vec<(u8, u8)>,
    /// of a source, a projection, an aggregate
    pub width: u8,
    /// join type, distribution, or a partial sort's met prefix
    pub variant: u8,
    /// a source's constants, an output requirement's keyed columns
    pub set: u32,
    /// a projection's child columns
    pub columns: Vec<u8>,
    /// a join's right key columns
    pub right: Vec<u8>,
}

impl Record {
    /// All fields zero, and no fetch where the kind has one.
    pub fn new(kind: u8) -> Record {
        let fetch = if has_fetch(kind) { NO_FETCH } else { 0 };
        Record {
            kind,
            streams: 0,
            marks: 0,
            fetch,
            skip: 0,
            keys: vec![],
            width: 0,
            variant: 0,
            set: 0,
            columns: vec![],
            right: vec![],
        }
    }

    /// Whether it has a mark.
    pub fn is(&self, mark: u8) -> bool {
        self.marks & mark != 0
    }

    /// The fetch, if the kind has one and it is given.
    pub fn fetch(&self) -> Option<u32> {
        (has_fetch(self.kind) && self.fetch != NO_FETCH).then_some(self.fetch)
    }

    /// A join's right keys, with the left keys' options.
    pub fn right_keys(&self) -> Vec<(u8, u8)> {
        self.right.iter().zip(&self.keys).map(|(c, k)| (*c, k.1)).collect()
    }

    /// The record of bytes whose counts are right.
    pub(super) fn read(bytes: &[u8]) -> Record {
        let (kind, keys) = (bytes[0], bytes[12] as usize);
        Record {
            kind,
            streams: bytes[2],
            marks: bytes[3],
            fetch: number(&bytes[4..]),
            skip: number(&bytes[8..]),
            keys: (0..keys).map(|i| (bytes[16 + 2 * i], bytes[17 + 2 * i])).collect(),
            width: bytes[13],
            variant: bytes[14],
            set: if kind == SOURCE || kind == OUTPUT_REQUIREMENT { number(&bytes[32..]) } else { 0 },
            columns: if kind == PROJECTION { bytes[32..32 + bytes[13] as usize].to_vec() } else { vec![] },
            right: if is_join(kind) { bytes[32..32 + keys].to_vec() } else { vec![] },
        }
    }

    /// Its bytes. Lists are no longer than their place.
    pub(super) fn write(&self, children: usize) -> [u8; 64] {
        let mut bytes = [0u8; 64];
        bytes[0] = self.kind;
        bytes[1] = children as u8;
        bytes[2] = self.streams;
        bytes[3] = self.marks;
        bytes[4..8].copy_from_slice(&self.fetch.to_le_bytes());
        bytes[8..12].copy_from_slice(&self.skip.to_le_bytes());
        bytes[12] = self.keys.len() as u8;
        bytes[13] = self.width;
        bytes[14] = self.variant;
        for (i, key) in self.keys.iter().enumerate() {
            bytes[16 + 2 * i] = key.0;
            bytes[17 + 2 * i] = key.1;
        }
        bytes[32..36].copy_from_slice(&self.set.to_le_bytes());
        let columns = if self.kind == PROJECTION { &self.columns } else { &self.right };
        if !columns.is_empty() {
            bytes[32..32 + columns.len()].copy_from_slice(columns);
        }
        bytes
    }
}
