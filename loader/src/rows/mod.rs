//! Rows for dry runs: those that wait on the streams of a plan's sources, and those that its root delivers.
//!
//! A row has a cell for each column, a signed 64-bit number or null. In bytes, little-endian as in a plan file, rows stand by
//! stream, in node and stream order: a row count in four, then by row the set of its null columns in four and each cell in eight,
//! 0 for a null. In a text a stream has a line with its place and a line for each of its rows; docs/TEXT.md has the form whole.
//!
//! ```
//! use sort_placement::rows::{self, Rows};
//!
//! let plan = sort_placement::text::parse("coalesce\n  source streams=2 width=2 keys=0").unwrap();
//! let given = rows::parse("source 1 stream 1  # pulse time, range\n5, -70\n8,\n", &plan).unwrap();
//! assert_eq!(given.streams, [vec![], vec![vec![Some(5), Some(-70)], vec![Some(8), None]]]);
//! assert_eq!(rows::show(&given, &plan), "source 1 stream 1\n5,-70\n8,null\n");
//! assert_eq!(Rows::read(&given.write(), &rows::source_streams(&plan)), Ok(given));
//! ```
mod bytes;
#[cfg(has_dry_run)]
mod deliver;
mod explain;
mod order;
mod parse;
mod show;
mod streams;

#[cfg(has_dry_run)]
pub use deliver::deliver;
pub use explain::explain;
pub use order::Order;
pub use parse::{parse, refused};
pub use show::{show, show_delivered, show_row};
pub use streams::{Stream, root_streams, source_streams};

/// A number, or null.
pub type Cell = Option<i64>;

/// A cell for each column.
pub type Row = Vec<Cell>;

/// The most rows that the sources of a plan can have together in a dry run.
pub const MOST_ROWS: usize = 256;

/// The rows of some streams, in node and stream order.
#[derive(Clone, Debug, Default, PartialEq, Eq)]
pub struct Rows {
    /// Each stream's rows, the first of a stream first.
    pub streams: Vec<Vec<Row>>,
}

impl Rows {
    /// How many there are on all streams.
    pub fn count(&self) -> usize {
        self.streams.iter().map(Vec::len).sum()
    }
}

#[cfg(test)]
mod tests;
