//! The text of rows, in normal layout.
use super::{Cell, Row, Rows, source_streams};
use crate::Plan;

/// A row's line: its cells with commas between, `null` for a null.
pub fn show_row(row: &[Cell]) -> String {
    let cells = row.iter().map(|cell| cell.map_or("null".into(), |number| number.to_string()));
    cells.collect::<Vec<_>>().join(",")
}

fn lines(head: String, rows: &[Row]) -> String {
    rows.iter().fold(head + "\n", |text, row| text + &show_row(row) + "\n")
}

/// The text of the rows of a plan's sources. A stream that has none is left out.
pub fn show(rows: &Rows, plan: &Plan) -> String {
    let streams = source_streams(plan);
    let filled = streams.iter().zip(&rows.streams).filter(|(_, rows)| !rows.is_empty());
    filled.map(|(s, rows)| lines(format!("source {} stream {}", s.node, s.stream), rows)).collect()
}

/// The same form for the rows that a dry run delivers: each stream of the root, also one that has none.
///
/// ```
/// use sort_placement::rows::{Rows, show_delivered};
///
/// let delivered = Rows { streams: vec![vec![vec![Some(1), None], vec![Some(2), Some(-3)]], vec![]] };
/// assert_eq!(show_delivered(&delivered), "stream 0\n1,null\n2,-3\nstream 1\n");
/// ```
pub fn show_delivered(rows: &Rows) -> String {
    rows.streams.iter().enumerate().map(|(stream, rows)| lines(format!("stream {stream}"), rows)).collect()
}
