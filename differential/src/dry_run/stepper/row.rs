//! Rows, and how two of them compare: document 01, 'Rows'.
use sort_placement::facts::Key;
use std::cmp::Ordering;

/// A signed number, or none for null.
pub type Cell = Option<i64>;
/// A cell for each column.
pub type Row = Vec<Cell>;

/// Nulls are peers, and their placement doesn't turn with descending.
fn compare_cells(a: Cell, b: Cell, options: u8) -> Ordering {
    let (is_descending, nulls_first) = (options & 1 != 0, options & 2 != 0);
    match (a, b) {
        (None, None) => Ordering::Equal,
        (Some(a), Some(b)) if is_descending => b.cmp(&a),
        (Some(a), Some(b)) => a.cmp(&b),
        (None, Some(_)) if nulls_first => Ordering::Less,
        (None, Some(_)) => Ordering::Greater,
        (Some(_), None) if nulls_first => Ordering::Greater,
        (Some(_), None) => Ordering::Less,
    }
}

/// Rows compare at the first key where they differ; peers are equal.
pub fn compare(a: &Row, b: &Row, keys: &[Key]) -> Ordering {
    let cells = keys.iter().map(|(column, options)| compare_cells(a[*column as usize], b[*column as usize], *options));
    cells.into_iter().find(|c| c.is_ne()).unwrap_or(Ordering::Equal)
}

/// Whether no row of a stream sorts before an earlier one.
pub fn is_in_order(stream: &[Row], keys: &[Key]) -> bool {
    stream.windows(2).all(|two| compare(&two[0], &two[1], keys).is_le())
}
