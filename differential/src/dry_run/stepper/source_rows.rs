//! Rows as bytes: per stream a row count in four, then by row the null set in four and each cell in eight, 0 for a null. Rows that break
//! this form, or what their source declares, are refused with 26.
use super::row::{Cell, Row, is_in_order};
use sort_placement::plan::{Node, Record, kind::SOURCE};

/// A source's rows by stream.
pub type SourceRows = Vec<Vec<Row>>;

/// The sources of a plan, by node number.
pub fn sources(plan: &Node) -> Vec<&Record> {
    plan.walk().map(|(_, node)| &node.record).filter(|r| r.kind == SOURCE).collect()
}

/// The bytes that are not read yet.
struct Bytes<'a>(&'a [u8]);

impl Bytes<'_> {
    fn take<const N: usize>(&mut self) -> Option<[u8; N]> {
        let (first, rest) = self.0.split_first_chunk()?;
        self.0 = rest;
        Some(*first)
    }

    fn number(&mut self) -> Option<u32> {
        self.take().map(u32::from_le_bytes)
    }

    /// A cell; a null's number is 0.
    fn cell(&mut self, is_null: bool) -> Option<Cell> {
        match (self.take().map(i64::from_le_bytes)?, is_null) {
            (number, false) => Some(Some(number)),
            (0, true) => Some(None),
            (_, true) => None,
        }
    }

    /// A row; no column above the width is null.
    fn row(&mut self, width: usize) -> Option<Row> {
        let nulls = self.number()? as u64;
        if nulls >> width != 0 {
            return None;
        }
        (0..width).map(|column| self.cell(nulls >> column & 1 == 1)).collect()
    }

    fn stream(&mut self, width: usize) -> Option<Vec<Row>> {
        let count = self.number()?;
        (0..count).map(|_| self.row(width)).collect()
    }
}

/// Document 01: a source's keys order each of its streams, each constant column has one cell value over them all. Null is a value.
fn keeps_what_is_declared(source: &Record, rows: &SourceRows) -> bool {
    let has_one_value = |column: usize| {
        let mut cells = rows.iter().flatten().map(|row| row[column]);
        cells.next().is_none_or(|first| cells.all(|cell| cell == first))
    };
    let mut constants = (0..source.width as usize).filter(|column| source.set >> column & 1 == 1);
    rows.iter().all(|stream| is_in_order(stream, &source.keys)) && constants.all(has_one_value)
}

/// The rows of sources, in node and stream order, whatever these declare; `None` where they break the form.
pub fn parsed(bytes: &[u8], sources: &[&Record]) -> Option<Vec<SourceRows>> {
    let mut bytes = Bytes(bytes);
    let mut rows = vec![];
    for source in sources {
        let streams = (0..source.streams).map(|_| bytes.stream(source.width as usize));
        rows.push(streams.collect::<Option<SourceRows>>()?);
    }
    bytes.0.is_empty().then_some(rows)
}

/// The same where the rows keep what is declared; `None` for refusal 26.
pub fn read(bytes: &[u8], sources: &[&Record]) -> Option<Vec<SourceRows>> {
    let rows = parsed(bytes, sources)?;
    let are_kept = sources.iter().zip(&rows).all(|(source, rows)| keeps_what_is_declared(source, rows));
    are_kept.then_some(rows)
}

fn null_set(row: &Row) -> u32 {
    (0..row.len()).filter(|column| row[*column].is_none()).fold(0, |set, column| set | 1 << column)
}

/// The bytes of streams, one after the other.
pub fn written(streams: &[Vec<Row>]) -> Vec<u8> {
    let mut bytes = vec![];
    for stream in streams {
        bytes.extend((stream.len() as u32).to_le_bytes());
        for row in stream {
            bytes.extend(null_set(row).to_le_bytes());
            row.iter().for_each(|cell| bytes.extend(cell.unwrap_or(0).to_le_bytes()));
        }
    }
    bytes
}
