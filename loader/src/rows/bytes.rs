//! Rows in bytes and back. What breaks the form is told by its stream and row.
use super::{Cell, Row, Rows, Stream};
use crate::Refusal;
use crate::plan::{MOST_COLUMNS, number};
use crate::why::{Fault, Why, counted};

/// A row's null columns by bits.
fn null_set(row: &[Cell]) -> u32 {
    let nulls = row.iter().take(MOST_COLUMNS).enumerate().filter(|(_, cell)| cell.is_none());
    nulls.fold(0, |set, (column, _)| set | 1 << column)
}

fn read_row(bytes: &[u8], width: usize) -> Result<Row, Fault> {
    let (nulls, cells) = (number(bytes), &bytes[4..]);
    // bits at or above the width
    let above = nulls & u32::MAX.checked_shl(width as u32).unwrap_or(0);
    if above != 0 {
        let words = format!("null column {} is not below its width {width}", above.trailing_zeros());
        return Err(Fault { field: "null columns", words });
    }
    let cells = cells.chunks_exact(8).map(|c| i64::from_le_bytes(c.try_into().expect("eight bytes")));
    let cell = |(column, value): (usize, i64)| match (nulls >> column & 1 == 1, value) {
        (false, value) => Ok(Some(value)),
        (true, 0) => Ok(None),
        (true, value) => Err(Fault { field: "cells", words: format!("column {column} is null, and its cell is {value}, not 0") }),
    };
    cells.enumerate().map(cell).collect()
}

/// The rows of the stream at the front, and the bytes behind them.
fn read_stream<'a>(bytes: &'a [u8], stream: &Stream) -> Result<(Vec<Row>, &'a [u8]), Why> {
    let why = |row, fault| Why::of_row(stream, row, fault);
    let missing = |words: &str| Fault { field: "bytes", words: words.into() };
    let Some((count, mut rest)) = bytes.split_first_chunk::<4>() else {
        return Err(why(None, missing("the bytes end before its row count does")));
    };
    let count = number(count) as usize;
    let mut rows = vec![];
    for row in 0..count {
        let Some((own, behind)) = rest.split_at_checked(4 + 8 * stream.width) else {
            let words = format!("the bytes end before it does, and the stream has {}", counted(count, "row", "rows"));
            return Err(why(Some(row), missing(&words)));
        };
        rows.push(read_row(own, stream.width).map_err(|fault| why(Some(row), fault))?);
        rest = behind;
    }
    Ok((rows, rest))
}

impl Rows {
    /// The bytes of rows. Rows that are as wide as their streams can be read again.
    pub fn write(&self) -> Vec<u8> {
        let mut out = vec![];
        for stream in &self.streams {
            out.extend((stream.len() as u32).to_le_bytes());
            for row in stream {
                out.extend(null_set(row).to_le_bytes());
                out.extend(row.iter().flat_map(|cell| cell.unwrap_or(0).to_le_bytes()));
            }
        }
        out
    }

    /// The rows of bytes, one stream after another.
    ///
    /// # Errors
    ///
    /// Where the bytes break the form, which is refusal 26 of a dry run, and the place.
    ///
    /// ```
    /// use sort_placement::rows::{Rows, source_streams};
    ///
    /// let plan = sort_placement::text::parse("source streams=1 width=1").unwrap();
    /// let bytes = [1, 0, 0, 0, 1, 0, 0, 0, 7, 0, 0, 0, 0, 0, 0, 0];
    /// let why = Rows::read(&bytes, &source_streams(&plan)).unwrap_err();
    /// assert_eq!(why.to_string(), "refusal 26: node 0 (source): stream 0, row 0: column 0 is null, and its cell is 7, not 0");
    /// ```
    pub fn read(bytes: &[u8], streams: &[Stream]) -> Result<Rows, Why> {
        let (mut rows, mut rest) = (Rows::default(), bytes);
        for stream in streams {
            let (own, behind) = read_stream(rest, stream)?;
            rows.streams.push(own);
            rest = behind;
        }
        if rest.is_empty() {
            return Ok(rows);
        }
        let left = counted(rest.len(), "byte is", "bytes are");
        Err(Why::of_file(Refusal::WrongRows, &format!("{left} left over behind the rows of the last stream")))
    }
}
