//! A request and an answer, told.
use super::stepper::row::Row;
use super::stepper::source_rows::{SourceRows, parsed, sources};
use super::{Answer, Request};
use sort_placement::{Plan, listing, plan, text};

fn hex(bytes: &[u8]) -> String {
    if bytes.is_empty() { "-".into() } else { bytes.iter().map(|byte| format!("{byte:02x}")).collect() }
}

pub fn shown(answer: &Answer) -> String {
    format!("{} {}", answer.number, hex(&answer.bytes))
}

/// Rows as `1,-,3 4,5,6 | 7,8,9`: a hyphen for null, a bar between streams.
fn rows_text(streams: &SourceRows) -> String {
    let row = |row: &Row| row.iter().map(|cell| cell.map_or("-".into(), |n| n.to_string())).collect::<Vec<_>>().join(",");
    let stream = |rows: &Vec<Row>| rows.iter().map(row).collect::<Vec<_>>().join(" ");
    streams.iter().map(stream).collect::<Vec<_>>().join(" | ")
}

/// A line for each source, where the bytes have the form of its rows.
fn sources_text(request: &Request) -> Option<String> {
    let tree = plan::read(&request.plan).ok()?;
    let rows = parsed(&request.rows, &sources(&tree))?;
    Some(rows.iter().enumerate().map(|(i, rows)| format!("source {i}: {}\n", rows_text(rows))).collect())
}

/// The plan, the rows and the list, then all of them as a vector has them.
pub fn told(request: &Request) -> String {
    let plan = Plan::read(&request.plan).map_or_else(|why| format!("{why}\n"), |plan| listing(&plan) + &text::show(&plan));
    let rows = sources_text(request).unwrap_or_default();
    let (choices, file, bytes) = (hex(&request.choices), hex(&request.plan), hex(&request.rows));
    format!("{plan}{rows}list {choices}\ndry {choices} {} {file} {bytes}", request.room)
}
