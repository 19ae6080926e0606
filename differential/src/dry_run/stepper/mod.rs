//! A second stepper, in plain Rust: what document 02 says of dry runs, as docs/DECISIONS.md reads it, written from that text alone. It
//! is held against the proved one, and is made to be read, not to be fast.
//!
//! Of a plan it takes what documents 01 and 02 say of files (the loader's reader) and of a node's streams and known order (its facts).
mod choices;
mod open;
mod operator;
pub mod row;
pub mod source_rows;
mod state;
#[cfg(test)]
mod tests;
mod waiting;

use super::{Answer, Request};
use row::Row;
use sort_placement::plan::{self, Node, kind::*};
use source_rows::SourceRows;
use state::State;

/// Document 02: the sources together have no more rows.
pub const MOST_ROWS: usize = 256;

/// What is added to the number of a node that is not stepped.
pub const NOT_STEPPED: u32 = 256;

const BROKEN_ROWS: u32 = 26;
const TOO_MANY_ROWS: u32 = 27;
const SHORT_OUTPUT: u32 = 24;

/// Document 02: a plan with a join or an aggregate isn't stepped.
fn first_not_stepped(plan: &Node) -> Option<u32> {
    let not_stepped = |n: &Node| matches!(n.record.kind, SORT_MERGE_JOIN | HASH_JOIN | AGGREGATE);
    plan.walk().position(|(_, node)| not_stepped(node)).map(|number| number as u32)
}

/// A plan and its rows, or the first refusal: the file's, 256 and a node's number, 26, 27.
fn read(request: &Request) -> Result<(Node, Vec<SourceRows>), u32> {
    let plan = plan::read(&request.plan)?;
    if let Some(number) = first_not_stepped(&plan) {
        return Err(NOT_STEPPED + number);
    }
    let rows = source_rows::read(&request.rows, &source_rows::sources(&plan)).ok_or(BROKEN_ROWS)?;
    let count: usize = rows.iter().flatten().map(Vec::len).sum();
    if count > MOST_ROWS { Err(TOO_MANY_ROWS) } else { Ok((plan, rows)) }
}

/// The root's streams after the last step, or every refusal but 24.
pub type Delivered = Result<Vec<Vec<Row>>, u32>;

pub fn delivered(request: &Request) -> Delivered {
    let (plan, rows) = read(request)?;
    Ok(State::new(&plan, rows, &request.choices).finished())
}

/// The number of a dry run that delivers this, and what it writes at the start of an output of so many bytes.
pub fn answer_of(delivered: &Delivered, room: usize) -> Answer {
    let refused = |number| Answer { number, bytes: vec![] };
    match delivered.as_ref().map(|streams| source_rows::written(streams)) {
        Err(number) => refused(*number),
        Ok(bytes) if bytes.len() > room => refused(SHORT_OUTPUT),
        Ok(bytes) => Answer { number: 0, bytes },
    }
}

pub fn answer(request: &Request) -> Answer {
    answer_of(&delivered(request), request.room)
}
