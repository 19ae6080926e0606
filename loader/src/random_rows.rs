//! Random rows for the package's own tests: as the sources of a plan declare them, and with faults.
use crate::Plan;
use crate::plan::Record;
use crate::plan::kind::SOURCE;
use crate::random::Rng;
use crate::rows::{Cell, MOST_ROWS, Order, Row, Rows};

/// Few values, so that rows have peers, and the ends of the range.
fn cell(rng: &mut Rng) -> Cell {
    let number = rng.below(5) as i64 - 2;
    rng.pick(&[Some(number), Some(number), Some(number), Some(i64::MIN), Some(i64::MAX), None])
}

/// The rows of one source.
fn of_source(rng: &mut Rng, r: &Record, count: usize) -> Vec<Vec<Row>> {
    let constants: Row = (0..r.width).map(|_| cell(rng)).collect();
    let mut streams = vec![vec![]; r.streams as usize];
    for _ in 0..count {
        let fixed = |(column, constant): (usize, &Cell)| if r.set >> column & 1 == 1 { *constant } else { cell(rng) };
        let row: Row = constants.iter().enumerate().map(fixed).collect();
        let to = rng.below(streams.len());
        streams[to].push(row);
    }
    let order = Order::of_keys(&r.keys);
    streams.iter_mut().for_each(|stream| stream.sort_by(|a, b| order.compare(a, b)));
    streams
}

/// Up to 256 rows of a plan's sources, in the declared order and with the declared constants.
pub fn rows(rng: &mut Rng, plan: &Plan) -> Rows {
    let mut left = rng.pick(&[0, 3, 10, 30, MOST_ROWS]);
    let mut rows = Rows::default();
    for (_, node) in plan.root().walk().filter(|(_, n)| n.record.kind == SOURCE) {
        let count = rng.below(left + 1);
        left -= count;
        rows.streams.extend(of_source(rng, &node.record, count));
    }
    rows
}

/// The bytes of rows with one fault or none, and now and then more rows than there may be.
#[cfg(has_dry_run)]
pub fn damaged(rng: &mut Rng, mut rows: Rows) -> Vec<u8> {
    if rng.one_in(4)
        && let Some(stream) = rows.streams.iter_mut().find(|stream| !stream.is_empty())
    {
        // peers of the last: in order, and constant
        let last = stream[stream.len() - 1].clone();
        stream.extend(vec![last; MOST_ROWS]);
    }
    let mut bytes = rows.write();
    let at = rng.below(bytes.len());
    match rng.below(5) {
        0 => bytes[at] ^= 1 << rng.below(8),
        1 => bytes[at] = rng.below(3) as u8,
        2 => bytes.truncate(at),
        3 => bytes.push(0),
        _ => {}
    }
    bytes
}
