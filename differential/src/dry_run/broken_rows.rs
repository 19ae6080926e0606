//! Rows broken in the ways that refusal 26 is for.
use super::random_rows::{Rows, Style, VALUES};
use super::stepper::source_rows::SourceRows;
use crate::random_plans::Rng;
use sort_placement::plan::Record;

#[derive(Clone, Copy, Debug, PartialEq, Eq, PartialOrd, Ord)]
pub enum Fault {
    BytesMissing,
    BytesLeftOver,
    AnotherRowCount,
    NullAboveTheWidth,
    NumberInANull,
    OutOfOrder,
    ConstantVaries,
}

const FAULTS: [Fault; 7] = [
    Fault::BytesMissing,
    Fault::BytesLeftOver,
    Fault::AnotherRowCount,
    Fault::NullAboveTheWidth,
    Fault::NumberInANull,
    Fault::OutOfOrder,
    Fault::ConstantVaries,
];

/// Whether rows can have a fault: a row, of a narrow source, or two rows under a declared order or constant.
fn is_possible(rows: &Rows, fault: Fault) -> bool {
    let mut sources = rows.sources.iter().zip(&rows.rows);
    let longest = |rows: &SourceRows| rows.iter().map(Vec::len).max().unwrap_or(0);
    let count = |rows: &SourceRows| rows.iter().map(Vec::len).sum::<usize>();
    match fault {
        Fault::BytesMissing | Fault::BytesLeftOver | Fault::AnotherRowCount => true,
        Fault::NullAboveTheWidth => sources.any(|(source, rows)| source.width < 32 && count(rows) > 0),
        Fault::NumberInANull => sources.any(|(_, rows)| count(rows) > 0),
        Fault::OutOfOrder => sources.any(|(source, rows)| !source.keys.is_empty() && longest(rows) > 1),
        Fault::ConstantVaries => sources.any(|(source, rows)| source.set != 0 && count(rows) > 1),
    }
}

/// A random fault that rows can have.
pub fn fault(rng: &mut Rng, rows: &Rows) -> Fault {
    let possible: Vec<Fault> = FAULTS.into_iter().filter(|fault| is_possible(rows, *fault)).collect();
    rng.pick(&possible)
}

/// The place in the bytes and the width of a random row, if there is one.
fn place(rng: &mut Rng, rows: &Rows) -> Option<(usize, usize)> {
    let mut places = vec![];
    let mut at = 0;
    for (source, streams) in rows.sources.iter().zip(&rows.rows) {
        let width = source.width as usize;
        for stream in streams {
            places.extend((0..stream.len()).map(|i| (at + 4 + i * (4 + 8 * width), width)));
            at += 4 + stream.len() * (4 + 8 * width);
        }
    }
    (!places.is_empty()).then(|| rng.pick(&places))
}

fn null_above(rng: &mut Rng, rows: &Rows, bytes: &mut [u8]) {
    if let Some((at, width)) = place(rng, rows).filter(|(_, width)| *width < 32) {
        let bit = if rng.one_in(2) { width } else { width + rng.below(32 - width) };
        bytes[at + bit / 8] |= 1 << (bit % 8);
    }
}

fn number_in_null(rng: &mut Rng, rows: &Rows, bytes: &mut [u8]) {
    if let Some((at, width)) = place(rng, rows) {
        let column = rng.below(width);
        bytes[at + column / 8] |= 1 << (column % 8);
        bytes[at + 4 + 8 * column + rng.below(8)] = 1 + rng.below(255) as u8;
    }
}

/// Source, stream and place of a random row of which a test of its source holds, if there is one; one with others in its stream, if
/// there is such a one.
fn row_of(rng: &mut Rng, rows: &Rows, is_meant: fn(&Record) -> bool) -> Option<(usize, usize, usize)> {
    let meant = (0..rows.sources.len()).filter(|source| is_meant(rows.sources[*source]));
    let streams: Vec<(usize, usize)> = meant.flat_map(|at| (0..rows.rows[at].len()).map(move |stream| (at, stream))).collect();
    let longer_than = |least: usize| streams.iter().copied().filter(move |(at, stream)| rows.rows[*at][*stream].len() > least);
    let mut found: Vec<(usize, usize)> = longer_than(1).collect();
    if found.is_empty() {
        found.extend(longer_than(0));
    }
    let (at, stream) = (!found.is_empty()).then(|| rng.pick(&found))?;
    Some((at, stream, rng.below(rows.rows[at][stream].len())))
}

/// Two rows of a stream in each other's place, or another cell in a key column.
fn disorder(rng: &mut Rng, rows: &mut Rows) {
    let Some((source, stream, place)) = row_of(rng, rows, |s| !s.keys.is_empty()) else { return };
    let stream = &mut rows.rows[source][stream];
    if rng.one_in(2) {
        let other = rng.below(stream.len());
        stream.swap(place, other);
    } else {
        stream[place][rng.pick(&rows.sources[source].keys).0 as usize] = Style { values: VALUES[3], nulls: 3 }.cell(rng);
    }
}

/// Another cell in a constant column: null in a number's place, or another number.
fn vary(rng: &mut Rng, rows: &mut Rows) {
    let Some((source, stream, place)) = row_of(rng, rows, |s| s.set != 0) else { return };
    let record = rows.sources[source];
    let constants: Vec<usize> = (0..record.width as usize).filter(|column| record.set >> column & 1 == 1).collect();
    let cell = &mut rows.rows[source][stream][place][rng.pick(&constants)];
    *cell = match cell {
        Some(_) if rng.one_in(2) => None,
        Some(number) => Some(number.wrapping_add(1)),
        // the number that stands in a null's bytes
        None => Some(0),
    };
}

/// The rows' bytes with a fault. Peers in each other's place are none.
pub fn written(rng: &mut Rng, mut rows: Rows, fault: Fault) -> Vec<u8> {
    match fault {
        Fault::OutOfOrder => disorder(rng, &mut rows),
        Fault::ConstantVaries => vary(rng, &mut rows),
        _ => {}
    }
    let mut bytes = rows.written();
    match fault {
        Fault::BytesMissing => bytes.truncate(bytes.len() - (1 + rng.below(12)).min(bytes.len())),
        Fault::BytesLeftOver => bytes.extend((0..1 + rng.below(12)).map(|_| rng.below(2) as u8)),
        Fault::AnotherRowCount => bytes[rng.below(4)] ^= 1 << rng.below(8),
        Fault::NullAboveTheWidth => null_above(rng, &rows, &mut bytes),
        Fault::NumberInANull => number_in_null(rng, &rows, &mut bytes),
        _ => {}
    }
    bytes
}
