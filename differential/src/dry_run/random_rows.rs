//! Random rows for the sources of a plan that keep what these declare: of few values, so that peers and nulls come often.
use super::stepper::row::{Cell, Row, compare};
use super::stepper::source_rows::{SourceRows, written};
use crate::random_plans::Rng;
use sort_placement::plan::Record;

pub const VALUES: [&[i64]; 5] = [&[0, 1], &[0, 1, 2, 3], &[-2, -1, 0, 1], &[i64::MIN, -1, 0, 1, i64::MAX], &[7]];

/// What the cells of one request have in common.
pub struct Style {
    pub values: &'static [i64],
    /// one in so many
    pub nulls: usize,
}

impl Style {
    pub fn cell(&self, rng: &mut Rng) -> Cell {
        match rng.below(40) {
            // any bytes
            0 => Some(rng.next() as i64),
            _ if rng.one_in(self.nulls) => None,
            _ => Some(rng.pick(self.values)),
        }
    }
}

/// Rows by source, stream and place.
pub struct Rows<'a> {
    pub sources: Vec<&'a Record>,
    pub rows: Vec<SourceRows>,
}

/// So many rows, on any streams or on the first few of each source; each stream in the order that is declared.
pub fn rows<'a>(rng: &mut Rng, sources: Vec<&'a Record>, count: usize) -> Rows<'a> {
    let style = Style { values: VALUES[rng.below(VALUES.len())], nulls: rng.pick(&[2, 4, 10, 1000]) };
    let most_streams = rng.pick(&[1, 2, 3, 64, 64]);
    let constants: Vec<Row> = sources.iter().map(|s| (0..s.width).map(|_| style.cell(rng)).collect()).collect();
    let mut rows: Vec<SourceRows> = sources.iter().map(|s| vec![vec![]; s.streams as usize]).collect();
    for _ in 0..count {
        let at = rng.below(sources.len());
        let is_constant = |column: usize| sources[at].set >> column & 1 == 1;
        let cell = |column| if is_constant(column) { constants[at][column] } else { style.cell(rng) };
        let row = (0..sources[at].width as usize).map(cell).collect();
        let stream = rng.below((sources[at].streams as usize).min(most_streams));
        rows[at][stream].push(row);
    }
    for (source, streams) in sources.iter().zip(&mut rows) {
        streams.iter_mut().for_each(|stream| stream.sort_by(|a, b| compare(a, b, &source.keys)));
    }
    Rows { sources, rows }
}

impl Rows<'_> {
    pub fn written(&self) -> Vec<u8> {
        written(&self.rows.concat())
    }
}
