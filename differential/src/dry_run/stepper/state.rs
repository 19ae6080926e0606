//! Where rows stand, and the steps that move them.
use super::choices::Choices;
use super::open::{self, Open};
use super::operator::{Operator, Takes, Ways, operators};
use super::row::Row;
use super::source_rows::SourceRows;
use super::waiting::Waiting;
use sort_placement::plan::Node;

pub struct State<'a> {
    operators: Vec<Operator>,
    choices: Choices<'a>,
    /// by node
    waiting: Vec<Waiting>,
    /// how many rows came to each output stream, by node, cut ones too
    came: Vec<Vec<u64>>,
    delivered: Vec<Vec<Row>>,
    arrivals: usize,
}

impl<'a> State<'a> {
    /// Before the first step: the rows of sources wait above them, stream after stream.
    pub fn new(plan: &Node, rows: Vec<SourceRows>, choices: &'a [u8]) -> State<'a> {
        let operators = operators(plan);
        let mut state = State {
            waiting: operators.iter().map(|_| Waiting::default()).collect(),
            came: operators.iter().map(|o| vec![0; o.outputs]).collect(),
            delivered: vec![vec![]; operators[0].outputs],
            choices: Choices::new(choices),
            operators,
            arrivals: 0,
        };
        let sources: Vec<usize> = (0..state.operators.len()).filter(|n| state.operators[*n].is_source).collect();
        for (source, streams) in sources.into_iter().zip(rows) {
            for (stream, rows) in streams.into_iter().enumerate() {
                rows.into_iter().for_each(|row| state.put(source, stream, row));
            }
        }
        state
    }

    /// The root's streams, after as many steps as there are.
    pub fn finished(mut self) -> Vec<Vec<Row>> {
        while self.step() {}
        self.delivered
    }

    /// A row that a node puts out waits above it; what the root puts out is delivered.
    fn put(&mut self, node: usize, stream: usize, row: Row) {
        self.arrivals += 1;
        match self.operators[node].above {
            Some((above, first)) => self.waiting[above].put(first + stream, self.arrivals, row),
            None => self.delivered[stream].push(row),
        }
    }

    fn open(&self) -> Open {
        let waiting = self.waiting.iter().enumerate();
        open::streams(&self.operators, waiting.flat_map(|(node, waiting)| waiting.streams().map(move |stream| (node, stream))))
    }

    /// An operator with a waiting row moves; merges and preserving repartitions once each open input has a row, sorts once all their
    /// inputs are closed.
    fn can_move(&self, node: usize, open: &Open) -> bool {
        let (operator, waiting) = (&self.operators[node], &self.waiting[node]);
        let mut inputs = open::inputs(operator, open).enumerate();
        !waiting.is_empty()
            && match operator.takes {
                Takes::First => true,
                Takes::Merged(_) => inputs.all(|(stream, is_open)| !is_open || waiting.has_rows(stream)),
                Takes::SortedStream(_) | Takes::SortedWhole(_) => inputs.all(|(_, is_open)| !is_open),
            }
    }

    /// One step; whether there was one to make. The list's bytes choose the operator, then the input, then the output.
    fn step(&mut self) -> bool {
        let open = self.open();
        let movable: Vec<usize> = (0..self.operators.len()).filter(|node| self.can_move(*node, &open)).collect();
        if movable.is_empty() {
            return false;
        }
        let node = movable[self.choices.of(movable.len())];
        let (input, place) = self.first(node);
        let operator = &self.operators[node];
        let output = match operator.ways {
            Ways::Same => input,
            Ways::First => 0,
            Ways::Any => self.choices.of(operator.outputs),
        };
        let row = operator.put_out(self.waiting[node].take((input, place)));
        let is_cut = operator.cuts(self.came[node][output]);
        self.came[node][output] += 1;
        if !is_cut {
            self.put(node, output, row);
        }
        true
    }

    /// Input stream and place of the row that an operator moves.
    fn first(&mut self, node: usize) -> (usize, usize) {
        let waiting = &self.waiting[node];
        let streams: Vec<usize> = waiting.streams().collect();
        match &self.operators[node].takes {
            Takes::First => (streams[self.choices.of(streams.len())], 0),
            Takes::Merged(keys) => waiting.first_of_heads(keys),
            Takes::SortedStream(keys) => {
                let stream = streams[self.choices.of(streams.len())];
                waiting.first_of_all(std::iter::once(stream), keys)
            }
            Takes::SortedWhole(keys) => waiting.first_of_all(streams.into_iter(), keys),
        }
    }
}
