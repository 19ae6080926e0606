//! What random dry runs were answered, counted, so that one sees that each answer comes.
use super::Answer;
use super::broken_rows::Fault;
use super::random::Random;
use super::stepper::{MOST_ROWS, NOT_STEPPED};
use std::collections::BTreeMap;

#[derive(Default)]
pub struct Figures {
    requests: u64,
    nodes: usize,
    rows: usize,
    /// by number; those of nodes that are not stepped under one
    answers: BTreeMap<u32, u64>,
    /// refused with 26, of all that were broken in that way
    broken: BTreeMap<Fault, (u64, u64)>,
    /// refused with 26 beside 27
    both: u64,
    /// answered 0 on plans that pass the order check, and of them those whose root knows an order
    pub passing: u64,
    pub ordered: u64,
}

impl Figures {
    pub fn count(&mut self, made: &Random, answer: &Answer) {
        self.requests += 1;
        self.nodes += made.tree.count();
        self.rows += made.rows;
        *self.answers.entry(answer.number.min(NOT_STEPPED)).or_default() += 1;
        self.both += (answer.number == 26 && made.rows > MOST_ROWS) as u64;
        if let Some(fault) = made.fault {
            let (refused, all) = self.broken.entry(fault).or_default();
            *refused += (answer.number == 26) as u64;
            *all += 1;
        }
    }

    pub fn print(&self, seconds: f64) {
        let each = |sum: usize| sum as f64 / self.requests.max(1) as f64;
        let (nodes, rows) = (each(self.nodes), each(self.rows));
        println!("{} dry runs, {nodes:.1} nodes and {rows:.1} rows each, {seconds:.0} seconds", self.requests);
        let name = |number: u32| if number == NOT_STEPPED { "256 and above".into() } else { number.to_string() };
        let answers: Vec<String> = self.answers.iter().map(|(number, n)| format!("{}: {n}", name(*number))).collect();
        println!("by answer: {}", answers.join(", "));
        let broken: Vec<String> = self.broken.iter().map(|(fault, (n, all))| format!("{fault:?} {n} of {all}")).collect();
        println!("26 by what was broken: {}; with more than 256 rows: {}", broken.join(", "), self.both);
        let (passing, ordered) = (self.passing, self.ordered);
        println!("answered 0 on plans that pass the order check: {passing}, of them with an order at the root: {ordered}");
    }
}
