//! Random dry runs: all answers come, most of them 0.
use super::Request;
use super::broken_rows::{self, Fault};
use super::random_rows;
use super::stepper::source_rows::{sources, written};
use super::stepper::{Delivered, MOST_ROWS};
use crate::random_plans::{self, Rng};
use crate::{damage, rust_side};
use sort_placement::exports::Call;
use sort_placement::plan::{self, BLOCK, MOST_BLOCKS, Node};

/// A request, without its output's length, and how its rows were broken, if they were.
pub struct Random {
    pub request: Request,
    pub tree: Node,
    pub rows: usize,
    pub fault: Option<Fault>,
}

/// A plan that the Rust has ensured: it passes the order check.
fn ensured(tree: Node) -> Node {
    let answer = rust_side::answer(Call::Ensure, &plan::write(&tree), MOST_BLOCKS * BLOCK);
    if answer.number == 0 { plan::read(&answer.bytes).expect("the Rust's plan is one") } else { tree }
}

/// Most plans are stepped; some have a join or an aggregate.
fn tree(rng: &mut Rng) -> Node {
    let tree = match rng.below(24) {
        0 => random_plans::small_plan(rng),
        1 => random_plans::plan(rng),
        _ => random_plans::stepped_plan(rng),
    };
    if rng.one_in(3) { ensured(tree) } else { tree }
}

/// Few rows mostly, and some on both sides of the most that are taken.
fn row_count(rng: &mut Rng, nodes: usize) -> usize {
    let most = if nodes > 40 { 20 } else { 60 };
    match rng.below(32) {
        0 => 0,
        1..=16 => 1 + rng.below(6),
        17..=25 => rng.below(20),
        26..=29 => rng.below(most),
        30 if nodes <= 20 => MOST_ROWS - rng.below(40),
        30 => rng.below(most),
        _ => MOST_ROWS + 1 + rng.pick(&[0, 0, 1, 50, 743]),
    }
}

fn choices(rng: &mut Rng) -> Vec<u8> {
    let count = match rng.below(8) {
        0 => 0,
        1 => 1,
        2..=4 => 2 + rng.below(8),
        5 | 6 => rng.below(100),
        _ => rng.below(3000),
    };
    let most = rng.pick(&[2, 4, 256, 256]);
    (0..count).map(|_| rng.below(most) as u8).collect()
}

/// The bytes of random rows, and how they were broken.
fn rows(rng: &mut Rng, tree: &Node, count: usize) -> (Vec<u8>, Option<Fault>) {
    let rows = random_rows::rows(rng, sources(tree), count);
    if !rng.one_in(10) {
        return (rows.written(), None);
    }
    let fault = broken_rows::fault(rng, &rows);
    (broken_rows::written(rng, rows, fault), Some(fault))
}

pub fn request(rng: &mut Rng) -> Random {
    let is_damaged = rng.one_in(16);
    let tree = if is_damaged { random_plans::plan(rng) } else { tree(rng) };
    let file = plan::write(&tree);
    let plan = if is_damaged { damage::damaged(rng, &file) } else { file };
    let count = row_count(rng, tree.count());
    let (rows, fault) = rows(rng, &tree, count);
    Random { request: Request { plan, rows, choices: choices(rng), room: 0 }, tree, rows: count, fault }
}

/// An output's length: enough mostly, sometimes just enough, or too short.
pub fn room(rng: &mut Rng, delivered: &Delivered) -> usize {
    let length = delivered.as_ref().map_or(0, |streams| written(streams).len());
    match rng.below(20) {
        0 => length.saturating_sub(1),
        1 => rng.below(length + 1),
        2..=5 => length,
        _ => length + rng.below(100),
    }
}
