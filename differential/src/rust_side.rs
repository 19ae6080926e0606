//! The Rust's answers: document 01's calls on a plan file, with the Rust's own steps over the stand-ins.
use crate::enforce_sorting::replace_with_order_preserving_variants::replace_with_order_preserving_variants;
use crate::enforce_sorting::sort_pushdown::{SortPushDown, assign_initial_requirements, pushdown_sorts};
use crate::enforce_sorting::{ensure_sorting, parallelize_sorts, replace_with_partial_sort};
use crate::output_requirements::OutputRequirementExec;
use sort_placement::exports::Call;
use sort_placement::plan::{self, Node, Record, kind::*};
use stand_ins::physical_expr::{column, index_of};
use stand_ins::tree_node::{PlanContext, Transformed, TreeNode, begin_walk};
use stand_ins::{
    DataFusionError, Distribution, ExecutionPlan, Result, config::ConfigOptions, keys_of, ordering, with_merge_rule,
};
use std::any::Any;
use std::panic::{AssertUnwindSafe, catch_unwind};
use std::sync::Arc;

type Plan = Arc<dyn ExecutionPlan>;

/// A refusal's number, or 0 with what is written: a file, or the check's answer as one byte.
#[derive(Clone, Debug, PartialEq, Eq)]
pub struct Answer {
    pub number: u32,
    pub bytes: Vec<u8>,
    /// the Rust panicked, and the answer is what the documents give there
    pub panicked: bool,
}

impl Answer {
    fn refused(number: u32) -> Answer {
        Answer { number, bytes: vec![], panicked: false }
    }
}

fn distribution_of(r: &Record) -> Distribution {
    match r.variant {
        0 => Distribution::UnspecifiedDistribution,
        1 => Distribution::SinglePartition,
        _ => Distribution::KeyPartitioned((0..32).filter(|c| r.set >> c & 1 == 1).map(column).collect()),
    }
}

/// The plan of a tree of records.
pub fn plan_of(node: &Node) -> Plan {
    let children: Vec<Plan> = node.children.iter().map(plan_of).collect();
    let r = &node.record;
    if r.kind != OUTPUT_REQUIREMENT {
        return stand_ins::operator(r.clone(), children);
    }
    let [input] = <[Plan; 1]>::try_from(children).expect("one child");
    let fetch = r.fetch().map(|f| f as usize);
    Arc::new(OutputRequirementExec::new(input, ordering(&r.keys).map(Into::into), distribution_of(r), fetch))
}

/// The record of the Rust's own operator.
fn output_requirement(plan: &Plan) -> Record {
    let mut r = Record::new(OUTPUT_REQUIREMENT);
    r.keys = plan.required_input_ordering().swap_remove(0).map_or(vec![], |o| keys_of(o.into_single()));
    r.fetch = plan.fetch().map_or(plan::NO_FETCH, |f| f as u32);
    match plan.input_distribution_requirements().into_per_child().swap_remove(0) {
        Distribution::SinglePartition => r.variant = 1,
        Distribution::KeyPartitioned(columns) => {
            r.variant = 2;
            r.set = columns.iter().fold(0, |set, c| set | 1 << index_of(c));
        }
        _ => {}
    }
    r
}

pub fn tree_of(plan: &Plan) -> Node {
    let record = plan.operator().map_or_else(|| output_requirement(plan), |o| o.record.clone());
    Node::new(record, plan.children().into_iter().map(tree_of).collect())
}

/// Whether each node's wanted orders are met by its children's facts.
fn passes(plan: &Plan) -> bool {
    let children = plan.children();
    let wanted = plan.required_input_ordering();
    let met = |(child, wanted): (&&Plan, &Option<_>)| match wanted {
        None => true,
        Some(w) => {
            let w: &stand_ins::sort_expr::OrderingRequirements = w;
            child.properties().equivalence_properties().ordering_satisfy_requirement(w.first().clone()) == Ok(true)
        }
    };
    children.iter().zip(&wanted).all(met) && children.into_iter().all(passes)
}

fn walk(plan: Plan, step: impl FnMut(PlanContext<bool>) -> Result<Transformed<PlanContext<bool>>>) -> Result<Plan> {
    Ok(PlanContext::new_default(plan).transform_up(step)?.data.plan)
}

fn push(plan: Plan) -> Result<Plan> {
    let mut context = SortPushDown::new_default(plan);
    assign_initial_requirements(&mut context);
    Ok(pushdown_sorts(context)?.plan)
}

/// One of the four walks.
pub fn rewrite(call: Call, plan: Plan) -> Result<Plan> {
    begin_walk(plan.count());
    match call {
        Call::Ensure => walk(plan, ensure_sorting),
        Call::Parallelize => walk(plan, parallelize_sorts),
        Call::Preserve([spr, spm, prefer]) => {
            let mut config = ConfigOptions::default();
            config.optimizer.prefer_existing_sort = prefer != 0;
            walk(plan, |c| replace_with_order_preserving_variants(c, spr != 0, spm != 0, &config))
        }
        Call::Push => push(plan),
        _ => unreachable!("no walk"),
    }
}

/// The plan with one node replaced; nothing above it is rebuilt.
fn partial(plan: &Node, number: usize) -> Result<Node> {
    let mut tree = plan.clone();
    let node = tree.at_mut(number).expect("a node of the tree");
    *node = tree_of(&replace_with_partial_sort(plan_of(node))?);
    Ok(tree)
}

fn refusal_of(error: DataFusionError) -> u32 {
    match error {
        DataFusionError::Internal(_) => 25,
        DataFusionError::TooManyNodes => 23,
        DataFusionError::Plan(text) => panic!("a plan error: {text}"),
    }
}

/// Whether the Rust took more of a list than it has.
fn is_past_the_end(panic: &(dyn Any + Send)) -> bool {
    panic.downcast_ref::<String>().is_some_and(|words| words.starts_with("range end index"))
}

/// Runs a call, and where the Rust panics gives the documents' answer.
fn rewritten(call: Call, tree: &Node) -> (std::result::Result<Node, u32>, bool) {
    let run = || match call {
        Call::Copy => Ok(tree.clone()),
        Call::Partial(node) => partial(tree, node as usize),
        _ => rewrite(call, plan_of(tree)).map(|p| tree_of(&p)),
    };
    match catch_unwind(AssertUnwindSafe(run)) {
        Ok(result) => (result.map_err(refusal_of), false),
        Err(panic) => match call {
            // a sort over an unbounded child that meets all its keys: the plan as it was (document 02, P2)
            Call::Partial(_) if is_past_the_end(&*panic) => (Ok(tree.clone()), true),
            _ => (with_merge_rule(run).map_err(refusal_of), true),
        },
    }
}

/// The answer of a call on a file, with an output of that length.
pub fn answer(call: Call, file: &[u8], room: usize) -> Answer {
    let tree = match plan::read(file) {
        Ok(tree) => tree,
        Err(number) => return Answer::refused(number),
    };
    if call == Call::Check {
        return Answer { number: 0, bytes: vec![passes(&plan_of(&tree)) as u8], panicked: false };
    }
    match call {
        Call::Partial(node) if node as usize >= tree.count() => return Answer::refused(20),
        Call::Partial(_) | Call::Copy => {}
        _ if tree.any(&mut |n| n.record.kind == PARTIAL_SORT) => return Answer::refused(21),
        _ => {}
    }
    let (result, panicked) = rewritten(call, &tree);
    let (number, bytes) = match result.map(|t| plan::write(&t)) {
        Err(number) => (number, vec![]),
        Ok(bytes) if bytes.len() > room => (24, vec![]),
        Ok(bytes) => (0, bytes),
    };
    Answer { number, bytes, panicked }
}
