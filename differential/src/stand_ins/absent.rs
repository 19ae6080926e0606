//! Operators that the text names and no plan file has: windows, scalar subqueries. None of them can be made.
use crate::Result;
use crate::expr::*;
use crate::operators::{ProjectionExec, ProjectionExpr};
use crate::plan::*;
use std::sync::Arc;

type Plan = Arc<dyn ExecutionPlan>;

macro_rules! absent {
    ($($name:ident)*) => {
        $(
            #[derive(Debug)]
            pub enum $name {}

            impl DisplayAs for $name {}

            impl ExecutionPlan for $name {
                fn name(&self) -> &'static str {
                    match *self {}
                }
                fn properties(&self) -> &Arc<PlanProperties> {
                    match *self {}
                }
                fn children(&self) -> Vec<&Plan> {
                    match *self {}
                }
                fn with_new_children(self: Arc<Self>, _: Vec<Plan>) -> Result<Plan> {
                    match *self {}
                }
                fn maintains_input_order(&self) -> Vec<bool> {
                    match *self {}
                }
                fn required_input_ordering(&self) -> Vec<Option<OrderingRequirements>> {
                    match *self {}
                }
                fn input_distribution_requirements(&self) -> InputDistributionRequirements {
                    match *self {}
                }
                fn fetch(&self) -> Option<usize> {
                    match *self {}
                }
            }
        )*
    };
}

absent! { WindowAggExec BoundedWindowAggExec ScalarSubqueryExec }

pub type WindowExprs = Vec<Arc<dyn WindowExpr>>;
pub type Exprs = Vec<Arc<dyn PhysicalExpr>>;

pub trait WindowExpr: Send + Sync {
    fn uses_bounded_memory(&self) -> bool;
    fn partition_by(&self) -> &[Arc<dyn PhysicalExpr>];
}

#[derive(Clone)]
pub struct StateObserver;

pub enum InputOrderMode {
    Sorted,
}

impl WindowAggExec {
    pub fn try_new(_: WindowExprs, _: Plan, _: bool) -> Result<Self> {
        unreachable!()
    }
    pub fn window_expr(&self) -> &[Arc<dyn WindowExpr>] {
        match *self {}
    }
    pub fn partition_keys(&self) -> Exprs {
        match *self {}
    }
}

impl BoundedWindowAggExec {
    pub fn try_new(_: WindowExprs, _: Plan, _: InputOrderMode, _: bool) -> Result<Self> {
        unreachable!()
    }
    pub fn with_state_observer(self, _: Option<StateObserver>) -> Result<Self> {
        match self {}
    }
    pub fn state_observer(&self) -> Option<&StateObserver> {
        match *self {}
    }
    pub fn window_expr(&self) -> &[Arc<dyn WindowExpr>] {
        match *self {}
    }
    pub fn partition_keys(&self) -> Exprs {
        match *self {}
    }
}

pub fn get_best_fitting_window(
    _: &[Arc<dyn WindowExpr>],
    _: &Plan,
    _: &[Arc<dyn PhysicalExpr>],
    _: Option<StateObserver>,
) -> Result<Option<Plan>> {
    unreachable!()
}

// Swapping a projection with an output requirement belongs to another rule

pub fn make_with_child(_: &ProjectionExec, _: &Plan) -> Result<Plan> {
    unreachable!()
}

pub fn update_expr(_: &Arc<dyn PhysicalExpr>, _: &[ProjectionExpr], _: bool) -> Result<Option<Arc<dyn PhysicalExpr>>> {
    unreachable!()
}

pub fn update_ordering_requirement(_: LexRequirement, _: &[ProjectionExpr]) -> Result<Option<LexRequirement>> {
    unreachable!()
}
