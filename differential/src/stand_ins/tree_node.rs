//! Trees and the walks over them. A walk rebuilds each node over its walked children, and counts the whole plan's nodes after
//! each step.
use crate::expr::PhysicalExpr;
use crate::plan::ExecutionPlan;
use crate::{DataFusionError, Result};
use sort_placement::plan::MOST_NODES;
use std::cell::Cell;
use std::sync::Arc;

pub struct Transformed<T> {
    pub data: T,
    pub transformed: bool,
}

impl<T> Transformed<T> {
    pub fn yes(data: T) -> Self {
        Self { data, transformed: true }
    }

    pub fn no(data: T) -> Self {
        Self { data, transformed: false }
    }
}

pub trait TransformedResult<T> {
    fn data(self) -> Result<T>;
}

impl<T> TransformedResult<T> for Result<Transformed<T>> {
    fn data(self) -> Result<T> {
        self.map(|t| t.data)
    }
}

pub enum TreeNodeRecursion {
    Continue,
}

pub trait TreeNode: Sized {
    /// The node over its children, each put through the function.
    fn map_children(self, f: &mut dyn FnMut(Self) -> Result<Self>) -> Result<Self>;

    /// One step of a walk.
    fn step(self, f: &mut dyn FnMut(Self) -> Result<Transformed<Self>>) -> Result<Self> {
        f(self).data()
    }

    fn transform_up(self, mut f: impl FnMut(Self) -> Result<Transformed<Self>>) -> Result<Transformed<Self>> {
        fn up<T: TreeNode>(node: T, f: &mut dyn FnMut(T) -> Result<Transformed<T>>) -> Result<T> {
            node.map_children(&mut |child| up(child, f))?.step(f)
        }
        up(self, &mut f).map(Transformed::yes)
    }

    fn transform_down(self, mut f: impl FnMut(Self) -> Result<Transformed<Self>>) -> Result<Transformed<Self>> {
        fn down<T: TreeNode>(node: T, f: &mut dyn FnMut(T) -> Result<Transformed<T>>) -> Result<T> {
            node.step(f)?.map_children(&mut |child| down(child, f))
        }
        down(self, &mut f).map(Transformed::yes)
    }
}

impl TreeNode for Arc<dyn PhysicalExpr> {
    fn map_children(self, _: &mut dyn FnMut(Self) -> Result<Self>) -> Result<Self> {
        Ok(self)
    }
}

impl TreeNode for Arc<dyn ExecutionPlan> {
    fn map_children(self, f: &mut dyn FnMut(Self) -> Result<Self>) -> Result<Self> {
        let children = self.children().into_iter().map(|c| f(Arc::clone(c))).collect::<Result<_>>()?;
        self.with_new_children(children)
    }
}

/// A plan's node with data beside it and its children's contexts.
#[derive(Debug)]
pub struct PlanContext<T> {
    pub plan: Arc<dyn ExecutionPlan>,
    pub data: T,
    pub children: Vec<PlanContext<T>>,
}

impl<T> PlanContext<T> {
    pub fn new(plan: Arc<dyn ExecutionPlan>, data: T, children: Vec<Self>) -> Self {
        Self { plan, data, children }
    }

    pub fn update_plan_from_children(mut self) -> Result<Self> {
        let children: Vec<_> = self.children.iter().map(|c| Arc::clone(&c.plan)).collect();
        if !children.is_empty() {
            self.plan = self.plan.with_new_children(children)?;
        }
        Ok(self)
    }
}

impl<T: Default> PlanContext<T> {
    pub fn new_default(plan: Arc<dyn ExecutionPlan>) -> Self {
        let children = plan.children().into_iter().map(|c| Self::new_default(Arc::clone(c))).collect();
        Self::new(plan, T::default(), children)
    }
}

thread_local! {
    static NODES: Cell<usize> = const { Cell::new(0) };
}

/// A walk begins on a plan of that many nodes.
pub fn begin_walk(nodes: usize) {
    NODES.set(nodes);
}

impl<T> TreeNode for PlanContext<T> {
    fn map_children(mut self, f: &mut dyn FnMut(Self) -> Result<Self>) -> Result<Self> {
        self.children = self.children.into_iter().map(f).collect::<Result<_>>()?;
        self.update_plan_from_children()
    }

    /// After a step, the plan as it then is must not have more than 126 nodes.
    fn step(self, f: &mut dyn FnMut(Self) -> Result<Transformed<Self>>) -> Result<Self> {
        let before = self.plan.count();
        let node = f(self)?.data;
        let nodes = NODES.get() + node.plan.count() - before;
        NODES.set(nodes);
        if nodes > MOST_NODES { Err(DataFusionError::TooManyNodes) } else { Ok(node) }
    }
}
