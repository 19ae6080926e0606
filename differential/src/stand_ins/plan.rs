//! `ExecutionPlan` and what it speaks of. Of a node's properties only document 01's facts are held.
use crate::equivalence::EquivalenceProperties;
use crate::expr::*;
use crate::facts::Facts;
use crate::operators::{Operator, ProjectionExec};
use crate::tree_node::TreeNodeRecursion;
use crate::{Result, SchemaRef, schema_of};
use std::any::Any;
use std::fmt::{self, Debug};
use std::sync::Arc;

#[derive(Clone, Copy, Debug, PartialEq, Eq)]
pub enum Boundedness {
    Bounded,
    Unbounded,
}

impl Boundedness {
    pub fn is_unbounded(&self) -> bool {
        *self == Boundedness::Unbounded
    }
}

#[derive(Clone, Copy, Debug, PartialEq, Eq)]
pub enum EmissionType {
    Incremental,
    Final,
}

#[derive(Clone, Copy, Debug, PartialEq, Eq)]
pub enum CardinalityEffect {
    Equal,
    Unknown,
}

#[derive(Debug)]
pub struct PlanProperties {
    pub eq_properties: EquivalenceProperties,
    ordering: Option<LexOrdering>,
    partitioning: Partitioning,
    pub boundedness: Boundedness,
}

impl PlanProperties {
    /// For the output requirement: of its child's partitioning document 01 keeps the number of streams.
    pub fn new(eq: EquivalenceProperties, partitioning: Partitioning, _: EmissionType, _: Boundedness) -> Self {
        let streams = partitioning.partition_count();
        // `boundedness` below asks the child
        Self::of(Facts { streams, ..eq.0 }, Partitioning::UnknownPartitioning(streams), Boundedness::Bounded)
    }

    pub fn of(facts: Facts, partitioning: Partitioning, boundedness: Boundedness) -> Self {
        Self { ordering: ordering(&facts.order), eq_properties: EquivalenceProperties(facts), partitioning, boundedness }
    }

    pub fn equivalence_properties(&self) -> &EquivalenceProperties {
        &self.eq_properties
    }

    pub fn output_ordering(&self) -> Option<&LexOrdering> {
        self.ordering.as_ref()
    }

    pub fn output_partitioning(&self) -> &Partitioning {
        &self.partitioning
    }
}

pub struct InputDistributionRequirements(Vec<Distribution>);

impl InputDistributionRequirements {
    pub fn new(per_child: Vec<Distribution>) -> Self {
        Self(per_child)
    }

    pub fn child_distribution(&self, child: usize) -> Option<&Distribution> {
        self.0.get(child)
    }

    pub fn into_per_child(self) -> Vec<Distribution> {
        self.0
    }
}

pub enum DisplayFormatType {
    Default,
    Verbose,
    TreeRender,
}

pub trait DisplayAs {
    fn fmt_as(&self, _: DisplayFormatType, _: &mut fmt::Formatter) -> fmt::Result {
        Ok(())
    }
}

/// Names that the text mentions and that sort placement has no use for.
pub struct Statistics;
pub struct StatisticsArgs;
pub struct TaskContext;
pub struct SendableRecordBatchStream;
pub enum ChildStats {
    At(Option<usize>),
}
pub enum ChildrenPropertiesMode {
    Recompute,
}
pub struct ReplaceChildrenOptions;

impl ReplaceChildrenOptions {
    pub fn new(_: ChildrenPropertiesMode) -> Self {
        Self
    }
}

pub trait ExecutionPlan: Any + Debug + DisplayAs + Send + Sync {
    fn name(&self) -> &'static str;
    fn properties(&self) -> &Arc<PlanProperties>;
    fn children(&self) -> Vec<&Arc<dyn ExecutionPlan>>;
    fn with_new_children(self: Arc<Self>, children: Vec<Arc<dyn ExecutionPlan>>) -> Result<Arc<dyn ExecutionPlan>>;
    fn maintains_input_order(&self) -> Vec<bool>;
    fn required_input_ordering(&self) -> Vec<Option<OrderingRequirements>>;
    fn input_distribution_requirements(&self) -> InputDistributionRequirements;
    fn fetch(&self) -> Option<usize>;

    /// The operator of a kind that the stand-ins hold; kind 13 is the Rust's own.
    fn operator(&self) -> Option<&Operator> {
        None
    }
    fn supports_limit_pushdown(&self) -> bool {
        false
    }
    fn cardinality_effect(&self) -> CardinalityEffect {
        CardinalityEffect::Unknown
    }
    fn schema(&self) -> SchemaRef {
        schema_of(self.properties().eq_properties.0.width)
    }
    fn required_input_distribution(&self) -> Vec<Distribution> {
        self.input_distribution_requirements().into_per_child()
    }
    fn replace_children(
        self: Arc<Self>,
        children: Vec<Arc<dyn ExecutionPlan>>,
        _: ReplaceChildrenOptions,
    ) -> Result<Arc<dyn ExecutionPlan>> {
        self.with_new_children(children)
    }
    fn benefits_from_input_partitioning(&self) -> Vec<bool> {
        vec![]
    }
    fn execute(&self, _partition: usize, _context: Arc<TaskContext>) -> Result<SendableRecordBatchStream> {
        unreachable!()
    }
    fn child_stats_requests(&self, _partition: Option<usize>) -> Vec<ChildStats> {
        vec![]
    }
    fn statistics_from_inputs(&self, input: &[Arc<Statistics>], _: &StatisticsArgs) -> Result<Arc<Statistics>> {
        Ok(Arc::clone(&input[0]))
    }
    fn try_swapping_with_projection(&self, _: &ProjectionExec) -> Result<Option<Arc<dyn ExecutionPlan>>> {
        Ok(None)
    }
    fn apply_expressions(
        &self,
        _: &mut dyn FnMut(&Arc<dyn PhysicalExpr>) -> Result<TreeNodeRecursion>,
    ) -> Result<TreeNodeRecursion> {
        Ok(TreeNodeRecursion::Continue)
    }
}

impl dyn ExecutionPlan {
    pub fn downcast_ref<T: ExecutionPlan>(&self) -> Option<&T> {
        (self as &dyn Any).downcast_ref()
    }

    pub fn is<T: ExecutionPlan>(&self) -> bool {
        (self as &dyn Any).is::<T>()
    }

    pub fn count(&self) -> usize {
        self.operator().map_or_else(|| 1 + self.children()[0].count(), |o| o.nodes)
    }
}

pub fn facts(plan: &Arc<dyn ExecutionPlan>) -> &Facts {
    &plan.properties().eq_properties.0
}

pub trait ExecutionPlanProperties {
    fn output_partitioning(&self) -> &Partitioning;
    fn output_ordering(&self) -> Option<&LexOrdering>;
    fn equivalence_properties(&self) -> &EquivalenceProperties;
    fn boundedness(&self) -> Boundedness;
    fn pipeline_behavior(&self) -> EmissionType;
}

impl ExecutionPlanProperties for Arc<dyn ExecutionPlan> {
    fn output_partitioning(&self) -> &Partitioning {
        self.properties().output_partitioning()
    }

    fn output_ordering(&self) -> Option<&LexOrdering> {
        self.properties().output_ordering()
    }

    fn equivalence_properties(&self) -> &EquivalenceProperties {
        &self.properties().eq_properties
    }

    /// Kind 13 is unbounded if its child is, with a fetch too.
    fn boundedness(&self) -> Boundedness {
        match self.operator() {
            Some(_) => self.properties().boundedness,
            None => self.children()[0].boundedness(),
        }
    }

    fn pipeline_behavior(&self) -> EmissionType {
        self.operator().map_or(EmissionType::Incremental, Operator::emission)
    }
}

pub fn replace_children_if_necessary(
    plan: Arc<dyn ExecutionPlan>,
    children: Vec<Arc<dyn ExecutionPlan>>,
) -> Result<Arc<dyn ExecutionPlan>> {
    plan.with_new_children(children)
}
