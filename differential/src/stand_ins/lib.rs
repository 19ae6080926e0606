//! Stand-ins for the crates that the Rust's files use. This one crate is linked under each of their names, so its modules are
//! the union of theirs. A node's properties are document 01's facts and nothing else.
mod absent;
#[cfg(not(mutant))]
mod equivalence;
#[cfg(not(mutant))]
mod expr;
#[cfg(not(mutant))]
mod operators;
#[cfg(not(mutant))]
mod plan;
#[cfg(not(mutant))]
pub mod tree_node;

#[cfg(not(mutant))]
use sort_placement::facts;
// a mutant's copies of these six
#[cfg(mutant)]
include!(concat!(env!("OUT_DIR"), "/stand_ins.rs"));

use std::sync::{Arc, LazyLock};

// datafusion_common
pub use expr::JoinSide;
pub use plan::Statistics;
pub use std::collections::HashSet;

#[derive(Debug, PartialEq)]
pub enum DataFusionError {
    Internal(String),
    Plan(String),
    /// of the stand-ins: document 01's refusal 23
    TooManyNodes,
}

pub type Result<T> = std::result::Result<T, DataFusionError>;

#[macro_export]
macro_rules! internal_err {
    ($text:literal) => {
        Err($crate::DataFusionError::Internal($text.into()))
    };
}

#[macro_export]
macro_rules! plan_err {
    ($text:literal) => {
        Err($crate::DataFusionError::Plan($text.into()))
    };
}

pub mod config {
    #[derive(Default)]
    pub struct OptimizerOptions {
        pub prefer_existing_sort: bool,
    }

    #[derive(Default)]
    pub struct ConfigOptions {
        pub optimizer: OptimizerOptions,
    }
}

// itertools
#[macro_export]
macro_rules! izip {
    ($a:expr, $b:expr) => {
        $a.into_iter().zip($b)
    };
    ($a:expr, $b:expr, $c:expr $(,)?) => {
        $a.into_iter().zip($b).zip($c).map(|((a, b), c)| (a, b, c))
    };
}

// arrow
pub mod datatypes {
    pub use crate::SchemaRef;
}

pub struct Field;

impl Field {
    pub fn name(&self) -> &str {
        ""
    }
}

pub struct Schema {
    pub fields: Vec<Field>,
}

impl Schema {
    pub fn fields(&self) -> &Vec<Field> {
        &self.fields
    }

    pub fn field(&self, index: usize) -> &Field {
        &self.fields[index]
    }
}

pub type SchemaRef = Arc<Schema>;

static SCHEMAS: LazyLock<Vec<SchemaRef>> =
    LazyLock::new(|| (0..=64).map(|width| Arc::new(Schema { fields: (0..width).map(|_| Field).collect() })).collect());

fn schema_of(width: usize) -> SchemaRef {
    Arc::clone(&SCHEMAS[width])
}

// datafusion_expr, datafusion_physical_expr, datafusion_physical_expr_common
pub use equivalence::{EquivalenceProperties, with_merge_rule};
pub use expr::{Distribution, JoinType, LexOrdering, LexRequirement, Partitioning, add_offset_to_physical_sort_exprs, ordering};

pub mod expressions {
    pub use crate::expr::Column;
}

pub mod utils {
    pub use crate::expr::collect_columns;
}

pub mod sort_expr {
    pub use crate::expr::{LexOrdering, LexRequirement, OrderingRequirements, PhysicalSortExpr, PhysicalSortRequirement};
}

pub mod physical_expr {
    pub use crate::expr::{PhysicalExpr, column, index_of};
}

// datafusion_execution, datafusion_physical_plan
pub use absent::InputOrderMode;
pub use expr::keys_of;
pub use operators::operator;
pub use plan::{
    ChildStats, ChildrenPropertiesMode, DisplayAs, DisplayFormatType, ExecutionPlan, ExecutionPlanProperties,
    InputDistributionRequirements, PlanProperties, ReplaceChildrenOptions, SendableRecordBatchStream, StatisticsArgs,
    TaskContext,
};

pub mod aggregates {
    pub use crate::operators::AggregateExec;
}

pub mod coalesce_partitions {
    pub use crate::operators::CoalescePartitionsExec;
}

pub mod execution_plan {
    pub use crate::plan::{Boundedness, CardinalityEffect, EmissionType, replace_children_if_necessary};
}

pub mod filter {
    pub use crate::operators::FilterExec;
}

pub mod joins {
    pub use crate::operators::{HashJoinExec, SortMergeJoinExec};
    pub mod utils {
        pub use crate::operators::{ColumnIndex, calculate_join_output_ordering};
    }
}

pub mod limit {
    pub use crate::operators::{GlobalLimitExec, LocalLimitExec};
}

pub mod projection {
    pub use crate::absent::{make_with_child, update_expr, update_ordering_requirement};
    pub use crate::operators::{ProjectionExec, ProjectionExpr};
}

pub mod repartition {
    pub use crate::operators::RepartitionExec;
}

pub mod scalar_subquery {
    pub use crate::absent::ScalarSubqueryExec;
}

pub mod sorts {
    pub mod partial_sort {
        pub use crate::operators::PartialSortExec;
    }
    pub mod sort {
        pub use crate::operators::SortExec;
    }
    pub mod sort_preserving_merge {
        pub use crate::operators::SortPreservingMergeExec;
    }
}

pub mod union {
    pub use crate::operators::UnionExec;
}

pub mod windows {
    pub use crate::absent::{BoundedWindowAggExec, WindowAggExec, get_best_fitting_window};
}

/// Of the crate that the five files stand in.
pub trait PhysicalOptimizerRule: std::fmt::Debug {
    fn optimize(&self, plan: Arc<dyn ExecutionPlan>, config: &config::ConfigOptions) -> Result<Arc<dyn ExecutionPlan>>;
    fn name(&self) -> &str;
    fn schema_check(&self) -> bool;
}
