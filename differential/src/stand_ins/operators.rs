//! The operators of the file's kinds. Each type is an `Operator`, a record over its children, with the Rust's constructors.
use crate::Result;
use crate::expr::*;
use crate::facts;
use crate::plan::*;
use sort_placement::plan::{HASH, NO_FETCH, PRESERVE, Record, UNBOUNDED, kind::*};
use std::ops::Deref;
use std::sync::Arc;

type Plan = Arc<dyn ExecutionPlan>;

#[derive(Clone, Debug)]
pub struct Operator {
    pub record: Record,
    pub children: Vec<Plan>,
    pub nodes: usize,
    properties: Arc<PlanProperties>,
    /// the keys of the record
    ordering: Option<LexOrdering>,
    /// of a repartition
    partitioning: Option<Partitioning>,
}

fn partitioning_of(r: &Record) -> Option<Partitioning> {
    let streams = r.streams as usize;
    (r.kind == REPARTITION).then(|| {
        if r.is(HASH) {
            Partitioning::Hash(r.keys.iter().map(|k| column(k.0)).collect(), streams)
        } else {
            Partitioning::RoundRobinBatch(streams)
        }
    })
}

fn boundedness_of(r: &Record, children: &[Plan]) -> Boundedness {
    let unbounded = match r.kind {
        SOURCE => r.is(UNBOUNDED),
        GLOBAL_LIMIT | LOCAL_LIMIT => false,
        _ => children.iter().any(|c| c.boundedness().is_unbounded()),
    };
    if unbounded { Boundedness::Unbounded } else { Boundedness::Bounded }
}

impl Operator {
    pub fn new(record: Record, children: Vec<Plan>) -> Operator {
        let known = facts::of(&record, &children.iter().map(crate::plan::facts).collect::<Vec<_>>());
        let partitioning = partitioning_of(&record);
        let reported = partitioning.clone().unwrap_or(Partitioning::UnknownPartitioning(known.streams));
        let properties = Arc::new(PlanProperties::of(known, reported, boundedness_of(&record, &children)));
        let ordering = ordering(&record.keys);
        let nodes = 1 + children.iter().map(|c| c.count()).sum::<usize>();
        Operator { record, children, nodes, properties, ordering, partitioning }
    }

    /// A rewrite clears a repartition's preserve mark where it doesn't count, and keeps every other field.
    fn rebuilt(&self, children: Vec<Plan>) -> Operator {
        let mut record = self.record.clone();
        if record.kind == REPARTITION && !facts::preserve_counts(crate::plan::facts(&children[0])) {
            record.marks &= !PRESERVE;
        }
        Operator::new(record, children)
    }

    fn with(mut self, change: impl FnOnce(&mut Record)) -> Operator {
        change(&mut self.record);
        Operator::new(self.record, self.children)
    }

    pub fn input(&self) -> &Plan {
        &self.children[0]
    }

    pub fn left(&self) -> &Plan {
        &self.children[0]
    }

    pub fn right(&self) -> &Plan {
        &self.children[1]
    }

    pub fn expr(&self) -> &LexOrdering {
        self.ordering.as_ref().expect("keys")
    }

    pub fn preserve_partitioning(&self) -> bool {
        self.record.is(PRESERVE)
    }

    pub fn partitioning(&self) -> &Partitioning {
        self.partitioning.as_ref().expect("a repartition")
    }

    pub fn join_type(&self) -> JoinType {
        use JoinType::*;
        [Inner, Left, Right, Full, LeftSemi, LeftAnti, RightSemi, RightAnti][self.record.variant as usize]
    }

    /// A sort is final unless its child meets its keys.
    pub fn emission(&self) -> EmissionType {
        let is_final = self.record.kind == SORT && !crate::plan::facts(&self.children[0]).meets(&self.record.keys);
        if is_final { EmissionType::Final } else { EmissionType::Incremental }
    }

    fn maintains(&self) -> Vec<bool> {
        let children: Vec<_> = self.children.iter().map(crate::plan::facts).collect();
        facts::maintains(&self.record, &self.properties.eq_properties.0, &children)
    }

    fn wanted_orders(&self) -> Vec<Option<OrderingRequirements>> {
        facts::wanted(&self.record, self.children.len()).iter().map(|keys| ordering(keys).map(Into::into)).collect()
    }

    fn wanted_distributions(&self) -> Vec<Distribution> {
        use Distribution::*;
        let r = &self.record;
        let keyed = |columns: &mut dyn Iterator<Item = u8>| KeyPartitioned(columns.map(column).collect());
        match r.kind {
            SORT | PARTIAL_SORT if !r.is(PRESERVE) => vec![SinglePartition],
            GLOBAL_LIMIT => vec![SinglePartition],
            HASH_JOIN => vec![SinglePartition, UnspecifiedDistribution],
            SORT_MERGE_JOIN => vec![keyed(&mut r.keys.iter().map(|k| k.0)), keyed(&mut r.right.iter().copied())],
            _ => vec![UnspecifiedDistribution; self.children.len()],
        }
    }

    /// A projection's fetch is its input's.
    fn reported_fetch(&self) -> Option<usize> {
        match self.record.kind {
            PROJECTION => self.children[0].fetch(),
            _ => self.record.fetch().map(|f| f as usize),
        }
    }

    fn takes_limits(&self) -> bool {
        matches!(self.record.kind, PROJECTION | UNION | COALESCE | MERGE | GLOBAL_LIMIT | LOCAL_LIMIT)
    }

    fn cardinality(&self) -> CardinalityEffect {
        match self.record.kind {
            PROJECTION => CardinalityEffect::Equal,
            COALESCE | MERGE if self.record.fetch().is_none() => CardinalityEffect::Equal,
            _ => CardinalityEffect::Unknown,
        }
    }
}

macro_rules! operators {
    ($($name:ident $({ $field:ident: $type:ty })?)*) => {
        $(
            #[derive(Clone, Debug)]
            pub struct $name {
                op: Operator,
                $(pub $field: $type,)?
            }

            impl Deref for $name {
                type Target = Operator;
                fn deref(&self) -> &Operator {
                    &self.op
                }
            }

            impl DisplayAs for $name {}

            impl ExecutionPlan for $name {
                fn name(&self) -> &'static str {
                    stringify!($name)
                }
                fn operator(&self) -> Option<&Operator> {
                    Some(&self.op)
                }
                fn properties(&self) -> &Arc<PlanProperties> {
                    &self.op.properties
                }
                fn children(&self) -> Vec<&Plan> {
                    self.op.children.iter().collect()
                }
                fn with_new_children(self: Arc<Self>, children: Vec<Plan>) -> Result<Plan> {
                    Ok(Arc::new($name { op: self.op.rebuilt(children), $($field: self.$field.clone())? }))
                }
                fn maintains_input_order(&self) -> Vec<bool> {
                    self.op.maintains()
                }
                fn required_input_ordering(&self) -> Vec<Option<OrderingRequirements>> {
                    self.op.wanted_orders()
                }
                fn input_distribution_requirements(&self) -> InputDistributionRequirements {
                    InputDistributionRequirements::new(self.op.wanted_distributions())
                }
                fn fetch(&self) -> Option<usize> {
                    self.op.reported_fetch()
                }
                fn supports_limit_pushdown(&self) -> bool {
                    self.op.takes_limits()
                }
                fn cardinality_effect(&self) -> CardinalityEffect {
                    self.op.cardinality()
                }
            }
        )*
    };
}

operators! {
    SourceExec FilterExec UnionExec RepartitionExec CoalescePartitionsExec SortExec SortPreservingMergeExec
    GlobalLimitExec LocalLimitExec SortMergeJoinExec PartialSortExec
    HashJoinExec { projection: Option<Vec<usize>> }
    ProjectionExec { exprs: Vec<ProjectionExpr> }
    AggregateExec { groups: PhysicalGroupBy }
}

fn record(kind: u8, keys: &[PhysicalSortExpr]) -> Record {
    Record { keys: keys_of(keys.iter().cloned()), ..Record::new(kind) }
}

fn fetch_field(fetch: Option<usize>) -> u32 {
    fetch.map_or(NO_FETCH, |f| f as u32)
}

macro_rules! with_fetch {
    ($($name:ident)*) => {
        $(impl $name {
            pub fn with_fetch(mut self, fetch: Option<usize>) -> Self {
                self.op.record.fetch = fetch_field(fetch);
                self
            }
        })*
    };
}

with_fetch!(SortExec PartialSortExec SortPreservingMergeExec CoalescePartitionsExec);

fn set_preserve(r: &mut Record, on: bool) {
    r.marks = if on { r.marks | PRESERVE } else { r.marks & !PRESERVE };
}

impl SortExec {
    pub fn new(keys: LexOrdering, input: Plan) -> Self {
        Self { op: Operator::new(record(SORT, &keys), vec![input]) }
    }

    pub fn with_preserve_partitioning(self, on: bool) -> Self {
        Self { op: self.op.with(|r| set_preserve(r, on)) }
    }
}

impl PartialSortExec {
    pub fn new(keys: LexOrdering, input: Plan, prefix: usize) -> Self {
        Self { op: Operator::new(Record { variant: prefix as u8, ..record(PARTIAL_SORT, &keys) }, vec![input]) }
    }

    pub fn with_preserve_partitioning(self, on: bool) -> Self {
        Self { op: self.op.with(|r| set_preserve(r, on)) }
    }
}

impl SortPreservingMergeExec {
    pub fn new(keys: LexOrdering, input: Plan) -> Self {
        Self { op: Operator::new(record(MERGE, &keys), vec![input]) }
    }
}

impl CoalescePartitionsExec {
    pub fn new(input: Plan) -> Self {
        Self { op: Operator::new(record(COALESCE, &[]), vec![input]) }
    }
}

impl RepartitionExec {
    pub fn try_new(input: Plan, partitioning: Partitioning) -> Result<Self> {
        let mut r = Record { streams: partitioning.partition_count() as u8, ..Record::new(REPARTITION) };
        if let Partitioning::Hash(columns, _) = &partitioning {
            r.marks = HASH;
            r.keys = columns.iter().map(|c| (index_of(c) as u8, 0)).collect();
        }
        Ok(Self { op: Operator::new(r, vec![input]) })
    }

    pub fn with_preserve_order(self) -> Self {
        let counts = facts::preserve_counts(crate::plan::facts(self.input()));
        Self { op: self.op.with(|r| set_preserve(r, counts)) }
    }
}

impl GlobalLimitExec {
    pub fn new(input: Plan, skip: usize, fetch: Option<usize>) -> Self {
        let r = Record { skip: skip as u32, fetch: fetch_field(fetch), ..Record::new(GLOBAL_LIMIT) };
        Self { op: Operator::new(r, vec![input]) }
    }

    pub fn set_required_ordering(&mut self, note: Option<LexOrdering>) {
        self.op.record.keys = note.map_or(vec![], keys_of);
    }
}

impl LocalLimitExec {
    pub fn new(input: Plan, fetch: usize) -> Self {
        Self { op: Operator::new(Record { fetch: fetch as u32, ..Record::new(LOCAL_LIMIT) }, vec![input]) }
    }

    pub fn set_required_ordering(&mut self, note: Option<LexOrdering>) {
        self.op.record.keys = note.map_or(vec![], keys_of);
    }
}

impl SortMergeJoinExec {
    /// The side whose order is kept.
    pub fn probe_side(join_type: &JoinType) -> JoinSide {
        match join_type {
            JoinType::Right | JoinType::RightSemi | JoinType::RightAnti | JoinType::RightMark => JoinSide::Right,
            _ => JoinSide::Left,
        }
    }
}

/// The kept side's order, moved to its place.
pub fn calculate_join_output_ordering(
    left: Option<&LexOrdering>,
    right: Option<&LexOrdering>,
    join_type: JoinType,
    left_columns: usize,
    maintains: &[bool],
    _probe_side: Option<JoinSide>,
) -> Result<Option<LexOrdering>> {
    let offset = if join_type as u8 <= JoinType::Full as u8 { left_columns } else { 0 };
    let moved = |list: &LexOrdering| add_offset_to_physical_sort_exprs(list.to_vec(), offset as isize).map(LexOrdering::new);
    match (maintains, left, right) {
        ([true, _], left, _) => Ok(left.cloned()),
        ([_, true], _, Some(right)) => moved(right),
        _ => Ok(None),
    }
}

pub struct ColumnIndex {
    pub index: usize,
    pub side: JoinSide,
}

#[derive(Clone, Debug)]
pub struct ProjectionExpr {
    pub expr: Arc<dyn PhysicalExpr>,
}

impl ProjectionExec {
    pub fn expr(&self) -> &[ProjectionExpr] {
        &self.exprs
    }
}

/// An aggregate's group columns; grouping sets are left out.
#[derive(Clone, Debug)]
pub struct PhysicalGroupBy(Vec<Arc<dyn PhysicalExpr>>);

impl PhysicalGroupBy {
    pub fn has_grouping_set(&self) -> bool {
        false
    }

    pub fn input_exprs(&self) -> Vec<Arc<dyn PhysicalExpr>> {
        self.0.clone()
    }
}

impl AggregateExec {
    pub fn group_expr(&self) -> &PhysicalGroupBy {
        &self.groups
    }
}

/// The operator of a record; kind 13 is not among them.
pub fn operator(r: Record, children: Vec<Plan>) -> Plan {
    let kind = r.kind;
    let op = Operator::new(r, children);
    match kind {
        SOURCE => Arc::new(SourceExec { op }),
        FILTER => Arc::new(FilterExec { op }),
        PROJECTION => {
            let exprs = op.record.columns.iter().map(|c| ProjectionExpr { expr: column(*c) }).collect();
            Arc::new(ProjectionExec { op, exprs })
        }
        UNION => Arc::new(UnionExec { op }),
        REPARTITION => Arc::new(RepartitionExec { op }),
        COALESCE => Arc::new(CoalescePartitionsExec { op }),
        SORT => Arc::new(SortExec { op }),
        MERGE => Arc::new(SortPreservingMergeExec { op }),
        GLOBAL_LIMIT => Arc::new(GlobalLimitExec { op }),
        LOCAL_LIMIT => Arc::new(LocalLimitExec { op }),
        SORT_MERGE_JOIN => Arc::new(SortMergeJoinExec { op }),
        HASH_JOIN => Arc::new(HashJoinExec { op, projection: None }),
        PARTIAL_SORT => Arc::new(PartialSortExec { op }),
        AGGREGATE => {
            let groups = PhysicalGroupBy(op.record.keys.iter().map(|k| column(k.0)).collect());
            Arc::new(AggregateExec { op, groups })
        }
        _ => unreachable!("kind {kind}"),
    }
}
