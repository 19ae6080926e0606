//! Expressions and lists of them. Keys are columns; requirements are single and hard.
use crate::facts::Key;
use std::any::Any;
use std::collections::HashSet;
use std::fmt;
use std::ops::Deref;
use std::sync::{Arc, LazyLock};

pub trait PhysicalExpr: Any + fmt::Debug + fmt::Display + Send + Sync {}

impl dyn PhysicalExpr {
    pub fn downcast_ref<T: PhysicalExpr>(&self) -> Option<&T> {
        (self as &dyn Any).downcast_ref()
    }

    pub fn is<T: PhysicalExpr>(&self) -> bool {
        (self as &dyn Any).is::<T>()
    }
}

/// A column by its index; names play no part.
#[derive(Clone, Debug, PartialEq, Eq, Hash)]
pub struct Column(usize);

impl Column {
    pub fn new(_name: &str, index: usize) -> Column {
        Column(index)
    }

    pub fn index(&self) -> usize {
        self.0
    }
}

impl fmt::Display for Column {
    fn fmt(&self, f: &mut fmt::Formatter) -> fmt::Result {
        write!(f, "{}", self.0)
    }
}

impl PhysicalExpr for Column {}

static COLUMNS: LazyLock<Vec<Arc<dyn PhysicalExpr>>> = LazyLock::new(|| (0..256).map(|i| Arc::new(Column(i)) as _).collect());

pub fn column(index: u8) -> Arc<dyn PhysicalExpr> {
    Arc::clone(&COLUMNS[index as usize])
}

pub fn index_of(expr: &Arc<dyn PhysicalExpr>) -> usize {
    expr.downcast_ref::<Column>().expect("keys are columns").0
}

pub fn collect_columns(expr: &Arc<dyn PhysicalExpr>) -> HashSet<Column> {
    HashSet::from([Column(index_of(expr))])
}

#[derive(Clone, Copy, Debug, Default, PartialEq, Eq)]
pub struct SortOptions {
    pub descending: bool,
    pub nulls_first: bool,
}

fn options_of(bits: u8) -> SortOptions {
    SortOptions { descending: bits & 1 != 0, nulls_first: bits & 2 != 0 }
}

fn bits_of(options: SortOptions) -> u8 {
    options.descending as u8 | (options.nulls_first as u8) << 1
}

#[derive(Clone, Debug)]
pub struct PhysicalSortExpr {
    pub expr: Arc<dyn PhysicalExpr>,
    pub options: SortOptions,
}

#[derive(Clone, Debug)]
pub struct PhysicalSortRequirement {
    pub expr: Arc<dyn PhysicalExpr>,
    pub options: Option<SortOptions>,
}

impl PhysicalSortRequirement {
    pub fn new(expr: Arc<dyn PhysicalExpr>, options: Option<SortOptions>) -> Self {
        Self { expr, options }
    }

    /// Compared as they stand: the same column with the same options.
    pub fn compatible(&self, other: &Self) -> bool {
        index_of(&self.expr) == index_of(&other.expr) && other.options.is_none_or(|o| self.options == Some(o))
    }
}

impl From<PhysicalSortRequirement> for PhysicalSortExpr {
    fn from(r: PhysicalSortRequirement) -> Self {
        PhysicalSortExpr { expr: r.expr, options: r.options.unwrap_or_default() }
    }
}

impl From<PhysicalSortExpr> for PhysicalSortRequirement {
    fn from(e: PhysicalSortExpr) -> Self {
        PhysicalSortRequirement { expr: e.expr, options: Some(e.options) }
    }
}

/// A list's columns and options.
pub trait AsKey {
    fn key(&self) -> Key;
}

impl AsKey for PhysicalSortExpr {
    fn key(&self) -> Key {
        (index_of(&self.expr) as u8, bits_of(self.options))
    }
}

impl AsKey for PhysicalSortRequirement {
    fn key(&self) -> Key {
        (index_of(&self.expr) as u8, bits_of(self.options.unwrap_or_default()))
    }
}

pub fn keys_of<T: AsKey>(list: impl IntoIterator<Item = T>) -> Vec<Key> {
    list.into_iter().map(|e| e.key()).collect()
}

/// A list that is never empty and drops a column's later repeats.
macro_rules! key_list {
    ($name:ident, $item:ident) => {
        #[derive(Clone, Debug)]
        pub struct $name(Vec<$item>);

        impl $name {
            pub fn new(items: impl IntoIterator<Item = $item>) -> Option<Self> {
                let mut seen = HashSet::new();
                let list: Vec<_> = items.into_iter().filter(|e| seen.insert(index_of(&e.expr))).collect();
                (!list.is_empty()).then_some(Self(list))
            }
        }

        impl Deref for $name {
            type Target = [$item];
            fn deref(&self) -> &[$item] {
                &self.0
            }
        }

        impl IntoIterator for $name {
            type Item = $item;
            type IntoIter = std::vec::IntoIter<$item>;
            fn into_iter(self) -> Self::IntoIter {
                self.0.into_iter()
            }
        }

        impl From<$name> for Vec<$item> {
            fn from(list: $name) -> Self {
                list.0
            }
        }
    };
}

key_list!(LexOrdering, PhysicalSortExpr);
key_list!(LexRequirement, PhysicalSortRequirement);

/// An ordering as a file has it.
pub fn ordering(keys: &[Key]) -> Option<LexOrdering> {
    LexOrdering::new(keys.iter().map(|(c, o)| PhysicalSortExpr { expr: column(*c), options: options_of(*o) }))
}

impl From<LexOrdering> for LexRequirement {
    fn from(list: LexOrdering) -> Self {
        LexRequirement(list.into_iter().map(Into::into).collect())
    }
}

impl From<LexRequirement> for LexOrdering {
    fn from(list: LexRequirement) -> Self {
        LexOrdering(list.into_iter().map(Into::into).collect())
    }
}

#[derive(Clone, Debug)]
pub enum OrderingRequirements {
    Hard(Vec<LexRequirement>),
    Soft(Vec<LexRequirement>),
}

impl OrderingRequirements {
    pub fn new(list: LexRequirement) -> Self {
        Self::Hard(vec![list])
    }

    pub fn new_alternatives(lists: impl IntoIterator<Item = LexRequirement>, soft: bool) -> Option<Self> {
        let lists: Vec<_> = lists.into_iter().collect();
        (!lists.is_empty()).then(|| if soft { Self::Soft(lists) } else { Self::Hard(lists) })
    }

    pub fn first(&self) -> &LexRequirement {
        match self {
            Self::Hard(lists) | Self::Soft(lists) => &lists[0],
        }
    }

    pub fn into_single(self) -> LexRequirement {
        self.into_alternatives().0.swap_remove(0)
    }

    pub fn into_alternatives(self) -> (Vec<LexRequirement>, bool) {
        match self {
            Self::Hard(lists) => (lists, false),
            Self::Soft(lists) => (lists, true),
        }
    }
}

impl From<LexOrdering> for OrderingRequirements {
    fn from(list: LexOrdering) -> Self {
        Self::new(list.into())
    }
}

pub fn add_offset_to_physical_sort_exprs(list: Vec<PhysicalSortExpr>, offset: isize) -> crate::Result<Vec<PhysicalSortExpr>> {
    let moved = |e: PhysicalSortExpr| {
        let index = (index_of(&e.expr) as isize + offset) as usize;
        PhysicalSortExpr { expr: Arc::new(Column(index)), options: e.options }
    };
    Ok(list.into_iter().map(moved).collect())
}

#[derive(Clone, Debug)]
pub enum Distribution {
    UnspecifiedDistribution,
    SinglePartition,
    #[deprecated]
    HashPartitioned(Vec<Arc<dyn PhysicalExpr>>),
    KeyPartitioned(Vec<Arc<dyn PhysicalExpr>>),
}

impl fmt::Display for Distribution {
    fn fmt(&self, f: &mut fmt::Formatter) -> fmt::Result {
        write!(f, "{self:?}")
    }
}

#[derive(Clone, Debug)]
pub enum Partitioning {
    RoundRobinBatch(usize),
    Hash(Vec<Arc<dyn PhysicalExpr>>, usize),
    UnknownPartitioning(usize),
}

impl Partitioning {
    pub fn partition_count(&self) -> usize {
        match self {
            Self::RoundRobinBatch(n) | Self::Hash(_, n) | Self::UnknownPartitioning(n) => *n,
        }
    }
}

/// Equal only between two repartitions of equal streams, hash mark and key list.
impl PartialEq for Partitioning {
    fn eq(&self, other: &Self) -> bool {
        match (self, other) {
            (Self::RoundRobinBatch(n), Self::RoundRobinBatch(m)) => n == m,
            (Self::Hash(a, n), Self::Hash(b, m)) => n == m && a.iter().map(index_of).eq(b.iter().map(index_of)),
            _ => false,
        }
    }
}

#[derive(Clone, Copy, Debug, PartialEq, Eq)]
#[repr(u8)]
pub enum JoinType {
    Inner,
    Left,
    Right,
    Full,
    LeftSemi,
    LeftAnti,
    RightSemi,
    RightAnti,
    LeftMark,
    RightMark,
}

impl fmt::Display for JoinType {
    fn fmt(&self, f: &mut fmt::Formatter) -> fmt::Result {
        write!(f, "{self:?}")
    }
}

#[derive(Clone, Copy, Debug, PartialEq, Eq)]
pub enum JoinSide {
    Left,
    Right,
    None,
}
