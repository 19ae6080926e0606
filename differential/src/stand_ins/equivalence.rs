//! Equivalence properties that answer by document 01's facts.
use crate::Result;
use crate::expr::*;
use crate::facts::Facts;
use std::cell::Cell;
use std::sync::Arc;

#[derive(Clone, Debug)]
pub struct EquivalenceProperties(pub Facts);

thread_local! {
    static MERGE_RULE: Cell<bool> = const { Cell::new(false) };
}

/// Runs with document 01's rule for a merge whose keys are all constant, in the place of the Rust's panic: its known order
/// is then a list that nothing meets, so that no order is pushed past the merge.
pub fn with_merge_rule<T>(run: impl FnOnce() -> T) -> T {
    MERGE_RULE.set(true);
    let result = run();
    MERGE_RULE.set(false);
    result
}

const MET_BY_NOTHING: u8 = u8::MAX;

impl EquivalenceProperties {
    pub fn is_expr_constant(&self, expr: &Arc<dyn PhysicalExpr>) -> Option<()> {
        self.0.is_constant(index_of(expr)).then_some(())
    }

    pub fn ordering_satisfy(&self, wanted: impl IntoIterator<Item = PhysicalSortExpr>) -> Result<bool> {
        let keys = keys_of(wanted);
        Ok(!keys.iter().any(|k| k.0 == MET_BY_NOTHING) && self.0.meets(&keys))
    }

    pub fn ordering_satisfy_requirement(&self, wanted: impl IntoIterator<Item = PhysicalSortRequirement>) -> Result<bool> {
        Ok(self.0.meets(&keys_of(wanted)))
    }

    pub fn requirements_compatible(&self, first: LexRequirement, second: LexRequirement) -> bool {
        self.0.compatible(&keys_of(first), &keys_of(second))
    }

    pub fn reorder(&mut self, list: impl IntoIterator<Item = PhysicalSortExpr>) -> Result<bool> {
        Ok(self.0.reorder(&keys_of(list)))
    }

    /// Asked by pushing alone, of a merge without a fetch.
    pub fn output_ordering(&self) -> Option<LexOrdering> {
        let rule = || if MERGE_RULE.get() { ordering(&[(MET_BY_NOTHING, 0)]) } else { None };
        ordering(&self.0.order).or_else(rule)
    }

    pub fn eq_group(&self) -> &Self {
        self
    }

    /// The columns equal to one, lowest first.
    pub fn get_equivalence_class(&self, expr: &Arc<dyn PhysicalExpr>) -> Option<Vec<Arc<dyn PhysicalExpr>>> {
        let low = self.0.class[index_of(expr)];
        Some((0..self.0.width as u8).filter(|c| self.0.class[*c as usize] == low).map(column).collect())
    }
}
