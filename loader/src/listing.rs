//! The listing of document 01's plan_list: number, depth, kind, streams, fetch, keys; a hyphen stands for none.
use crate::Plan;
use crate::facts::{Key, of_tree};
use crate::plan::kind;

/// Keys as `2al,0df`: column, a or d, nulls f or l.
pub(crate) fn keys_text(keys: &[Key]) -> String {
    let one = |(column, options): &Key| {
        let direction = if options & 1 == 0 { 'a' } else { 'd' };
        let nulls = if options & 2 == 0 { 'l' } else { 'f' };
        format!("{column}{direction}{nulls}")
    };
    if keys.is_empty() { "-".into() } else { keys.iter().map(one).collect::<Vec<_>>().join(",") }
}

/// A line for each node: number, depth, kind, streams, fetch, keys.
///
/// A key is its column, `a` for ascending or `d` for descending, and where nulls stand, `f` for first or `l` for last: `0al` is
/// column 0, ascending, nulls last. A hyphen stands for none.
///
/// ```
/// let plan = sort_placement::text::parse("merge keys=2\n  source streams=2 width=3 keys=2,0").unwrap();
/// let lines = "node depth kind streams fetch keys\n0 0 merge 1 - 2al\n1 1 source 2 - 2al,0al\n";
/// assert_eq!(sort_placement::listing(&plan), lines);
/// ```
pub fn listing(plan: &Plan) -> String {
    let mut out = String::from("node depth kind streams fetch keys\n");
    for (number, ((depth, node), facts)) in plan.root().walk().zip(of_tree(plan.root())).enumerate() {
        let r = &node.record;
        let fetch = r.fetch().map_or("-".into(), |f| f.to_string());
        out += &format!("{number} {depth} {} {} {fetch} {}\n", kind::name(r.kind), facts.streams, keys_text(&r.keys));
    }
    out
}
