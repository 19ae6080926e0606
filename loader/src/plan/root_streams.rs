//! How many streams a plan's root has and how wide they are, read off the file: what a dry run writes does not say it.
use super::file::each_record;
use super::kind::*;
use super::{MOST_NODES, PRESERVE};

/// A tree's streams, and their width.
type Streams = (usize, usize);

/// Those of a node over its children's.
fn over(r: &[u8], children: &[Streams]) -> Streams {
    let below = children.first().copied().unwrap_or_default();
    let streams = match r[0] {
        SOURCE | REPARTITION => r[2] as usize,
        UNION => children.iter().map(|c| c.0).sum(),
        COALESCE | MERGE | GLOBAL_LIMIT => 1,
        SORT | PARTIAL_SORT if r[3] & PRESERVE == 0 => 1,
        _ => below.0,
    };
    (streams, if matches!(r[0], SOURCE | PROJECTION) { r[13] as usize } else { below.1 })
}

/// The root's streams and width in an accepted file that has no joins and no aggregates. It allocates nothing.
pub(crate) fn root_streams(file: &[u8]) -> Streams {
    let (mut finished, mut count) = ([(0, 0); MOST_NODES], 0);
    for r in each_record(file).rev() {
        let first = count - r[1] as usize;
        finished[first] = over(r, &finished[first..count]);
        count = first + 1;
    }
    finished[0]
}

#[cfg(test)]
mod tests {
    use super::*;
    use crate::facts::of_tree;
    use crate::random::Rng;
    use crate::random_plans;

    #[test]
    fn they_are_those_of_the_facts() {
        let (mut rng, mut seen) = (Rng::new(11, 0), 0);
        for _ in 0..3_000 {
            let plan = random_plans::plan(&mut rng);
            if plan.root().any(&mut |n| is_join(n.record.kind) || n.record.kind == AGGREGATE) {
                continue;
            }
            let facts = &of_tree(plan.root())[0];
            assert_eq!(root_streams(&plan.write()), (facts.streams, facts.width));
            seen += 1;
        }
        assert!(seen > 500, "{seen}");
    }
}
