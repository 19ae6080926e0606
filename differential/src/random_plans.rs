//! Random plans that documents 01 and 02 accept: all kinds, join types and settings, from 1 to 126 nodes.
use sort_placement::plan::{HASH, MOST_NODES, NO_FETCH, Node, PRESERVE, Record, UNBOUNDED, kind::*};
pub use sort_placement::random::Rng;

/// What the nodes of one plan have in common, so that orders meet more often than by chance.
struct Style {
    kinds: &'static [u8],
    theme: Vec<(u8, u8)>,
    most_width: usize,
    /// one in so many
    fetches: usize,
    constants: usize,
    unbounded: usize,
    several_streams: usize,
    /// zero for none
    aggregates: usize,
}

const FAMILIES: [&[u8]; 7] = [
    &[
        FILTER,
        PROJECTION,
        UNION,
        REPARTITION,
        COALESCE,
        SORT,
        SORT,
        MERGE,
        GLOBAL_LIMIT,
        LOCAL_LIMIT,
        SORT_MERGE_JOIN,
        HASH_JOIN,
        OUTPUT_REQUIREMENT,
    ],
    // ensuring
    &[SORT, SORT, SORT, MERGE, MERGE, FILTER, OUTPUT_REQUIREMENT, REPARTITION, LOCAL_LIMIT, UNION, SORT_MERGE_JOIN],
    // parallelizing
    &[SORT, MERGE, COALESCE, COALESCE, REPARTITION, REPARTITION, FILTER, HASH_JOIN, OUTPUT_REQUIREMENT, UNION],
    // order-preserving
    &[SORT, SORT, COALESCE, REPARTITION, REPARTITION, FILTER, PROJECTION, MERGE, UNION],
    // pushing
    &[
        SORT,
        SORT,
        PROJECTION,
        FILTER,
        UNION,
        SORT_MERGE_JOIN,
        SORT_MERGE_JOIN,
        HASH_JOIN,
        MERGE,
        GLOBAL_LIMIT,
        LOCAL_LIMIT,
        OUTPUT_REQUIREMENT,
    ],
    // joins
    &[SORT, SORT_MERGE_JOIN, SORT_MERGE_JOIN, HASH_JOIN, HASH_JOIN, OUTPUT_REQUIREMENT, REPARTITION, PROJECTION],
    // chains that grow
    &[SORT, SORT, OUTPUT_REQUIREMENT, OUTPUT_REQUIREMENT, REPARTITION, MERGE, LOCAL_LIMIT],
];

fn style(rng: &mut Rng, aggregates: bool) -> Style {
    let mut columns = vec![0u8, 1, 2];
    let plain = rng.one_in(2);
    let theme = (0..3)
        .map(|_| (columns.swap_remove(rng.below(columns.len())), if plain { 0 } else { rng.pick(&[0, 0, 1, 2, 3]) }))
        .collect();
    Style {
        kinds: FAMILIES[rng.below(FAMILIES.len())],
        theme,
        most_width: rng.pick(&[2, 3, 3, 3, 5, 32]),
        fetches: rng.pick(&[2, 4, 4, 20]),
        constants: rng.pick(&[2, 10, 30, 1000, 1000]),
        unbounded: rng.pick(&[2, 6, 50]),
        several_streams: rng.pick(&[1, 2, 2]),
        aggregates: if aggregates { rng.pick(&[0, 0, 5, 10]) } else { 0 },
    }
}

/// Distinct columns below a width, low ones more often.
fn columns(rng: &mut Rng, width: usize, count: usize) -> Vec<u8> {
    let reach = if rng.one_in(6) { width } else { width.min(3) };
    let mut all: Vec<u8> = (0..reach as u8).collect();
    (0..count.min(reach)).map(|_| all.swap_remove(rng.below(all.len()))).collect()
}

fn keys(rng: &mut Rng, s: &Style, width: usize, least: usize) -> Vec<(u8, u8)> {
    if !rng.one_in(4) {
        let mut themed: Vec<_> = s.theme.iter().copied().filter(|k| (k.0 as usize) < width).collect();
        themed.truncate(least.max(rng.below(4)).max(usize::from(!rng.one_in(6))));
        if themed.len() >= least {
            return themed;
        }
    }
    let most = if rng.one_in(12) { 8 } else { 2 };
    let count = least + rng.below(most + 1 - least);
    let odd = rng.one_in(3);
    columns(rng, width, count).into_iter().map(|c| (c, if odd { rng.below(4) as u8 } else { 0 })).collect()
}

fn fetch(rng: &mut Rng, s: &Style) -> u32 {
    if rng.one_in(s.fetches) { rng.pick(&[0, 1, 2, 3, 4, 5, 8, NO_FETCH - 1]) } else { NO_FETCH }
}

fn set(rng: &mut Rng, width: usize, ones: usize) -> u32 {
    columns(rng, width, ones).into_iter().fold(0, |set, c| set | 1 << c)
}

fn streams(rng: &mut Rng, s: &Style) -> u8 {
    if rng.one_in(s.several_streams) { rng.pick(&[2, 2, 2, 3, 4, 64]) } else { 1 }
}

fn source(rng: &mut Rng, s: &Style) -> Node {
    let width = if s.most_width == 32 { 1 + rng.below(32) } else { rng.pick(&[1, s.most_width, s.most_width, s.most_width]) };
    let mut r = Record { width: width as u8, streams: streams(rng, s), ..Record::new(SOURCE) };
    r.marks = if rng.one_in(s.unbounded) { UNBOUNDED } else { 0 };
    r.keys = if rng.one_in(2) { keys(rng, s, width, 0) } else { vec![] };
    r.set = if rng.one_in(s.constants) {
        let ones = 1 + rng.below(3);
        set(rng, width, ones)
    } else {
        0
    };
    Node::new(r, vec![])
}

fn join(rng: &mut Rng, s: &Style, kind: u8, size: usize) -> Node {
    let left = 1 + rng.below(size - 2);
    let children = vec![plan_of(rng, s, left), plan_of(rng, s, size - 1 - left)];
    let (l, r) = (children[0].width(), children[1].width());
    let mut record = Record::new(kind);
    record.variant = if l + r > 32 { 4 + rng.below(4) as u8 } else { rng.pick(&[0, 0, 0, 1, 2, 3, 4, 5, 6, 7]) };
    record.keys = keys(rng, s, l, 1);
    if kind == HASH_JOIN {
        record.keys.iter_mut().for_each(|k| k.1 = 0);
    }
    let straight = record.keys.iter().all(|k| (k.0 as usize) < r) && !rng.one_in(3);
    record.right = if straight { record.keys.iter().map(|k| k.0).collect() } else { columns(rng, r, record.keys.len()) };
    record.keys.truncate(record.right.len());
    Node::new(record, children)
}

fn projection(rng: &mut Rng, child: Node, width: usize) -> Node {
    let below = child.width();
    let mut r = Record { width: width as u8, ..Record::new(PROJECTION) };
    r.columns = match rng.below(3) {
        0 if width <= below => (0..width as u8).collect(),
        1 if width <= below => {
            let mut all: Vec<u8> = (0..below as u8).collect();
            (0..width).map(|_| all.swap_remove(rng.below(all.len()))).collect()
        }
        _ => (0..width).map(|_| rng.below(below) as u8).collect(),
    };
    Node::new(r, vec![child])
}

fn union(rng: &mut Rng, s: &Style, size: usize) -> Node {
    let count = if rng.one_in(8) { 2 + rng.below(7) } else { 2 }.min(size - 1);
    let share = (size - 1) / count;
    let mut children: Vec<Node> = (0..count).map(|_| plan_of(rng, s, share.max(1))).collect();
    let width = children.iter().map(Node::width).min().expect("a child");
    for child in &mut children {
        if child.width() != width {
            *child = projection(rng, child.clone(), width);
        }
    }
    Node::new(Record::new(UNION), children)
}

fn unary(rng: &mut Rng, s: &Style, kind: u8, child: Node) -> Node {
    let width = child.width();
    let mut r = Record::new(kind);
    match kind {
        PROJECTION => {
            let wide = if rng.one_in(8) { 1 + rng.below(32) } else { rng.pick(&[1, 2, 3, width.min(5)]) };
            return projection(rng, child, wide);
        }
        REPARTITION => {
            r.streams = streams(rng, s);
            if rng.one_in(2) {
                r.marks = PRESERVE;
            }
            if rng.one_in(3) {
                r.marks |= HASH;
                r.keys = keys(rng, s, width, 1).into_iter().map(|k| (k.0, 0)).collect();
            }
        }
        COALESCE => r.fetch = if rng.one_in(3) { fetch(rng, s) } else { NO_FETCH },
        SORT | MERGE => {
            r.fetch = fetch(rng, s);
            r.keys = keys(rng, s, width, 1);
            if kind == SORT && rng.one_in(2) {
                r.marks = PRESERVE;
            }
        }
        GLOBAL_LIMIT => {
            r.fetch = fetch(rng, s);
            r.skip = if rng.one_in(3) { rng.below(4) as u32 } else { 0 };
            r.keys = if rng.one_in(3) { keys(rng, s, width, 0) } else { vec![] };
        }
        LOCAL_LIMIT => {
            r.fetch = rng.below(9) as u32;
            r.keys = if rng.one_in(3) { keys(rng, s, width, 0) } else { vec![] };
        }
        OUTPUT_REQUIREMENT => {
            r.fetch = fetch(rng, s);
            r.keys = keys(rng, s, width, 0);
            r.variant = rng.below(3) as u8;
            if r.variant == 2 {
                let ones = 1 + rng.below(8);
                r.set = set(rng, width, ones);
            }
        }
        PARTIAL_SORT => {
            r.fetch = fetch(rng, s);
            r.keys = keys(rng, s, width, 2);
            r.variant = 1 + rng.below(r.keys.len() - 1) as u8;
            if rng.one_in(2) {
                r.marks = PRESERVE;
            }
        }
        _ => {}
    }
    Node::new(r, vec![child])
}

/// Group columns as they stand below, so that an order keeps its columns, or as keys are; then some aggregate columns.
fn aggregate(rng: &mut Rng, s: &Style, child: Node) -> Node {
    let groups: Vec<u8> = if rng.one_in(2) {
        let most = if rng.one_in(6) { 8 } else { 3 };
        (0..child.width().min(1 + rng.below(most)) as u8).collect()
    } else {
        keys(rng, s, child.width(), 1).iter().map(|k| k.0).collect()
    };
    let most = if rng.one_in(12) { 32 - groups.len() } else { 2 };
    let mut r = Record { width: (groups.len() + rng.below(most + 1)) as u8, ..Record::new(AGGREGATE) };
    r.keys = groups.into_iter().map(|c| (c, 0)).collect();
    Node::new(r, vec![child])
}

/// An aggregate, or a surveyor's list over one: its last column alone, ordered by a group column.
fn grouped(rng: &mut Rng, s: &Style, size: usize) -> Node {
    let listed = size >= 4 && rng.one_in(4);
    let child = plan_of(rng, s, if listed { size - 3 } else { size - 1 });
    let below = aggregate(rng, s, child);
    if !listed {
        return below;
    }
    let list = Record { width: 1, columns: vec![below.record.width - 1], ..Record::new(PROJECTION) };
    let by = rng.below(below.record.keys.len()) as u8;
    let sort = Record { keys: vec![(by, s.theme[0].1)], fetch: fetch(rng, s), ..Record::new(SORT) };
    Node::new(list, vec![Node::new(sort, vec![below])])
}

fn plan_of(rng: &mut Rng, s: &Style, size: usize) -> Node {
    if size <= 1 {
        return source(rng, s);
    }
    if s.aggregates != 0 && rng.one_in(s.aggregates) {
        return grouped(rng, s, size);
    }
    match rng.pick(s.kinds) {
        UNION if size >= 3 => union(rng, s, size),
        kind @ (SORT_MERGE_JOIN | HASH_JOIN) if size >= 3 => join(rng, s, kind, size),
        UNION | SORT_MERGE_JOIN | HASH_JOIN => {
            let child = plan_of(rng, s, size - 1);
            unary(rng, s, SORT, child)
        }
        kind => {
            let child = plan_of(rng, s, size - 1);
            unary(rng, s, kind, child)
        }
    }
}

/// A partial sort put above some node.
fn with_partial_sort(rng: &mut Rng, s: &Style, mut plan: Node) -> Node {
    let at = rng.below(plan.count());
    let node = plan.at_mut(at).expect("a node");
    if node.width() >= 2 {
        *node = unary(rng, s, PARTIAL_SORT, node.clone());
    }
    plan
}

/// A plan of 1 to 126 nodes.
pub fn plan(rng: &mut Rng) -> Node {
    plan_with(rng, true)
}

/// The same, with or without aggregates. A seed's plans without them are those from before there were any, so that the times of
/// two libraries can be held against each other.
pub fn plan_with(rng: &mut Rng, aggregates: bool) -> Node {
    loop {
        let s = style(rng, aggregates);
        let size = match rng.below(16) {
            0..=7 => 1 + rng.below(9),
            8..=12 => 5 + rng.below(20),
            13 | 14 => 20 + rng.below(60),
            _ if rng.one_in(2) => 100 + rng.below(27),
            _ => MOST_NODES - rng.below(3),
        };
        let mut plan = plan_of(rng, &s, size);
        if rng.one_in(24) {
            plan = with_partial_sort(rng, &s, plan);
        }
        if plan.count() <= MOST_NODES {
            return plan;
        }
    }
}

/// Puts above some node a projection that shows a column twice, so that columns are equal.
fn with_equal_columns(rng: &mut Rng, mut plan: Node) -> Node {
    let at = rng.below(plan.count());
    let node = plan.at_mut(at).expect("a node");
    let width = node.width();
    let columns = (0..width).map(|_| rng.below(width.min(2)) as u8).collect();
    let record = Record { width: width as u8, columns, ..Record::new(PROJECTION) };
    *node = Node::new(record, vec![node.clone()]);
    plan
}

/// A plan of a few nodes, in one block mostly, with equal and constant columns more often than others.
pub fn small_plan(rng: &mut Rng) -> Node {
    let s = Style {
        most_width: rng.pick(&[2, 3, 3]),
        fetches: rng.pick(&[3, 20]),
        constants: rng.pick(&[2, 6, 1000]),
        unbounded: rng.pick(&[2, 6]),
        ..style(rng, true)
    };
    let size = 2 + rng.below(6);
    let plan = plan_of(rng, &s, size);
    match rng.below(12) {
        0 => with_partial_sort(rng, &s, plan),
        1..=4 => with_equal_columns(rng, plan),
        _ => plan,
    }
}

/// The kinds that dry runs step.
const STEPPED: &[u8] = &[
    FILTER,
    PROJECTION,
    UNION,
    REPARTITION,
    REPARTITION,
    COALESCE,
    SORT,
    SORT,
    MERGE,
    MERGE,
    GLOBAL_LIMIT,
    LOCAL_LIMIT,
    OUTPUT_REQUIREMENT,
];

/// A plan without joins and aggregates, of a few nodes mostly.
pub fn stepped_plan(rng: &mut Rng) -> Node {
    loop {
        let s = Style { kinds: STEPPED, constants: rng.pick(&[2, 4, 1000]), ..style(rng, false) };
        let size = match rng.below(16) {
            0..=9 => 1 + rng.below(8),
            10..=13 => 5 + rng.below(12),
            14 => 10 + rng.below(40),
            _ => MOST_NODES - rng.below(70),
        };
        let mut plan = plan_of(rng, &s, size);
        if rng.one_in(8) {
            plan = with_partial_sort(rng, &s, plan);
        }
        if rng.one_in(6) {
            plan = with_equal_columns(rng, plan);
        }
        if plan.count() <= MOST_NODES {
            return plan;
        }
    }
}

/// A plan of about that many nodes, without partial sorts.
pub fn plan_of_size(rng: &mut Rng, nodes: usize, aggregates: bool) -> Node {
    let s = style(rng, aggregates);
    plan_of(rng, &s, nodes)
}
