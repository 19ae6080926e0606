//! Makes a plan smaller as long as a test holds of it.
use sort_placement::plan::{self, NO_FETCH, Node, Record, kind::*};

/// Simpler records of one node.
fn simpler(r: &Record) -> Vec<Record> {
    let mut out = vec![];
    let mut change = |f: &dyn Fn(&mut Record)| {
        let mut copy = r.clone();
        f(&mut copy);
        if copy != *r {
            out.push(copy);
        }
    };
    change(&|r| {
        r.keys.pop();
        r.right.truncate(r.keys.len());
    });
    change(&|r| r.keys.iter_mut().for_each(|k| k.1 = 0));
    change(&|r| r.fetch = if r.fetch().is_some() && r.kind != LOCAL_LIMIT { NO_FETCH } else { r.fetch });
    change(&|r| r.skip = 0);
    change(&|r| r.set &= r.set.wrapping_sub(1));
    for bit in 0..3 {
        change(&|r| r.marks &= !(1 << bit));
    }
    change(&|r| r.streams = r.streams.min(2));
    change(&|r| r.streams = r.streams.min(1));
    change(&|r| {
        if matches!(r.kind, SOURCE | AGGREGATE) {
            r.width -= 1;
        }
    });
    out
}

/// All plans that are one step smaller.
pub fn smaller(plan: &Node) -> Vec<Node> {
    let mut out = vec![];
    out.extend(plan.children.iter().cloned());
    for at in 0..plan.count() {
        let node = plan.at(at).expect("a node");
        let mut put = |new: Node| {
            let mut copy = plan.clone();
            *copy.at_mut(at).expect("a node") = new;
            out.push(copy);
        };
        for child in &node.children {
            put(child.clone());
        }
        if node.record.kind == UNION && node.children.len() > 2 {
            for i in 0..node.children.len() {
                let mut fewer = node.clone();
                fewer.children.remove(i);
                put(fewer);
            }
        }
        for record in simpler(&node.record) {
            put(Node::new(record, node.children.clone()));
        }
    }
    out
}

pub fn shrink(plan: Node, fails: &dyn Fn(&Node) -> bool) -> Node {
    shrink_by(plan, &|plans| plans.iter().position(fails))
}

/// The same, with a test that gives the first of many plans of which it holds.
pub fn shrink_by(plan: Node, first: &dyn Fn(&[Node]) -> Option<usize>) -> Node {
    let mut best = plan;
    loop {
        let mut plans: Vec<Node> = smaller(&best).into_iter().filter(|p| plan::read(&plan::write(p)).is_ok()).collect();
        match first(&plans) {
            Some(i) => best = plans.swap_remove(i),
            None => return best,
        }
    }
}
