//! Makes a request smaller as long as the two sides differ on it.
use super::Request;
use super::stepper::row::Row;
use super::stepper::source_rows::{SourceRows, parsed, sources, written};
use crate::shrink;
use sort_placement::plan::{self, Node, Record};

/// A source's rows for another one in its place: streams and columns that it does not have go.
fn fitted(rows: &SourceRows, source: &Record) -> SourceRows {
    let row = |row: &Row| (0..source.width as usize).map(|column| row.get(column).copied().flatten()).collect();
    let stream = |stream: usize| rows.get(stream).map_or(vec![], |rows| rows.iter().map(row).collect());
    (0..source.streams as usize).map(stream).collect()
}

/// The rows for a smaller plan: each of its sources has those of the next that looks the same, or of the next.
fn rows_of(smaller: &Node, plan: &Node, rows: &[SourceRows]) -> Vec<u8> {
    let before = sources(plan);
    let mut next = 0;
    let mut all = vec![];
    for source in sources(smaller) {
        let same = (next..before.len()).find(|at| before[*at] == source);
        let at = same.unwrap_or(next.min(before.len() - 1));
        all.extend(fitted(&rows[at], source));
        next = at + 1;
    }
    written(&all)
}

fn with_smaller_plans(request: &Request, plan: &Node, rows: &[SourceRows]) -> Vec<Request> {
    let on = |smaller: Node| Request { rows: rows_of(&smaller, plan, rows), plan: plan::write(&smaller), ..request.clone() };
    shrink::smaller(plan).into_iter().map(on).collect()
}

fn with_fewer_rows(request: &Request, rows: &[SourceRows]) -> Vec<Request> {
    let streams = rows.concat();
    let mut out = vec![];
    for at in 0..streams.len() {
        let mut with = |rows: Vec<Row>| {
            let mut fewer = streams.clone();
            fewer[at] = rows;
            out.push(Request { rows: written(&fewer), ..request.clone() });
        };
        let stream = &streams[at];
        if stream.len() > 1 {
            with(vec![]);
        }
        (0..stream.len()).for_each(|i| with([&stream[..i], &stream[i + 1..]].concat()));
    }
    out
}

/// Shorter lists, and a zero in the place of one of the first bytes.
fn with_shorter_lists(request: &Request) -> Vec<Request> {
    const ZEROED: usize = 64;
    let list = &request.choices;
    let lengths = [0, list.len() / 2, list.len().saturating_sub(1)];
    let shorter = lengths.into_iter().filter(|length| *length < list.len()).map(|length| list[..length].to_vec());
    let others = (0..list.len().min(ZEROED)).filter(|at| list[*at] != 0);
    let zeroed = others.map(|at| [&list[..at], &[0], &list[at + 1..]].concat());
    shorter.chain(zeroed).map(|choices| Request { choices, ..request.clone() }).collect()
}

fn smaller(request: &Request) -> Vec<Request> {
    let mut out = vec![];
    if let Ok(plan) = plan::read(&request.plan)
        && let Some(rows) = parsed(&request.rows, &sources(&plan))
    {
        out.extend(with_smaller_plans(request, &plan, &rows));
        out.extend(with_fewer_rows(request, &rows));
    }
    out.extend(with_shorter_lists(request));
    out
}

/// The smallest that is found by single steps.
pub fn shrunk(request: Request, differs: &dyn Fn(&Request) -> bool) -> Request {
    let mut best = request;
    while let Some(next) = smaller(&best).into_iter().find(differs) {
        best = next;
    }
    best
}

#[cfg(test)]
mod tests {
    use super::super::stepper::delivered;
    use super::*;
    use sort_placement::text;

    /// What is left of a plan, its rows and its list, for a test that wants two delivered rows.
    #[test]
    fn nothing_is_left_that_the_test_does_not_want() {
        let plan = "merge keys=0\n  filter\n    union\n      source streams=2 width=2\n      source streams=1 width=2\n";
        let row = |number: i64| vec![Some(number), None];
        let rows = written(&[vec![row(1), row(2)], vec![row(3)], vec![row(4), row(5)]]);
        let plan = text::parse(plan).expect("a plan").write();
        let request = Request { plan, rows, choices: vec![3, 0, 2], room: 1000 };
        let has_two = |r: &Request| delivered(r).is_ok_and(|streams| streams.iter().map(Vec::len).sum::<usize>() >= 2);
        assert!(has_two(&request));
        let small = shrunk(request, &has_two);
        let plan = plan::read(&small.plan).expect("a plan");
        assert_eq!((plan.count(), plan.record.width, plan.record.streams), (1, 1, 1));
        assert_eq!((delivered(&small).map(|streams| streams[0].len()), small.choices.len()), (Ok(2), 0));
    }
}
