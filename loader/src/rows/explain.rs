//! Why a dry run refuses a plan and its rows: what document 02 asks before the first step, in its order. Messages only; the
//! library's number is the answer.
use super::{Cell, MOST_ROWS, Order, Row, Rows, Stream, source_streams};
use crate::plan::Record;
use crate::plan::kind::{AGGREGATE, SOURCE, is_join};
use crate::why::{Fault, Why};
use crate::{Plan, Refusal};

/// A plan with a join or an aggregate isn't stepped: the first such node.
fn not_stepped(plan: &Plan) -> Option<Why> {
    let mut nodes = plan.root().walk().map(|(_, node)| node.record.kind).enumerate();
    let (number, kind) = nodes.find(|(_, kind)| is_join(*kind) || *kind == AGGREGATE)?;
    let what = if is_join(kind) { "a join" } else { "an aggregate" };
    let fault = Fault { field: "kind", words: format!("a plan with {what} is not stepped") };
    Some(Why::of_node(Refusal::NotStepped(number as u32), number, kind, fault))
}

/// Streams of one source with their rows.
type SourceRows<'a> = (&'a [Stream], &'a [Vec<Row>]);

/// A source's keys order each of its streams.
fn order_fault(r: &Record, (streams, rows): SourceRows) -> Option<Why> {
    let order = Order::of_keys(&r.keys);
    let (stream, row) = streams.iter().zip(rows).find_map(|(stream, rows)| Some((stream, order.first_out(rows)?)))?;
    let words = format!("it sorts before row {} by the declared order {order}", row - 1);
    Some(Why::of_row(stream, Some(row), Fault { field: "order", words }))
}

fn cell_words(cell: Cell) -> String {
    cell.map_or("null".into(), |number| number.to_string())
}

/// A constant column has one value over all streams of its source; null is a value.
fn column_fault(column: usize, (streams, rows): SourceRows) -> Option<Why> {
    let each = streams.iter().zip(rows).flat_map(|(stream, rows)| rows.iter().enumerate().map(move |row| (stream, row)));
    let mut cells = each.map(|(stream, (row, cells))| (stream, row, cells[column]));
    let (_, _, first) = cells.next()?;
    let (stream, row, other) = cells.find(|(_, _, cell)| *cell != first)?;
    let words =
        format!("column {column} is declared constant, and is {} before and {} here", cell_words(first), cell_words(other));
    Some(Why::of_row(stream, Some(row), Fault { field: "constant columns", words }))
}

fn constant_fault(r: &Record, rows: SourceRows) -> Option<Why> {
    (0..r.width as usize).filter(|c| r.set >> c & 1 == 1).find_map(|column| column_fault(column, rows))
}

/// What each source declares, source by source.
fn declared_fault(plan: &Plan, streams: &[Stream], rows: &Rows) -> Option<Why> {
    let sources = plan.root().walk().map(|(_, node)| &node.record).filter(|r| r.kind == SOURCE);
    let mut from = 0;
    for r in sources {
        let own = from..from + r.streams as usize;
        from = own.end;
        let rows = (&streams[own.clone()], &rows.streams[own]);
        if let Some(why) = order_fault(r, rows).or_else(|| constant_fault(r, rows)) {
            return Some(why);
        }
    }
    None
}

fn count_fault(rows: &Rows) -> Option<Why> {
    let count = rows.count();
    let words = || format!("the sources together have {count} rows, more than {MOST_ROWS}");
    (count > MOST_ROWS).then(|| Why::of_file(Refusal::TooManyRows, &words()))
}

/// Why a dry run refuses the rows of a plan's sources, or the plan, before its first step: 256 plus a node's number, 26 or 27.
/// `None` where it steps.
///
/// The number is the library's; the place and the words are the package's own.
///
/// ```
/// use sort_placement::{rows, text};
///
/// let plan = text::parse("filter\n  source streams=2 width=1 keys=0").unwrap();
/// let given = rows::parse("source 1 stream 1\n5\n4\n", &plan).unwrap();
/// let why = rows::explain(&plan, &given.write()).unwrap();
/// assert_eq!(why.words(), "node 1 (source): stream 1, row 1: it sorts before row 0 by the declared order 0al");
/// assert_eq!((why.refusal.number(), why.node, why.stream, why.row), (26, Some(1), Some(1), Some(1)));
/// ```
pub fn explain(plan: &Plan, rows: &[u8]) -> Option<Why> {
    if let Some(why) = not_stepped(plan) {
        return Some(why);
    }
    let streams = source_streams(plan);
    match Rows::read(rows, &streams) {
        Err(why) => Some(why),
        Ok(rows) => declared_fault(plan, &streams, &rows).or_else(|| count_fault(&rows)),
    }
}
