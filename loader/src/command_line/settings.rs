//! The order-preserving walk with each of its settings, and what dry runs of its answers deliver, side by side.
use crate::commands::rewrite;
use crate::dry_runs::DryRun;
use crate::failure::Failure;
use crate::request::Rewrite;
use crate::side_by_side::side_by_side;
use sort_placement::rows::{Order, Rows, show_row};
use sort_placement::{Plan, Settings};

/// All of them, by the words that the command line has for those that are on.
const ALL: [&str; 8] = ["none", "spr", "spm", "prefer", "spr spm", "spr prefer", "spm prefer", "spr spm prefer"];

fn settings(name: &str) -> Settings {
    let on = |word| name.split(' ').any(|w| w == word);
    let mut settings = Settings::default();
    settings.spr_better = on("spr");
    settings.spm_better = on("spm");
    settings.prefer_existing = on("prefer");
    settings
}

/// A plan, or why there is none, and the names of the settings that answer it.
struct Answer {
    names: Vec<&'static str>,
    plan: Result<Plan, String>,
}

fn walked(plan: &Plan, name: &str) -> Result<Plan, String> {
    let file = rewrite(Rewrite::Preserve(settings(name)), &plan.write()).map_err(|failure| failure.to_string())?;
    Plan::read(&file).map_err(|why| why.to_string())
}

/// The plan as it is given, then the walk's answers; equal ones are one.
fn answers(plan: &Plan) -> Vec<Answer> {
    let mut out = vec![Answer { names: vec!["given"], plan: Ok(plan.clone()) }];
    for name in ALL {
        let plan = walked(plan, name);
        match out.iter_mut().find(|answer| answer.plan == plan) {
            Some(answer) => answer.names.push(name),
            None => out.push(Answer { names: vec![name], plan }),
        }
    }
    out
}

/// A plan that was stepped.
struct Column {
    letter: char,
    nodes: usize,
    passes: bool,
    rows: Rows,
    /// by stream and row
    out_of_order: Vec<Vec<bool>>,
}

impl Column {
    fn new(letter: char, plan: &Plan, run: &DryRun, order: &Order) -> Result<Column, Failure> {
        let passes = sort_placement::check_order(&plan.write()).map_err(Failure::Called)?;
        let rows = run.of(plan)?;
        let out_of_order = rows.streams.iter().map(|stream| order.out_of_order(stream)).collect();
        Ok(Column { letter, nodes: plan.count(), passes, rows, out_of_order })
    }

    /// The rows of a stream, those that are out of order marked.
    fn stream(&self, stream: usize) -> Vec<String> {
        let (Some(rows), Some(marks)) = (self.rows.streams.get(stream), self.out_of_order.get(stream)) else { return vec![] };
        rows.iter().zip(marks).map(|(row, out)| show_row(row) + if *out { " *" } else { "" }).collect()
    }

    /// A line for each of the heads.
    fn head(&self) -> Vec<String> {
        let passes = if self.passes { "passes" } else { "does not pass" };
        let marked = self.out_of_order.iter().flatten().filter(|out| **out).count();
        let [nodes, streams, rows, marked] =
            [self.nodes, self.rows.streams.len(), self.rows.count(), marked].map(|n| n.to_string());
        vec![self.letter.into(), nodes, passes.into(), streams, rows, marked]
    }
}

const HEADS: [&str; 6] = ["", "nodes", "check", "streams", "rows", "out of order"];

/// The columns' heads and the streams that have rows in one of them.
fn table(columns: &[Column]) -> String {
    let mut labels: Vec<String> = HEADS.map(Into::into).into();
    let mut texts: Vec<Vec<String>> = columns.iter().map(Column::head).collect();
    let streams = columns.iter().map(|c| c.rows.streams.len()).max().unwrap_or(0);
    for stream in 0..streams {
        let rows: Vec<Vec<String>> = columns.iter().map(|c| c.stream(stream)).collect();
        let most = rows.iter().map(Vec::len).max().unwrap_or(0);
        labels.extend((0..most).map(|row| if row == 0 { format!("stream {stream}") } else { String::new() }));
        for (text, mut rows) in texts.iter_mut().zip(rows) {
            rows.resize(most, String::new());
            text.extend(rows);
        }
    }
    side_by_side(&labels, &texts)
}

/// The answers with the settings that give them, then a column for each that is a plan.
pub fn told(run: &DryRun) -> Result<String, Failure> {
    let order = Order::of_root(&run.plan);
    let mut out = if order.is_none() {
        "no order is asked of the plan or known, so no row is out of order\n\n".to_string()
    } else {
        format!("rows by {order}; * stands behind a row that is out of order\n\n")
    };
    let (mut letters, mut columns) = ('A'..='Z', vec![]);
    for Answer { names, plan } in answers(&run.plan) {
        let names = names.join(", ");
        match plan {
            Err(why) => out += &format!("-  {names}: {why}\n"),
            Ok(plan) => {
                let letter = letters.next().expect("at most nine answers");
                out += &format!("{letter}  {names}\n");
                columns.push(Column::new(letter, &plan, run, &order)?);
            }
        }
    }
    Ok(out + "\n" + &table(&columns))
}
