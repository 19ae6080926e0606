//! Dry runs: the rows of a text stepped through a plan.
use crate::failure::Failure;
use crate::files;
use crate::request::Stepping;
#[cfg(has_dry_run)]
use sort_placement::rows::deliver;
use sort_placement::rows::{self, Rows};
use sort_placement::{Plan, Refusal, Why};

/// A plan with the rows of its sources, read.
pub struct DryRun {
    pub plan: Plan,
    text: String,
    rows: Rows,
    choices: Vec<u8>,
}

#[cfg(not(has_dry_run))]
fn deliver(_: &Plan, _: &Rows, _: &[u8]) -> Result<Rows, Refusal> {
    unreachable!("nothing is read without the export")
}

impl DryRun {
    pub fn read(stepping: &Stepping) -> Result<DryRun, Failure> {
        if !cfg!(has_dry_run) {
            return Err(Failure::Usage("the linked library has no dry runs".into()));
        }
        let plan = Plan::read(&files::plan_file(&stepping.plan)?)?;
        // a plan that isn't stepped is told ahead of its rows
        if let Err(refusal @ Refusal::NotStepped(_)) = deliver(&plan, &Rows::default(), &[]) {
            return Err(Why::of_dry_run(refusal, &plan, &[]).into());
        }
        let text = files::text(&stepping.rows)?;
        let rows = rows::parse(&text, &plan)?;
        Ok(DryRun { plan, text, rows, choices: stepping.choices.clone() })
    }

    /// What the plan delivers, or another with the same sources. A refusal has the line of the row that it speaks of.
    pub fn of(&self, plan: &Plan) -> Result<Rows, Failure> {
        deliver(plan, &self.rows, &self.choices).map_err(|refusal| {
            let why = Why::of_dry_run(refusal, plan, &self.rows.write());
            rows::refused(&self.text, why).into()
        })
    }
}
