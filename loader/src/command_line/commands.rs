//! The commands. Each makes its whole output first, so that a failure has written nothing.
use crate::changes;
use crate::dry_runs::DryRun;
use crate::failure::{Failure, NOT_PASSED};
use crate::request::{Call, Command, Request, Rewrite};
use crate::{files, settings};
use sort_placement::{MOST_BYTES, Plan, Refusal, Why, draw, listing, rows, text, unmet};
use std::process::ExitCode;

impl Rewrite {
    pub fn name(self) -> &'static str {
        match self {
            Rewrite::Copy => "copy",
            Rewrite::Ensure => "ensure",
            Rewrite::Parallelize => "parallelize",
            Rewrite::Preserve(_) => "preserve",
            Rewrite::Push => "push",
            Rewrite::Partial(_) => "partial",
        }
    }

    fn run(self, file: &[u8], out: &mut [u8]) -> Result<usize, Refusal> {
        match self {
            Rewrite::Copy => sort_placement::copy_plan(file, out),
            Rewrite::Ensure => sort_placement::ensure_sorting(file, out),
            Rewrite::Parallelize => sort_placement::parallelize_sorts(file, out),
            Rewrite::Preserve(settings) => sort_placement::replace_with_order_preserving_variants(file, settings, out),
            Rewrite::Push => sort_placement::pushdown_sorts(file, out),
            Rewrite::Partial(node) => sort_placement::replace_with_partial_sort(file, node, out),
        }
    }

    fn node(self) -> Option<u32> {
        if let Rewrite::Partial(node) = self { Some(node) } else { None }
    }
}

/// The library's refusal with the place that the package finds for it; the number is the library's.
fn told(refusal: Refusal, file: &[u8], node: Option<u32>) -> Failure {
    let why = match Plan::read(file) {
        Err(why) => why,
        Ok(plan) => Why::of_rewrite(refusal, &plan, node),
    };
    if why.refusal == refusal { Failure::Refused(why) } else { Failure::Called(refusal) }
}

pub fn rewrite(call: Rewrite, file: &[u8]) -> Result<Vec<u8>, Failure> {
    let mut out = vec![0; MOST_BYTES];
    let length = call.run(file, &mut out).map_err(|refusal| told(refusal, file, call.node()))?;
    out.truncate(length);
    Ok(out)
}

/// The check's words, and whether the plan passes.
fn check(file: &[u8]) -> Result<(String, bool), Failure> {
    let passes = sort_placement::check_order(file).map_err(|refusal| told(refusal, file, None))?;
    if passes {
        return Ok(("passes\n".into(), true));
    }
    let places = unmet(&Plan::read(file)?);
    Ok((format!("does not pass\n{}", places.iter().map(|u| format!("  {u}\n")).collect::<String>()), false))
}

fn status(passes: bool) -> ExitCode {
    if passes { ExitCode::SUCCESS } else { ExitCode::from(NOT_PASSED) }
}

/// A call on a plan, with what it changed.
fn tried(call: Call, plan: &Plan) -> Result<(String, bool), Failure> {
    match call {
        Call::Check => {
            let (words, passes) = check(&plan.write())?;
            Ok((format!("{}\n{words}", listing(plan)), passes))
        }
        Call::Rewrite(call) => {
            let after = Plan::read(&rewrite(call, &plan.write())?)?;
            Ok((changes::told(plan, call.name(), &after), true))
        }
    }
}

/// The same on a text. A refusal has the node's line then.
fn tried_on(call: Call, text: &str) -> Result<(String, bool), Failure> {
    tried(call, &text::parse(text)?).map_err(|failure| match failure {
        Failure::Refused(why) => Failure::Text(text::refused(text, why)),
        other => other,
    })
}

/// Runs a request; the status of one that was answered.
pub fn run(request: Request) -> Result<ExitCode, Failure> {
    let Request { command, input, output } = request;
    let plan = || Ok::<Plan, Failure>(Plan::read(&files::plan_file(&input)?)?);
    let (bytes, passes) = match command {
        Command::Print(text) => (text.into_bytes(), true),
        Command::List => (listing(&plan()?).into_bytes(), true),
        Command::Draw => (draw(&plan()?).into_bytes(), true),
        Command::Show => (text::show(&plan()?).into_bytes(), true),
        Command::Make => (text::parse(&files::text(&input)?)?.write(), true),
        Command::Call(Call::Rewrite(call)) => (rewrite(call, &files::plan_file(&input)?)?, true),
        Command::Call(Call::Check) => {
            let (words, passes) = check(&files::plan_file(&input)?)?;
            (words.into_bytes(), passes)
        }
        Command::Try(call) => {
            let (words, passes) = tried_on(call, &files::text(&input)?)?;
            (words.into_bytes(), passes)
        }
        Command::DryRun(stepping) => {
            let run = DryRun::read(&stepping)?;
            (rows::show_delivered(&run.of(&run.plan)?).into_bytes(), true)
        }
        Command::Settings(stepping) => (settings::told(&DryRun::read(&stepping)?)?.into_bytes(), true),
    };
    files::output(&output, &bytes)?;
    Ok(status(passes))
}
