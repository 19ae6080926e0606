//! The library's calls, a safe function for each.
use crate::Refusal;
use crate::exports::Call;
use crate::plan::BLOCK;
#[cfg(has_dry_run)]
use crate::plan::{number, root_streams};

/// The settings of the order-preserving walk, all off by default.
///
/// ```
/// let mut settings = sort_placement::Settings::default();
/// settings.spm_better = true;
/// ```
#[derive(Clone, Copy, Debug, Default, PartialEq, Eq)]
#[non_exhaustive]
pub struct Settings {
    /// A repartition may keep its input's order where that removes a sort (the Rust's `is_spr_better`). Off, that is done over
    /// unbounded inputs alone.
    pub spr_better: bool,
    /// A coalesce may become a merge where that removes a sort (the Rust's `is_spm_better`). Off, as above.
    pub spm_better: bool,
    /// Both of these (the Rust's `prefer_existing_sort`).
    pub prefer_existing: bool,
}

fn accepted(number: Option<u32>) -> Result<(), Refusal> {
    match number {
        Some(0) => Ok(()),
        Some(number) => Err(Refusal::of(number)),
        None => unreachable!("a function is compiled in with its export"),
    }
}

/// Runs a rewrite; the length of the file that stands in the output afterwards.
fn rewrite(call: Call, plan: &[u8], out: &mut [u8]) -> Result<usize, Refusal> {
    accepted(call.run(plan, out))?;
    // an accepted rewrite has written a file, and a file's first block has the block total
    Ok(u16::from_le_bytes([out[2], out[3]]) as usize * BLOCK)
}

/// Whether each node's wanted orders are met by its children's facts. It looks at orders alone: whether a node has the streams
/// that it wants (one, or keyed ones) is not asked.
///
/// # Errors
///
/// The file's refusal, 1 to 8.
///
/// ```
/// use sort_placement::{Refusal, check_order, text};
///
/// let file = text::parse("merge keys=0\n  source streams=2 width=1").unwrap().write();
/// assert_eq!(check_order(&file), Ok(false));
/// assert_eq!(check_order(&file[1..]), Err(Refusal::Length));
/// ```
#[cfg(has_check_order)]
pub fn check_order(plan: &[u8]) -> Result<bool, Refusal> {
    let mut passes = [0];
    accepted(Call::Check.run(plan, &mut passes))?;
    Ok(passes[0] == 1)
}

/// Reads a plan and writes it: the same bytes.
///
/// # Errors
///
/// The file's refusal, 1 to 8, or 24 where the output is shorter than the file.
#[cfg(has_copy_plan)]
pub fn copy_plan(plan: &[u8], out: &mut [u8]) -> Result<usize, Refusal> {
    rewrite(Call::Copy, plan, out)
}

/// Adds the sorts that operators want, and removes those that nothing needs. The output passes the order check.
///
/// # Errors
///
/// The file's refusal, 1 to 8; then 21, 23 or 24.
///
/// ```
/// use sort_placement::{MOST_BYTES, Plan, ensure_sorting, text};
///
/// let plan = text::parse("merge keys=0\n  source streams=2 width=1").unwrap();
/// let mut out = [0; MOST_BYTES];
/// let length = ensure_sorting(&plan.write(), &mut out).unwrap();
/// let ensured = Plan::read(&out[..length]).unwrap();
/// assert_eq!(text::show(&ensured), "merge keys=0al\n  sort keys=0al preserve\n    source streams=2 width=1\n");
/// ```
#[cfg(has_ensure_sorting)]
pub fn ensure_sorting(plan: &[u8], out: &mut [u8]) -> Result<usize, Refusal> {
    rewrite(Call::Ensure, plan, out)
}

/// Sorts streams before they are merged, in the place of a sort over a coalesce.
///
/// # Errors
///
/// The file's refusal, 1 to 8; then 21, 23 or 24.
#[cfg(has_parallelize_sorts)]
pub fn parallelize_sorts(plan: &[u8], out: &mut [u8]) -> Result<usize, Refusal> {
    rewrite(Call::Parallelize, plan, out)
}

/// Removes sorts whose order a repartition or a coalesce below only has to keep.
///
/// # Errors
///
/// The file's refusal, 1 to 8; then 21, 23 or 24.
#[cfg(has_replace_with_order_preserving_variants)]
pub fn replace_with_order_preserving_variants(plan: &[u8], settings: Settings, out: &mut [u8]) -> Result<usize, Refusal> {
    let bytes = [settings.spr_better, settings.spm_better, settings.prefer_existing].map(u8::from);
    rewrite(Call::Preserve(bytes), plan, out)
}

/// Pushes sorts down as far as they can go.
///
/// # Errors
///
/// The file's refusal, 1 to 8; then 21, 23, 25 or 24.
#[cfg(has_pushdown_sorts)]
pub fn pushdown_sorts(plan: &[u8], out: &mut [u8]) -> Result<usize, Refusal> {
    rewrite(Call::Push, plan, out)
}

/// Makes one sort over an unbounded child a partial sort by the keys that the child already meets. Where it meets none of them, or all,
/// the plan comes back as it was; so it does at any other node.
///
/// # Errors
///
/// The file's refusal, 1 to 8; then 20 or 24.
#[cfg(has_replace_with_partial_sort)]
pub fn replace_with_partial_sort(plan: &[u8], node: u32, out: &mut [u8]) -> Result<usize, Refusal> {
    rewrite(Call::Partial(node), plan, out)
}

/// Steps the rows of a plan's sources through it, one row through one operator at a time, as the bytes of `choices` say, and writes
/// the rows that its root delivers; [`rows`](crate::rows) has their form. An empty list of choices counts as zeros, one that ends
/// starts over. The answer is the length of what stands in the output; one of [`DRY_RUN_BYTES`](crate::DRY_RUN_BYTES) is never too
/// short.
///
/// What is delivered is what the plan delivers in one of its runs, so from a plan that passes the order check no row comes out of
/// order.
///
/// # Errors
///
/// The file's refusal, 1 to 8; then 256 plus a node's number, 26, 27 or 24.
///
/// ```
/// use sort_placement::{DRY_RUN_BYTES, Refusal, dry_run, rows, text};
///
/// let plan = text::parse("coalesce\n  source streams=2 width=1").unwrap();
/// let given = rows::parse("source 1 stream 0\n7\nsource 1 stream 1\n8\n", &plan).unwrap().write();
/// let mut out = [0; DRY_RUN_BYTES];
/// // a row waits on each stream, and the byte takes the second
/// let length = dry_run(&plan.write(), &given, &[1], &mut out).unwrap();
/// let delivered = rows::Rows::read(&out[..length], &rows::root_streams(&plan)).unwrap();
/// assert_eq!(rows::show_delivered(&delivered), "stream 0\n8\n7\n");
/// assert_eq!(dry_run(&plan.write(), &given[1..], &[1], &mut out), Err(Refusal::WrongRows));
/// ```
#[cfg(has_dry_run)]
pub fn dry_run(plan: &[u8], rows: &[u8], choices: &[u8], out: &mut [u8]) -> Result<usize, Refusal> {
    accepted(crate::exports::dry_run(plan, rows, choices, out))?;
    // an accepted dry run has written, for each stream of the root, a row count and as many rows
    let (streams, width) = root_streams(plan);
    Ok((0..streams).fold(0, |at, _| at + 4 + number(&out[at..]) as usize * (4 + 8 * width)))
}
