//! The library's C exports, by number. A `&[u8]` passes as a pointer and a length. A call that the linked library does not
//! export is compiled out (see the build script), and answers `None`.

/// One request: a call with what it takes beside the plan and the output.
#[derive(Clone, Copy, Debug, PartialEq, Eq)]
#[non_exhaustive]
pub enum Call {
    /// `check_order`
    Check,
    /// `copy_plan`
    Copy,
    /// `ensure_sorting`
    Ensure,
    /// `parallelize_sorts`
    Parallelize,
    /// `replace_with_order_preserving_variants`; spr better, spm better, prefer existing: zero is off, all else on
    Preserve([u8; 3]),
    /// `pushdown_sorts`
    Push,
    /// `replace_with_partial_sort`; the node's number
    Partial(u32),
}

/// One call of each that takes a plan and an output, in document 01's sequence.
pub const ALL: [Call; 7] =
    [Call::Check, Call::Copy, Call::Ensure, Call::Parallelize, Call::Preserve([0; 3]), Call::Push, Call::Partial(0)];

impl Call {
    /// A short name, for figures and messages.
    pub fn name(self) -> &'static str {
        match self {
            Call::Check => "check",
            Call::Copy => "copy",
            Call::Ensure => "ensure",
            Call::Parallelize => "parallelize",
            Call::Preserve(_) => "preserve",
            Call::Push => "push",
            Call::Partial(_) => "partial",
        }
    }

    /// Whether the linked library exports it.
    pub fn is_present(self) -> bool {
        match self {
            Call::Check => cfg!(has_check_order),
            Call::Copy => cfg!(has_copy_plan),
            Call::Ensure => cfg!(has_ensure_sorting),
            Call::Parallelize => cfg!(has_parallelize_sorts),
            Call::Preserve(_) => cfg!(has_replace_with_order_preserving_variants),
            Call::Push => cfg!(has_pushdown_sorts),
            Call::Partial(_) => cfg!(has_replace_with_partial_sort),
        }
    }

    /// The export's number on a plan; the check writes its answer, 1 or 0, as the first byte of the output. `None` where the linked
    /// library does not export the call.
    ///
    /// # Panics
    ///
    /// Where a refused check has written its answer, which its contract rules out.
    pub fn run(self, plan: &[u8], out: &mut [u8]) -> Option<u32> {
        match self {
            Call::Check => check_order(plan, out),
            Call::Copy => copy_plan(plan, out),
            Call::Ensure => ensure_sorting(plan, out),
            Call::Parallelize => parallelize_sorts(plan, out),
            Call::Preserve(settings) => replace_with_order_preserving_variants(plan, settings, out),
            Call::Push => pushdown_sorts(plan, out),
            Call::Partial(node) => replace_with_partial_sort(plan, node, out),
        }
    }
}

/// A safe function over an export that takes a plan, some numbers and an output.
macro_rules! rewrite {
    ($present:ident, $call:ident($($number:ident: $type:ty),*), ($($given:ident: $form:ty => $($taken:expr),*)?)) => {
        #[cfg($present)]
        fn $call(plan: &[u8] $(, $given: $form)?, out: &mut [u8]) -> Option<u32> {
            unsafe extern "C" {
                fn $call(plan: *const u8, plan_len: usize, $($number: $type,)* out: *mut u8, out_len: usize) -> u32;
            }
            // SAFETY: the slices are live for the call, and the export reads and writes inside them
            Some(unsafe { $call(plan.as_ptr(), plan.len(), $($($taken,)*)? out.as_mut_ptr(), out.len()) })
        }

        #[cfg(not($present))]
        fn $call(_plan: &[u8] $(, _: $form)?, _out: &mut [u8]) -> Option<u32> {
            None
        }
    };
}

rewrite!(has_copy_plan, copy_plan(), ());
rewrite!(has_ensure_sorting, ensure_sorting(), ());
rewrite!(has_parallelize_sorts, parallelize_sorts(), ());
rewrite!(
    has_replace_with_order_preserving_variants,
    replace_with_order_preserving_variants(spr_better: u8, spm_better: u8, prefer_existing: u8),
    (settings: [u8; 3] => settings[0], settings[1], settings[2])
);
rewrite!(has_pushdown_sorts, pushdown_sorts(), ());
rewrite!(has_replace_with_partial_sort, replace_with_partial_sort(node: u32), (node: u32 => node));

#[cfg(has_check_order)]
fn check_order(plan: &[u8], out: &mut [u8]) -> Option<u32> {
    unsafe extern "C" {
        fn check_order(plan: *const u8, plan_len: usize, passes: *mut u32) -> u32;
    }
    const UNTOUCHED: u32 = 77;
    let mut passes = UNTOUCHED;
    // SAFETY: the slice and the number are live for the call
    let number = unsafe { check_order(plan.as_ptr(), plan.len(), &mut passes) };
    if number == 0 {
        if let Some(first) = out.first_mut() {
            *first = passes as u8;
        }
    } else {
        assert_eq!(passes, UNTOUCHED, "a refused check wrote its answer");
    }
    Some(number)
}

#[cfg(not(has_check_order))]
fn check_order(_plan: &[u8], _out: &mut [u8]) -> Option<u32> {
    None
}

/// The export's number on a plan, its sources' rows and the choices of the steps; the delivered rows stand in the output. `None`
/// where the linked library does not export it.
#[cfg(has_dry_run)]
pub fn dry_run(plan: &[u8], rows: &[u8], choices: &[u8], out: &mut [u8]) -> Option<u32> {
    unsafe extern "C" {
        fn dry_run(
            plan: *const u8,
            plan_len: usize,
            rows: *const u8,
            rows_len: usize,
            choices: *const u8,
            choices_len: usize,
            out: *mut u8,
            out_len: usize,
        ) -> u32;
    }
    let (p, r, c) = (plan.as_ptr(), rows.as_ptr(), choices.as_ptr());
    // SAFETY: the slices are live for the call, and the export reads and writes inside them
    Some(unsafe { dry_run(p, plan.len(), r, rows.len(), c, choices.len(), out.as_mut_ptr(), out.len()) })
}

/// The export's number; `None`, since the linked library has no dry runs.
#[cfg(not(has_dry_run))]
pub fn dry_run(_plan: &[u8], _rows: &[u8], _choices: &[u8], _out: &mut [u8]) -> Option<u32> {
    None
}
