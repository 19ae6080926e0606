//! Sort placement in plan files: safe functions over the C exports of the proved library, and a view of plan files for tools.
//! Document 01 has the form of a file, the calls and their refusals; document 02 adds the aggregate, takes refusal 22 away, and adds
//! dry runs.
//!
//! A call takes a plan file and an output of [`MOST_BYTES`], and answers the length of the file that it wrote, or a [`Refusal`].
//! It allocates nothing, and takes [`MOST_STACK`] bytes of the stack at most, on a small plan [`STACK_TO_20_NODES`].
//! [`Plan`] is a plan file as a tree, made from a file or from a [`text`], and [`listing`], [`draw`] and [`unmet`] show it.
//! A dry run, `dry_run`, steps [`rows`] through a plan into an output of [`DRY_RUN_BYTES`], and takes up to [`DRY_RUN_STACK`].
//!
//! ```
//! use sort_placement::{MOST_BYTES, Refusal, check_order, ensure_sorting, text};
//!
//! let file = text::parse("output-requirement keys=0 single\n  source streams=1 width=2").unwrap().write();
//! assert_eq!(check_order(&file), Ok(false));
//! let mut out = [0; MOST_BYTES];
//! let length = ensure_sorting(&file, &mut out).unwrap();
//! assert_eq!(check_order(&out[..length]), Ok(true));
//! assert_eq!(check_order(&[]), Err(Refusal::Length));
//! ```
#![deny(missing_docs)]

mod calls;
mod checked;
mod draw;
mod listing;
mod refusal;
pub mod rows;
#[cfg(feature = "records")]
pub mod stack;
#[cfg(all(test, not(feature = "records")))]
mod stack;
pub mod text;
mod unmet;
mod why;

// The records behind a plan are public for the tools of this repository only: they can be put together to what no file holds.
#[cfg(feature = "records")]
pub mod exports;
#[cfg(not(feature = "records"))]
#[allow(dead_code)]
mod exports;
#[cfg(feature = "records")]
pub mod facts;
#[cfg(not(feature = "records"))]
#[allow(dead_code)]
mod facts;
#[cfg(feature = "records")]
pub mod plan;
#[cfg(not(feature = "records"))]
#[allow(dead_code, unused_imports)]
mod plan;

#[cfg(feature = "records")]
pub mod random;
#[cfg(all(test, not(feature = "records")))]
mod random;
#[cfg(test)]
mod random_plans;
#[cfg(test)]
mod random_rows;

pub use calls::*;
pub use checked::{Plan, explain};
pub use draw::draw;
pub use listing::listing;
pub use refusal::Refusal;
pub use unmet::{Unmet, unmet};
pub use why::Why;

/// The length of the longest plan file: an output of that length is never too short.
pub const MOST_BYTES: usize = plan::MOST_BLOCKS * plan::BLOCK;

/// No call but a dry run takes more bytes of the stack: measured on random plans and on plans that were sought for it. A thread that
/// calls needs them beside what it takes itself.
pub const MOST_STACK: usize = 256 << 10;

/// No call on a plan of up to 20 nodes takes more bytes of the stack, measured in the same way.
pub const STACK_TO_20_NODES: usize = 48 << 10;

/// The length of the longest rows of a plan, those of its sources as those of its root: 256 rows of 32 columns, and the row counts
/// of 7,040 streams. An output of that length is never too short for a dry run.
pub const DRY_RUN_BYTES: usize = rows::MOST_ROWS * (4 + 8 * plan::MOST_COLUMNS) + 4 * plan::MOST_STREAMS;

/// No dry run takes more bytes of the stack, measured in the same way.
pub const DRY_RUN_STACK: usize = 1536 << 10;

/// The README's snippets are compiled and run.
#[cfg(doctest)]
#[doc = include_str!("../../README.md")]
pub struct Readme;
