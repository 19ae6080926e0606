//! A small text form of plans: a line for each node, a child two spaces deeper than its parent. docs/TEXT.md has it whole.
//!
//! ```text
//! sort keys=2al fetch=5
//!   filter
//!     source streams=2 width=3 keys=2al,0al
//! ```
//!
//! A line is a kind's name and its fields. Keys are a column, a or d, nulls f or l; a column alone is ascending, nulls last.
//! An aggregate's keys are its group columns, its width counts the aggregate columns behind them too. `#` begins a remark.
//!
//! A text goes to a plan and back to the same text in normal layout, a plan to a text and back to the same plan.
//!
//! ```
//! use sort_placement::text::{parse, show};
//!
//! let grouped = parse("aggregate width=3 keys=0,1  # one aggregate column\n  source streams=1 width=2").unwrap();
//! assert_eq!(show(&grouped), "aggregate width=3 keys=0al,1al\n  source streams=1 width=2\n");
//! assert_eq!(parse(&show(&grouped)), Ok(grouped));
//! ```
mod error;
mod fields;
mod lines;
mod parse;
mod show;
mod values;

pub use error::TextError;
pub use parse::{MOST_TEXT_BYTES, parse, refused};
pub use show::show;

pub(crate) use error::quoted;
pub(crate) use lines::{Wrong, lines_with_words, without_remark};
pub(crate) use show::line;
pub(crate) use values::number;

#[cfg(test)]
mod tests;
