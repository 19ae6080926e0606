//! Dry runs (document 02, P3): the export beside a second stepper.
mod broken_rows;
mod compare;
mod figures;
mod library;
mod random;
mod random_rows;
mod smaller;
mod stepper;
mod times;
mod told;
pub mod vectors;

pub use compare::run;
pub use times::run as run_times;

/// What a dry run gets: a plan file, the sources' rows, the caller's list, and so many bytes of output.
#[derive(Clone)]
pub struct Request {
    pub plan: Vec<u8>,
    pub rows: Vec<u8>,
    pub choices: Vec<u8>,
    pub room: usize,
}

/// A number, and with 0 what is written at the output's start.
#[derive(Clone, Debug, PartialEq, Eq)]
pub struct Answer {
    pub number: u32,
    pub bytes: Vec<u8>,
}
