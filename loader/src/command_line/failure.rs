//! What ends a command early, and the status that tells it.
use sort_placement::text::TextError;
use sort_placement::{Refusal, Why};
use std::fmt;
use std::process::ExitCode;

/// The plan does not pass the order check.
pub const NOT_PASSED: u8 = 1;
const BAD_USAGE: u8 = 2;
const REFUSED: u8 = 3;
const NOT_READ_OR_WRITTEN: u8 = 4;

pub enum Failure {
    /// the command line, with what is wrong in it
    Usage(String),
    /// bytes that are no text
    NoText(String),
    /// a text that has no plan
    Text(TextError),
    /// a plan that is refused
    Refused(Why),
    /// a refusal that has no place
    Called(Refusal),
    /// reading or writing
    File(String),
}

impl Failure {
    pub fn status(&self) -> ExitCode {
        ExitCode::from(match self {
            Failure::Usage(_) => BAD_USAGE,
            Failure::Text(TextError::Refused { .. }) | Failure::Refused(_) | Failure::Called(_) => REFUSED,
            Failure::Text(_) | Failure::NoText(_) => BAD_USAGE,
            Failure::File(_) => NOT_READ_OR_WRITTEN,
        })
    }
}

impl fmt::Display for Failure {
    fn fmt(&self, f: &mut fmt::Formatter) -> fmt::Result {
        match self {
            Failure::Usage(what) => write!(f, "{what}\n`sort_placement --help` lists the commands."),
            Failure::Text(wrong) => write!(f, "{wrong}"),
            Failure::Refused(why) => write!(f, "{why}"),
            Failure::Called(refusal) => write!(f, "{refusal}"),
            Failure::NoText(what) | Failure::File(what) => write!(f, "{what}"),
        }
    }
}

impl From<Why> for Failure {
    fn from(why: Why) -> Failure {
        Failure::Refused(why)
    }
}

impl From<TextError> for Failure {
    fn from(wrong: TextError) -> Failure {
        Failure::Text(wrong)
    }
}
