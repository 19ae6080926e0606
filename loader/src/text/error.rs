//! What is wrong with a text.
use crate::Why;
use std::fmt;

/// Why a text has no plan, or no rows. Lines and columns count from 1.
#[derive(Clone, Debug, PartialEq, Eq)]
#[non_exhaustive]
pub enum TextError {
    /// It is longer than [`MOST_TEXT_BYTES`](crate::text::MOST_TEXT_BYTES).
    TooLong,
    /// It has no node.
    Empty,
    /// A word is not of the form.
    Form {
        /// The line.
        line: usize,
        /// The character at which the word begins.
        column: usize,
        /// What is wrong with it.
        words: String,
    },
    /// The form is right, and the plan, or the rows, are such as the library refuses.
    Refused {
        /// The line of the node, where the refusal is one node's; the line of the row, where it is one row's.
        line: Option<usize>,
        /// The refusal.
        why: Why,
    },
}

/// The beginning of a word, and none of its control characters: a message is read on a terminal.
pub(crate) fn quoted(word: &str) -> String {
    const MOST: usize = 40;
    let seen: String = word.chars().take(MOST).map(|c| if c.is_control() { '\u{fffd}' } else { c }).collect();
    format!("'{seen}{}'", if word.chars().nth(MOST).is_some() { ".." } else { "" })
}

impl fmt::Display for TextError {
    fn fmt(&self, f: &mut fmt::Formatter) -> fmt::Result {
        match self {
            TextError::TooLong => write!(f, "the text is longer than 1 MiB, 1048576 bytes"),
            TextError::Empty => write!(f, "the text has no node"),
            TextError::Form { line, column, words } => write!(f, "line {line}, column {column}: {words}"),
            TextError::Refused { line: None, why } => write!(f, "{why}"),
            TextError::Refused { line: Some(line), why } => {
                write!(f, "refusal {}: line {line}: {}", why.refusal.number(), why.words())
            }
        }
    }
}

impl std::error::Error for TextError {
    fn source(&self) -> Option<&(dyn std::error::Error + 'static)> {
        match self {
            TextError::Refused { why, .. } => Some(why),
            _ => None,
        }
    }
}
