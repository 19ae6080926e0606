//! The lines of a text and their words, each with its place. Plans and rows are written in them.
use super::TextError;

/// What is wrong, and at which character of the line, counted from 0.
pub(crate) struct Wrong {
    pub at: usize,
    pub words: String,
}

impl Wrong {
    /// The error of the line of that number.
    pub(crate) fn on(self, line: usize) -> TextError {
        TextError::Form { line, column: self.at + 1, words: self.words }
    }
}

/// A line without its remark.
pub(crate) fn without_remark(line: &str) -> &str {
    line.split('#').next().unwrap_or_default()
}

/// The words of a line without its remark, each with the character that it begins at.
fn words(line: &str) -> Vec<(usize, &str)> {
    let line = without_remark(line);
    let (mut out, mut at, mut counted) = (vec![], 0, 0);
    for word in line.split_ascii_whitespace() {
        let from = word.as_ptr() as usize - line.as_ptr() as usize;
        at += line[counted..from].chars().count();
        counted = from;
        out.push((at, word));
    }
    out
}

/// The lines that have words, with their numbers from 1 on; a byte order mark is no word.
pub(crate) fn lines_with_words(text: &str) -> impl Iterator<Item = (usize, &str, Vec<(usize, &str)>)> {
    let text = text.strip_prefix('\u{feff}').unwrap_or(text);
    text.lines().zip(1..).map(|(line, number)| (number, line, words(line))).filter(|(_, _, words)| !words.is_empty())
}
