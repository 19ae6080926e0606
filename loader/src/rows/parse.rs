//! The rows of a text. Every line of it is a stream's, a row or passed over; what is wrong has its line and column.
use super::{Cell, Row, Rows, Stream, source_streams};
use crate::plan::kind::name;
use crate::text::{MOST_TEXT_BYTES, TextError, Wrong, lines_with_words, number, quoted, without_remark};
use crate::why::counted;
use crate::{Plan, Why};

/// The word that begins a stream's line; no row begins with it.
const SOURCE: &str = "source";

/// The node and the stream that a stream's line names.
fn named(words: &[(usize, &str)]) -> Result<(usize, usize), Wrong> {
    let value = |(at, word): (usize, &str)| match number(word, u32::MAX) {
        Ok(number) => Ok(number as usize),
        Err(words) => Err(Wrong { at, words }),
    };
    match words {
        [_, node, (_, "stream"), stream] => Ok((value(*node)?, value(*stream)?)),
        _ => Err(Wrong { at: words[0].0, words: "a stream's line has the form 'source NODE stream STREAM'".into() }),
    }
}

/// The place of a named stream among those of the plan's sources.
fn place(words: &[(usize, &str)], plan: &Plan, streams: &[Stream]) -> Result<usize, Wrong> {
    let (node, stream) = named(words)?;
    if let Some(found) = streams.iter().position(|s| (s.node, s.stream) == (node, stream)) {
        return Ok(found);
    }
    let has = streams.iter().filter(|s| s.node == node).count();
    let (at, words) = match plan.root().at(node) {
        None => (words[1].0, format!("there is no node {node}, the last is {}", plan.count() - 1)),
        Some(_) if has > 0 => (words[3].0, format!("there is no stream {stream}, the last of source {node} is {}", has - 1)),
        Some(other) => (words[1].0, format!("node {node} is no source: {}", name(other.record.kind))),
    };
    Err(Wrong { at, words })
}

fn cell(word: &str) -> Result<Cell, String> {
    if word.is_empty() || word == "null" {
        return Ok(None);
    }
    let digits = word.strip_prefix('-').unwrap_or(word);
    let is_number = digits.bytes().all(|b| b.is_ascii_digit());
    match word.parse() {
        Ok(number) if is_number => Ok(Some(number)),
        _ => Err(format!("{} is no signed 64-bit number, nor null", quoted(word))),
    }
}

/// The row of a line; `at` is the character that its first word begins at.
fn row(line: &str, at: usize, stream: &Stream) -> Result<Row, Wrong> {
    let line = without_remark(line);
    let cells = line.split(',').count();
    if cells != stream.width {
        let (has, wide) = (counted(cells, "cell", "cells"), counted(stream.width, "column", "columns"));
        return Err(Wrong { at, words: format!("the row has {has}, {} has {wide}", stream.node_words()) });
    }
    let read = |part: &str| {
        let word = part.trim_ascii();
        let before = &line[..word.as_ptr() as usize - line.as_ptr() as usize];
        cell(word).map_err(|words| Wrong { at: before.chars().count(), words })
    };
    line.split(',').map(read).collect()
}

/// The rows of a text, for the sources of a plan. A stream that the text does not name has none.
///
/// # Errors
///
/// Where the text is not of the form, with line and column.
///
/// ```
/// let plan = sort_placement::text::parse("filter\n  source streams=2 width=2").unwrap();
/// let wrong = sort_placement::rows::parse("source 1 stream 0\n1,2\n3\n", &plan).unwrap_err();
/// assert_eq!(wrong.to_string(), "line 3, column 1: the row has 1 cell, source 1 has 2 columns");
/// ```
pub fn parse(text: &str, plan: &Plan) -> Result<Rows, TextError> {
    if text.len() > MOST_TEXT_BYTES {
        return Err(TextError::TooLong);
    }
    let streams = source_streams(plan);
    let mut rows = Rows { streams: vec![vec![]; streams.len()] };
    let (mut seen, mut current) = (vec![false; streams.len()], None);
    for (number, line, words) in lines_with_words(text) {
        let (at, first) = words[0];
        let wrong = |words: &str| Wrong { at, words: words.into() }.on(number);
        if first == SOURCE {
            let found = place(&words, plan, &streams).map_err(|w| w.on(number))?;
            if std::mem::replace(&mut seen[found], true) {
                return Err(wrong("the stream stands twice"));
            }
            current = Some(found);
        } else {
            let Some(to) = current else { return Err(wrong("a row before the first stream's line")) };
            rows.streams[to].push(row(line, at, &streams[to]).map_err(|w| w.on(number))?);
        }
    }
    Ok(rows)
}

/// The line of a row, by its place.
fn line_of(text: &str, place: (usize, usize), row: usize) -> Option<usize> {
    // how many rows of the named stream come before it
    let mut before = None;
    for (number, _, words) in lines_with_words(text) {
        if words[0].1 == SOURCE {
            before = (named(&words).ok() == Some(place)).then_some(row);
        } else if before == Some(0) {
            return Some(number);
        } else {
            before = before.map(|rows| rows - 1);
        }
    }
    None
}

/// The refusal of a text's rows, with the line of the row that it speaks of.
///
/// ```
/// use sort_placement::{rows, text};
///
/// let plan = text::parse("filter\n  source streams=1 width=1 keys=0").unwrap();
/// let written = "source 1 stream 0\n5\n\n# a step back\n4\n";
/// let why = rows::explain(&plan, &rows::parse(written, &plan).unwrap().write()).unwrap();
/// let rule = "it sorts before row 0 by the declared order 0al";
/// let told = rows::refused(written, why).to_string();
/// assert_eq!(told, format!("refusal 26: line 5: node 1 (source): stream 0, row 1: {rule}"));
/// ```
pub fn refused(text: &str, why: Why) -> TextError {
    let line = match (why.node, why.stream, why.row) {
        (Some(node), Some(stream), Some(row)) => line_of(text, (node, stream as usize), row as usize),
        _ => None,
    };
    TextError::Refused { line, why }
}
