//! The values of fields: numbers, columns, keys. Nothing is cut off or left out: what does not fit is an error.
use super::error::quoted;
use crate::facts::Key;
use crate::plan::{MOST_COLUMNS, MOST_KEYS};

/// A number of decimal digits.
pub(crate) fn number(text: &str, most: u32) -> Result<u32, String> {
    let digits = !text.is_empty() && text.bytes().all(|b| b.is_ascii_digit());
    let value = if digits { text.parse().ok().filter(|n| *n <= most) } else { None };
    value.ok_or_else(|| format!("{} is no number from 0 to {most}", quoted(text)))
}

/// A number that stands in one byte.
pub(super) fn byte(text: &str) -> Result<u8, String> {
    number(text, u8::MAX.into()).map(|n| n as u8)
}

fn list_of<T>(text: &str, entry: fn(&str) -> Result<T, String>, most: usize) -> Result<Vec<T>, String> {
    let list: Vec<T> = text.split(',').map(entry).collect::<Result<_, _>>()?;
    if list.len() > most { Err(format!("the list has {} entries, more than {most}", list.len())) } else { Ok(list) }
}

/// A projection's columns.
pub(super) fn columns(text: &str) -> Result<Vec<u8>, String> {
    list_of(text, byte, MOST_COLUMNS)
}

/// A join's right columns.
pub(super) fn right_columns(text: &str) -> Result<Vec<u8>, String> {
    list_of(text, byte, MOST_KEYS)
}

/// Columns as bits, each once.
pub(super) fn column_set(text: &str) -> Result<u32, String> {
    let mut set = 0u32;
    for word in text.split(',') {
        let column = number(word, MOST_COLUMNS as u32 - 1)?;
        let bit = 1 << column;
        if set & bit != 0 {
            return Err(format!("column {column} stands twice"));
        }
        set |= bit;
    }
    Ok(set)
}

fn key(text: &str) -> Result<Key, String> {
    let digits = text.trim_end_matches(|c: char| !c.is_ascii_digit());
    let options = match &text[digits.len()..] {
        "" | "a" | "al" => 0,
        "d" | "dl" => 1,
        "af" => 2,
        "df" => 3,
        other => return Err(format!("{} behind a column is none of a, d, al, af, dl, df", quoted(other))),
    };
    Ok((byte(digits)?, options))
}

/// A key list.
pub(super) fn keys(text: &str) -> Result<Vec<Key>, String> {
    list_of(text, key, MOST_KEYS)
}
