//! Small mutations of the Rust's text: a condition turned, a branch's answer turned, a bound moved, a fetch dropped.
use crate::tokens::{Token, tokens};

/// A part of a file's text, and what takes its place.
pub struct Edit {
    pub file: String,
    pub at: usize,
    pub length: usize,
    pub instead: String,
}

/// A mutant: where its first edit stands, what it is, and its edits.
pub struct Mutant {
    pub file: String,
    pub line: usize,
    pub what: String,
    pub edits: Vec<Edit>,
}

/// What no plan file reaches: windows, and (below) the rule that adds and removes output requirements.
const LEFT_OUT: [&str; 3] = ["is_window", "adjust_window_sort_removal", "determine_children_requirement"];

/// From the name of a function to the end of its body.
fn body(source: &str, name: &str) -> Option<std::ops::Range<usize>> {
    let start = source.find(&format!("fn {name}("))?;
    let end = source[start..].find("\n}\n").map_or(source.len(), |i| start + i);
    Some(start..end)
}

fn replacement<'a>(before: &str, token: &Token, after: &str) -> Option<&'a str> {
    match token.text {
        "&&" => Some("||"),
        // a closure without parameters is no condition
        "||" if before != "(" => Some("&&"),
        "true" => Some("false"),
        "false" => Some("true"),
        "is_some" => Some("is_none"),
        "is_none" => Some("is_some"),
        "!" if after != "=" && after != "(" && before != "[" && !before.chars().all(|c| c.is_alphanumeric() || c == '_') => {
            Some("")
        }
        "min" => Some("max"),
        "any" => Some("all"),
        "all" => Some("any"),
        "fetch" | "parent_fetch" | "sort_fetch" if before == "(" && after == ")" => Some("None"),
        "Left" if before == "::" => Some("Right"),
        "<" if after.parse::<usize>().is_ok() => Some("<="),
        ">" if after.parse::<usize>().is_ok() => Some(">="),
        "<=" => Some("<"),
        ">=" => Some(">"),
        _ => None,
    }
}

pub fn mutants(file: &str, source: &str) -> Vec<Mutant> {
    if file == "output_requirements.rs" {
        return vec![];
    }
    let left_out: Vec<_> = LEFT_OUT.iter().filter_map(|name| body(source, name)).collect();
    let tokens = tokens(source);
    let mut out = vec![];
    for window in tokens.windows(3) {
        let [before, token, after] = window else { unreachable!() };
        let Some(instead) = replacement(before.text, token, after.text) else { continue };
        if left_out.iter().any(|r| r.contains(&token.at)) {
            continue;
        }
        let line = source[..token.at].matches('\n').count();
        let text = source.lines().nth(line).unwrap_or("").trim();
        let what = format!("'{}' by '{instead}' in: {text}", token.text);
        let edit = Edit { file: file.into(), at: token.at, length: token.text.len(), instead: instead.into() };
        out.push(Mutant { file: file.into(), line: line + 1, what, edits: vec![edit] });
    }
    out
}
