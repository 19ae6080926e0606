//! Puts a counter into each branch of a Rust text: at the start of every block that control can enter (bodies, branches, loops,
//! closures, match arms). Nothing else of the text changes, and lines keep their numbers.
use crate::tokens::{Token, tokens};

/// Whether the brace at a place opens a block that control enters.
fn opens_block(tokens: &[Token], brace: usize) -> bool {
    if ["else", "=>", "|", "||"].contains(&tokens[brace - 1].text) {
        return true;
    }
    let mut depth = 0;
    let mut enters = false;
    for token in tokens[..brace].iter().rev() {
        match token.text {
            ")" | "]" => depth += 1,
            "(" | "[" if depth == 0 => break,
            "(" | "[" => depth -= 1,
            ";" | "," | "{" | "}" | "=>" if depth == 0 => break,
            "match" | "impl" | "struct" | "enum" if depth == 0 => return false,
            "fn" | "if" | "while" | "in" | "loop" if depth == 0 => enters = true,
            _ => {}
        }
    }
    enters
}

/// The token behind a match arm that is no block.
fn arm_end(tokens: &[Token], from: usize) -> usize {
    let mut depth = 0;
    for (i, token) in tokens.iter().enumerate().skip(from) {
        match token.text {
            "(" | "[" | "{" => depth += 1,
            "," | "}" if depth == 0 => return i,
            ")" | "]" | "}" => depth -= 1,
            _ => {}
        }
    }
    unreachable!("an arm without an end")
}

pub struct Place {
    pub line: usize,
    pub text: String,
}

/// The text with its counters, numbered from `first` on, and their places.
pub fn counted(source: &str, first: usize) -> (String, Vec<Place>) {
    let tokens = tokens(source);
    let mut insertions: Vec<(usize, String)> = vec![];
    let mut places = vec![];
    let mut count = |at: usize| {
        let line = source[..at].matches('\n').count();
        places.push(Place { line: line + 1, text: source.lines().nth(line).unwrap_or("").trim().to_string() });
        format!(" crate::branches::at({}); ", first + places.len() - 1)
    };
    for (i, token) in tokens.iter().enumerate() {
        if token.text == "{" && i > 0 && opens_block(&tokens, i) {
            insertions.push((token.at + 1, count(token.at)));
        } else if token.text == "=>" && tokens[i + 1].text != "{" {
            insertions.push((tokens[i + 1].at, format!("{{{}", count(token.at))));
            insertions.push((tokens[arm_end(&tokens, i + 1)].at, "}".into()));
        }
    }
    insertions.sort_by_key(|(at, _)| *at);
    let mut out = String::new();
    let mut done = 0;
    for (at, text) in insertions {
        out += &source[done..at];
        out += &text;
        done = at;
    }
    (out + &source[done..], places)
}
