//! The list of pinned plans, as cases.
use crate::cases::{Case, Request};
use sort_placement::exports::{ALL, Call};
use sort_placement::plan::{BLOCK, MOST_BLOCKS};
use sort_placement::text;

const LIST: &str = include_str!("../pinned_plans.txt");
const ROOM: usize = MOST_BLOCKS * BLOCK;

/// The call of a line, and the words behind it.
fn call<'a>(words: &'a [&'a str]) -> (Call, &'a [&'a str]) {
    let number = |at: usize| words[at].parse::<u32>().expect("a number");
    match words[0] {
        "preserve" => (Call::Preserve([1, 2, 3].map(|at| number(at) as u8)), &words[4..]),
        "partial" => (Call::Partial(number(1)), &words[2..]),
        name => (ALL.into_iter().find(|call| call.name() == name).expect("a call"), &words[1..]),
    }
}

/// How long the output is, for an answer of that length.
fn room(words: &[&str], answer: usize) -> usize {
    match words {
        [] => ROOM,
        ["fit"] => answer,
        ["short"] => answer - 1,
        [number] => number.parse().expect("a length"),
        more => panic!("what is {more:?}?"),
    }
}

/// The plan's text with every line that begins with a number written so often, one node over the other.
fn unrolled(plan: &str) -> String {
    let mut out = String::new();
    let mut deeper = 0;
    for line in plan.lines() {
        let words = line.trim_start();
        let depth = line.len() - words.len() + deeper;
        let (times, node) = match words.split_once(' ').map(|(first, rest)| (first.parse::<usize>(), rest)) {
            Some((Ok(times), rest)) => (times, rest),
            _ => (1, words),
        };
        (0..times).for_each(|i| out += &format!("{:indent$}{node}\n", "", indent = depth + 2 * i));
        deeper += 2 * (times - 1);
    }
    out
}

/// A call's line with the lines of its plan.
fn case(line: &str, plan: &str) -> Case {
    let words: Vec<&str> = line.split_whitespace().collect();
    let (call, behind) = call(&words);
    let tree = text::parse(&unrolled(plan)).unwrap_or_else(|why| panic!("{line}: {why}\n{plan}"));
    let mut request = Request { call, room: if call == Call::Check { 1 } else { ROOM }, file: tree.write() };
    if call != Call::Check {
        request.room = room(behind, request.answer().bytes.len());
    }
    Case::of(request).expect("a call that is replayed")
}

pub fn cases() -> Vec<Case> {
    let mut out = vec![];
    let mut lines = LIST.lines().filter(|l| !l.is_empty() && !l.starts_with('#')).peekable();
    while let Some(line) = lines.next() {
        let mut plan = String::new();
        while let Some(deeper) = lines.next_if(|l| l.starts_with("  ")) {
            plan += &deeper[2..];
            plan += "\n";
        }
        out.push(case(line, &plan));
    }
    out
}

#[cfg(test)]
mod tests {
    use super::*;

    /// No plan of the list is refused by its file; the refusals that it has are those it is about.
    #[test]
    fn the_list_is_read() {
        let cases = cases();
        assert!(cases.len() > 100);
        assert!(cases.iter().all(|c| c.number == 0 || c.number >= 20));
        assert!([20, 21, 23, 24, 25].iter().all(|n| cases.iter().any(|c| c.number == *n)));
    }
}
