//! Wrong definitions by name: those of wrong_definitions.txt, and for each kind those by which it loses its order, its constants or
//! its classes. The latter are sound, so no proof of soundness sees them.
use crate::mutations::{Edit, Mutant};
use std::collections::BTreeMap;

/// A text that stands in its file once, and what takes its place.
struct Change {
    file: String,
    old: String,
    new: String,
}

/// The lines behind a mark, without it.
fn block<'a>(lines: &mut std::iter::Peekable<impl Iterator<Item = &'a str>>, mark: char) -> String {
    let mut out = vec![];
    while let Some(line) = lines.next_if(|l| l.starts_with(mark)) {
        out.push(line[1..].strip_prefix(' ').unwrap_or(""));
    }
    out.join("\n")
}

/// The named changes of the list.
fn listed(list: &str) -> Vec<(String, Vec<Change>)> {
    let mut out: Vec<(String, Vec<Change>)> = vec![];
    let mut lines = list.lines().skip_while(|l| !l.starts_with("# ")).peekable();
    while let Some(line) = lines.next() {
        if let Some(name) = line.strip_prefix("## ") {
            out.push((name.into(), vec![]));
        } else if !line.is_empty() && !line.starts_with("# ") {
            let (old, new) = (block(&mut lines, '-'), block(&mut lines, '+'));
            out.last_mut().expect("a name first").1.push(Change { file: line.into(), old, new });
        }
    }
    out
}

/// A fact by name, and the step that takes it away.
type Loss = (&'static str, &'static str);

const ORDER: Loss = ("its order", "known.order.clear()");
const CONSTANTS: Loss = ("its constants", "known.constants = 0");
const CLASSES: Loss = ("its classes", "known.class = Facts::free(0).class");

/// What a kind, or a join of some types, can lose.
const LOSES: [(&str, &str, &[Loss]); 15] = [
    ("a source", "SOURCE", &[ORDER, CONSTANTS]),
    ("a filter", "FILTER", &[ORDER, CONSTANTS, CLASSES]),
    ("a projection", "PROJECTION", &[ORDER, CONSTANTS, CLASSES]),
    ("a union", "UNION", &[ORDER, CLASSES]),
    ("a repartition", "REPARTITION", &[ORDER, CONSTANTS, CLASSES]),
    ("a coalesce", "COALESCE", &[CONSTANTS, CLASSES]),
    ("a sort", "SORT", &[ORDER, CONSTANTS, CLASSES]),
    ("a merge", "MERGE", &[ORDER, CONSTANTS, CLASSES]),
    ("a global limit", "GLOBAL_LIMIT", &[ORDER, CONSTANTS, CLASSES]),
    ("a local limit", "LOCAL_LIMIT", &[ORDER, CONSTANTS, CLASSES]),
    ("a partial sort", "PARTIAL_SORT", &[ORDER, CONSTANTS, CLASSES]),
    ("an aggregate", "AGGREGATE", &[ORDER, CONSTANTS, CLASSES]),
    ("a sort-merge join", "SORT_MERGE_JOIN", &[ORDER, CONSTANTS, CLASSES]),
    ("a hash join that keeps right", "HASH_JOIN", &[ORDER, CONSTANTS, CLASSES]),
    ("a hash join that keeps none", "HASH_JOIN", &[CONSTANTS, CLASSES]),
];

/// The join types, by number, of a row of LOSES; one type for what is no join.
fn types(what: &str) -> Vec<(&'static str, u8)> {
    let all = ["Inner", "Left", "Right", "Full", "LeftSemi", "LeftAnti", "RightSemi", "RightAnti"];
    let of = |numbers: &[u8]| numbers.iter().map(|t| (all[*t as usize], *t)).collect();
    match what {
        "a sort-merge join" => of(&[0, 1, 2, 4, 5, 6, 7]),
        "a hash join that keeps right" => of(&[0, 2, 6, 7]),
        "a hash join that keeps none" => of(&[1, 4, 5]),
        _ => vec![("", 0)],
    }
}

/// The facts of a node, less one of them.
fn less(kind: &str, join_type: (&str, u8), loss: &str) -> Change {
    let asked = if join_type.0.is_empty() { String::new() } else { format!(" && r.variant == {}", join_type.1) };
    let old = "pub fn of(r: &Record, children: &[&Facts]) -> Facts {".to_string();
    let lost = format!("let mut known = whole(r, children);\n    if r.kind == {kind}{asked} {{ {loss} }}\n    known\n}}");
    let new = format!("{old}\n    {lost}\n\nfn whole(r: &Record, children: &[&Facts]) -> Facts {{");
    Change { file: "facts.rs".into(), old, new }
}

/// An output requirement is the Rust's own operator, and has its facts elsewhere.
fn less_of_an_output_requirement((name, loss): Loss) -> (String, Vec<Change>) {
    let old = "Self::of(Facts { streams, ..eq.0 },".to_string();
    let new = format!("Self::of({{ let mut known = Facts {{ streams, ..eq.0 }}; {loss}; known }},");
    (format!("an output requirement loses {name}"), vec![Change { file: "plan.rs".into(), old, new }])
}

fn losses() -> Vec<(String, Vec<Change>)> {
    let mut out: Vec<_> = [ORDER, CONSTANTS, CLASSES].map(less_of_an_output_requirement).into();
    for (what, kind, losses) in LOSES {
        for join_type in types(what) {
            for (name, loss) in losses {
                let told = if join_type.0.is_empty() { what.into() } else { format!("{what}, {}", join_type.0) };
                out.push((format!("{told}, loses {name}"), vec![less(kind, join_type, loss)]));
            }
        }
    }
    out
}

fn edit(texts: &BTreeMap<&str, String>, name: &str, change: Change) -> Edit {
    let text = texts.get(change.file.as_str()).unwrap_or_else(|| panic!("{name}: no file {}", change.file));
    let mut found = text.match_indices(&change.old);
    let at = found.next().unwrap_or_else(|| panic!("{name}: not in {}: {}", change.file, change.old)).0;
    assert!(found.next().is_none(), "{name}: twice in {}: {}", change.file, change.old);
    Edit { file: change.file, at, length: change.old.len(), instead: change.new }
}

/// All of them, as mutants of the texts.
pub fn mutants(texts: &BTreeMap<&str, String>, list: &str) -> Vec<Mutant> {
    let as_mutant = |(name, changes): (String, Vec<Change>)| {
        let edits: Vec<Edit> = changes.into_iter().map(|c| edit(texts, &name, c)).collect();
        let first = &edits[0];
        let line = texts[first.file.as_str()][..first.at].matches('\n').count() + 1;
        Mutant { file: first.file.clone(), line, what: name, edits }
    };
    listed(list).into_iter().chain(losses()).map(as_mutant).collect()
}
