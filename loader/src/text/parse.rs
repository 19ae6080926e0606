//! The plan of a text. Every word of it is in the plan, or is an error with its line and column.
use super::error::{TextError, quoted};
use super::fields::{self, Field};
use super::lines::{Wrong, lines_with_words};
use super::values;
use crate::plan::kind::{JOIN_TYPES, NAMES, is_join, name};
use crate::plan::{self, HASH, MOST_NODES, NO_FETCH, Node, PRESERVE, Record, UNBOUNDED};
use crate::{Plan, Why};

/// The length of the longest text: room for 126 nodes with every field, and for remarks.
pub const MOST_TEXT_BYTES: usize = 1 << 20;

/// A name with 'a' or 'an' before it.
fn one(name: &str) -> String {
    let article = if name.starts_with(['a', 'o']) { "an" } else { "a" };
    format!("{article} {name}")
}

/// Puts a field's value into a record.
fn put(r: &mut Record, field: &str, value: &str) -> Result<(), String> {
    match field {
        "streams" => r.streams = values::byte(value)?,
        "width" => r.width = values::byte(value)?,
        "keys" => r.keys = values::keys(value)?,
        "right" => r.right = values::right_columns(value)?,
        "columns" => {
            r.columns = values::columns(value)?;
            r.width = r.columns.len() as u8;
        }
        "type" => {
            let found = JOIN_TYPES.iter().position(|t| *t == value);
            r.variant =
                found.ok_or_else(|| format!("no join type {}; there are {}", quoted(value), JOIN_TYPES.join(", ")))? as u8;
        }
        "prefix" => r.variant = values::byte(value)?,
        "constants" => r.set = values::column_set(value)?,
        "keyed" => (r.variant, r.set) = (2, values::column_set(value)?),
        "fetch" => r.fetch = values::number(value, NO_FETCH - 1)?,
        _ => r.skip = values::number(value, u32::MAX)?,
    }
    Ok(())
}

fn mark(r: &mut Record, field: &str) {
    match field {
        "preserve" => r.marks |= PRESERVE,
        "hash" => r.marks |= HASH,
        "unbounded" => r.marks |= UNBOUNDED,
        _ => r.variant = 1,
    }
}

/// Puts one word of a line into a record.
fn put_word(r: &mut Record, word: &str) -> Result<Field, String> {
    let (name, value) = word.split_once('=').map_or((word, None), |(name, value)| (name, Some(value)));
    let Some(field) = fields::of_kind(r.kind).iter().find(|f| f.name() == name) else {
        let kind = one(plan::kind::name(r.kind));
        return Err(format!("{kind} has no field {}; it has {}", quoted(name), fields::in_words(r.kind)));
    };
    match (field, value) {
        (Field::Valued(name), Some(value)) => put(r, name, value).map_err(|why| format!("{name}: {why}"))?,
        (Field::Mark(name), None) => mark(r, name),
        (Field::Valued(name), None) => return Err(format!("'{name}' wants a value, as {name}=..")),
        (Field::Mark(name), Some(_)) => return Err(format!("'{name}' takes no value")),
    }
    Ok(*field)
}

/// A field that stands twice, or beside one that says otherwise.
fn clash(seen: &[&str], name: &str) -> Option<String> {
    let both = |a: &str, b: &str| name == a && seen.contains(&b);
    if seen.contains(&name) {
        Some(format!("'{name}' stands twice"))
    } else if both("single", "keyed") || both("keyed", "single") {
        Some("a distribution is single or keyed, not both".into())
    } else {
        None
    }
}

/// The record of a line's words.
fn record(words: &[(usize, &str)]) -> Result<Record, Wrong> {
    let (start, kind_name) = words[0];
    let known = NAMES.iter().skip(1).position(|n| *n == kind_name).map(|i| i as u8 + 1);
    let no_kind = || Wrong { at: start, words: format!("no kind {}; there are {}", quoted(kind_name), NAMES[1..].join(", ")) };
    let mut r = Record::new(known.ok_or_else(no_kind)?);
    let (mut seen, mut right_at) = (vec![], start);
    for (at, word) in &words[1..] {
        let wrong = |words| Wrong { at: *at, words };
        let name = put_word(&mut r, word).map_err(wrong)?.name();
        if let Some(words) = clash(&seen, name) {
            return Err(wrong(words));
        }
        if name == "right" {
            right_at = *at;
        }
        seen.push(name);
    }
    if is_join(r.kind) && r.right.len() != r.keys.len() {
        let (right, keys) = (r.right.len(), r.keys.len());
        let words = format!("{} has as many right columns as keys, not {right} and {keys}", one(name(r.kind)));
        return Err(Wrong { at: right_at, words });
    }
    Ok(r)
}

/// A line that has a node.
struct Line {
    number: usize,
    indent: usize,
    record: Record,
}

fn lines(text: &str) -> Result<Vec<Line>, TextError> {
    let mut out = vec![];
    for (number, line, words) in lines_with_words(text) {
        let wrong = |w: Wrong| w.on(number);
        let (indent, _) = words[0];
        if out.len() == MOST_NODES {
            return Err(wrong(Wrong { at: indent, words: "a plan has at most 126 nodes".into() }));
        }
        if let Some(at) = line.chars().take(indent).position(|c| c != ' ') {
            return Err(wrong(Wrong { at, words: "a line is indented by spaces alone".into() }));
        }
        out.push(Line { number, indent, record: record(&words).map_err(wrong)? });
    }
    Ok(out)
}

/// The node at the front of the lines, with all deeper lines behind it. There are at most 126, so it can call itself.
fn node(lines: &mut std::iter::Peekable<std::slice::Iter<Line>>) -> Result<Node, TextError> {
    let Some(Line { indent, record, .. }) = lines.next() else { return Err(TextError::Empty) };
    let mut children = vec![];
    while let Some(line) = lines.peek().filter(|l| l.indent > *indent) {
        if line.indent != indent + 2 {
            return Err(form(line, "a child stands two spaces deeper than its parent"));
        }
        children.push(node(lines)?);
    }
    Ok(Node::new(record.clone(), children))
}

fn form(line: &Line, words: &str) -> TextError {
    TextError::Form { line: line.number, column: line.indent + 1, words: words.into() }
}

/// The plan of a text.
///
/// # Errors
///
/// Where the text is not of the form, with line and column; and where it is, and the library refuses its plan, with the line of
/// the node and the refusal.
///
/// ```
/// let wrong = sort_placement::text::parse("filter\n  source streams=1 width=3 right=0").unwrap_err();
/// let fields = "streams, width, keys, constants, unbounded";
/// assert_eq!(wrong.to_string(), format!("line 2, column 28: a source has no field 'right'; it has {fields}"));
///
/// let refused = sort_placement::text::parse("sort keys=9\n  source streams=1 width=3").unwrap_err();
/// let rule = "key column 9 is not below the child's width 3";
/// assert_eq!(refused.to_string(), format!("refusal 7: line 1: node 0 (sort): {rule}"));
/// ```
pub fn parse(text: &str) -> Result<Plan, TextError> {
    if text.len() > MOST_TEXT_BYTES {
        return Err(TextError::TooLong);
    }
    let lines = lines(text)?;
    let mut rest = lines.iter().peekable();
    let root = node(&mut rest)?;
    if let Some(line) = rest.next() {
        return Err(form(line, "a second root: it stands no deeper than the first"));
    }
    Plan::read(&plan::write(&root)).map_err(|why| refused(text, why))
}

/// The refusal of a text's plan, or of a rewrite of it, with the line of the node: the nodes of a plan are its text's lines, in
/// their order.
///
/// ```
/// use sort_placement::{MOST_BYTES, Why, pushdown_sorts, text};
///
/// let written = "filter\n  # by a constant\n  sort keys=0\n    source streams=1 width=1 constants=0";
/// let plan = text::parse(written).unwrap();
/// let refusal = pushdown_sorts(&plan.write(), &mut [0; MOST_BYTES]).unwrap_err();
/// let told = text::refused(written, Why::of_rewrite(refusal, &plan, None)).to_string();
/// assert_eq!(told, "refusal 25: line 3: node 1 (sort): its keys 0al are all constant, and push meets it");
/// ```
pub fn refused(text: &str, why: Why) -> TextError {
    let line = why.node.and_then(|node| lines_with_words(text).nth(node));
    TextError::Refused { line: line.map(|(number, ..)| number), why }
}
