//! What a command line asks for. Nothing on it is passed over: a word that has no place is an error that names it.
use crate::failure::Failure;
use crate::files::Place;
use crate::help;
use crate::words::{Rest, Words, usage, words};
use sort_placement::Settings;
use std::ffi::OsString;

/// A call of the library that writes a plan file.
#[derive(Clone, Copy)]
pub enum Rewrite {
    Copy,
    Ensure,
    Parallelize,
    Preserve(Settings),
    Push,
    Partial(u32),
}

/// A call of the library.
#[derive(Clone, Copy)]
pub enum Call {
    Check,
    Rewrite(Rewrite),
}

/// A plan, the rows of its sources and the choices of the steps.
pub struct Stepping {
    pub plan: Place,
    pub rows: Place,
    pub choices: Vec<u8>,
}

pub enum Command {
    Call(Call),
    List,
    Draw,
    Make,
    Show,
    Try(Call),
    DryRun(Stepping),
    Settings(Stepping),
    /// a text for standard output
    Print(String),
}

pub struct Request {
    pub command: Command,
    pub input: Place,
    pub output: Place,
}

fn settings(rest: &mut Rest) -> Result<Settings, Failure> {
    let mut settings = Settings::default();
    while let Some(word) = rest.peek() {
        let on = match word {
            "spr" => &mut settings.spr_better,
            "spm" => &mut settings.spm_better,
            "prefer" => &mut settings.prefer_existing,
            _ => break,
        };
        if std::mem::replace(on, true) {
            return usage(format!("the setting {word} stands twice"));
        }
        rest.next();
    }
    Ok(settings)
}

fn node(rest: &mut Rest) -> Result<u32, Failure> {
    let Some(word) = rest.next() else { return usage("partial wants a node's number behind it".into()) };
    let digits = word.to_str().filter(|w| w.bytes().all(|b| b.is_ascii_digit()));
    let number = digits.and_then(|w| w.parse().ok());
    number.ok_or_else(|| Failure::Usage(format!("partial wants a node's number behind it, not '{}'", word.display())))
}

fn call(name: &str, rest: &mut Rest) -> Result<Option<Call>, Failure> {
    let rewrite = match name {
        "check" => return Ok(Some(Call::Check)),
        "copy" => Rewrite::Copy,
        "ensure" => Rewrite::Ensure,
        "parallelize" => Rewrite::Parallelize,
        "preserve" => Rewrite::Preserve(settings(rest)?),
        "push" => Rewrite::Push,
        "partial" => Rewrite::Partial(node(rest)?),
        _ => return Ok(None),
    };
    Ok(Some(Call::Rewrite(rewrite)))
}

fn tried(rest: &mut Rest) -> Result<Call, Failure> {
    let Some(word) = rest.next() else { return usage("try wants a call behind it, as try ensure".into()) };
    let found = match word.to_str() {
        Some(name) => call(name, rest)?,
        None => None,
    };
    let known = "check, copy, ensure, parallelize, preserve, push and partial";
    found.ok_or_else(|| Failure::Usage(format!("try knows no call '{}'; there are {known}", word.display())))
}

/// Bytes of two hex digits each.
fn hex(word: &OsString) -> Result<Vec<u8>, Failure> {
    let digits = word.to_str().filter(|w| w.len().is_multiple_of(2) && w.bytes().all(|b| b.is_ascii_hexdigit()));
    let Some(digits) = digits else {
        return usage(format!("--choices wants two hex digits for each byte, as 0001ff, not '{}'", word.display()));
    };
    let nibble = |digit: u8| (digit as char).to_digit(16).unwrap_or_default() as u8;
    Ok(digits.as_bytes().chunks(2).map(|pair| 16 * nibble(pair[0]) + nibble(pair[1])).collect())
}

/// The words of a command that steps.
fn stepping(name: &str, rest: &mut Rest, choices: Option<&OsString>) -> Result<Stepping, Failure> {
    let (Some(plan), Some(rows)) = (rest.next(), rest.next()) else {
        return usage(format!("{name} wants a plan file and the rows of its sources, as {name} PLAN ROWS"));
    };
    if let Some(third) = rest.next() {
        return usage(format!("{name} takes a plan file and rows: '{}' is a third", third.display()));
    }
    let (plan, rows) = (place(Some(plan)), place(Some(rows)));
    if plan.is_none() && rows.is_none() {
        return usage("the plan and the rows can't both come from standard input".into());
    }
    Ok(Stepping { plan, rows, choices: choices.map_or(Ok(vec![]), hex)? })
}

fn command(name: &str, rest: &mut Rest, choices: Option<&OsString>) -> Result<Command, Failure> {
    match name {
        "dry-run" => return Ok(Command::DryRun(stepping(name, rest, choices)?)),
        "settings" => return Ok(Command::Settings(stepping(name, rest, choices)?)),
        _ if choices.is_some() => return usage("--choices goes with dry-run and settings alone".into()),
        "list" => return Ok(Command::List),
        "draw" => return Ok(Command::Draw),
        "make" => return Ok(Command::Make),
        "show" => return Ok(Command::Show),
        "try" => return Ok(Command::Try(tried(rest)?)),
        _ => {}
    }
    match call(name, rest)? {
        Some(call) => Ok(Command::Call(call)),
        None => usage(format!("there is no command '{name}'")),
    }
}

/// The list of commands, or a command's own page.
fn page(topic: Option<&OsString>) -> Result<String, Failure> {
    match topic {
        None => Ok(help::all()),
        Some(name) => match name.to_str().and_then(help::of) {
            Some(text) => Ok(text),
            None => usage(format!("there is no command '{}'", name.display())),
        },
    }
}

/// `--help`, `--version`, `help`, `help COMMAND`, `COMMAND --help`.
fn printed(words: &Words) -> Result<Option<Command>, Failure> {
    let mut rest = Rest(&words.words);
    let asked = match (words.version, words.help || rest.peek() == Some("help")) {
        (false, false) => return Ok(None),
        (true, true) => return usage("--version does not go with help".into()),
        (true, false) => "--version",
        (false, true) => "help",
    };
    for (option, value) in [("-o", &words.output), ("--choices", &words.choices)] {
        if value.is_some() {
            return usage(format!("{option} does not go with {asked}"));
        }
    }
    if rest.peek() == Some("help") {
        rest.next();
    }
    let text = if words.version { help::VERSION.into() } else { page(rest.next().as_ref())? };
    match rest.next() {
        Some(word) => usage(format!("'{}' has no place beside {asked}", word.display())),
        None => Ok(Some(Command::Print(text))),
    }
}

fn place(path: Option<OsString>) -> Place {
    path.filter(|p| p != "-")
}

/// The request of the words behind the program's name.
pub fn request(args: Vec<OsString>) -> Result<Request, Failure> {
    let words = words(args)?;
    if let Some(command) = printed(&words)? {
        return Ok(Request { command, input: None, output: None });
    }
    let mut rest = Rest(&words.words);
    let Some(name) = rest.next() else { return usage("a command is wanted".into()) };
    let command = match name.to_str() {
        Some(name) => command(name, &mut rest, words.choices.as_ref())?,
        None => return usage(format!("there is no command '{}'", name.display())),
    };
    let input = rest.next();
    match rest.next() {
        Some(second) => usage(format!("one file at a time: '{}' is a second", second.display())),
        None => Ok(Request { command, input: place(input), output: place(words.output) }),
    }
}
