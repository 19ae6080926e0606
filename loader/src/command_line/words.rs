//! The words of a command line, and its options.
use crate::failure::Failure;
use std::ffi::OsString;

/// The words, the options' values, and whether help or the version is asked for.
#[derive(Default)]
pub struct Words {
    pub words: Vec<OsString>,
    pub output: Option<OsString>,
    pub choices: Option<OsString>,
    pub help: bool,
    pub version: bool,
}

pub fn usage<T>(what: String) -> Result<T, Failure> {
    Err(Failure::Usage(what))
}

/// An option's value, the next word. It stands at most once.
fn put(value: &mut Option<OsString>, next: Option<OsString>, name: &str, wants: &str) -> Result<(), Failure> {
    match next {
        _ if value.is_some() => usage(format!("{name} stands twice")),
        None => usage(format!("{name} wants {wants}")),
        given => {
            *value = given;
            Ok(())
        }
    }
}

/// What stands behind the program's name.
pub fn words(args: Vec<OsString>) -> Result<Words, Failure> {
    let mut out = Words::default();
    let mut args = args.into_iter();
    while let Some(arg) = args.next() {
        match arg.to_str() {
            Some("--") => out.words.extend(args.by_ref()),
            Some("-h" | "--help") => out.help = true,
            Some("-V" | "--version") => out.version = true,
            Some("-o") => put(&mut out.output, args.next(), "-o", "a path behind it, or - for standard output")?,
            Some("--choices") => put(&mut out.choices, args.next(), "--choices", "bytes in hex behind it, as 0001ff")?,
            Some(option) if option.len() > 1 && option.starts_with('-') => return usage(format!("there is no option {option}")),
            _ => out.words.push(arg),
        }
    }
    Ok(out)
}

/// Words, taken from the front.
pub struct Rest<'a>(pub &'a [OsString]);

impl Rest<'_> {
    pub fn peek(&self) -> Option<&str> {
        self.0.first().and_then(|w| w.to_str())
    }

    pub fn next(&mut self) -> Option<OsString> {
        let (first, rest) = self.0.split_first()?;
        self.0 = rest;
        Some(first.clone())
    }
}
