//! What each command takes, and what is wrong with the words of a command line: an option that a command does not have is not passed
//! over, since a run that did something else would look the same.
use std::collections::BTreeMap;
use std::path::PathBuf;

/// A command line: the command's name and the words behind it, and the options with their values.
#[derive(Debug, Default)]
pub struct Options {
    pub words: Vec<String>,
    values: BTreeMap<String, String>,
}

impl Options {
    pub fn is_given(&self, name: &str) -> bool {
        self.values.contains_key(name)
    }

    pub fn number(&self, name: &str, default: u64) -> u64 {
        self.values.get(name).map_or(default, |v| v.parse().expect("a number: `take` has asked"))
    }

    pub fn path(&self, name: &str) -> Option<PathBuf> {
        self.values.get(name).map(PathBuf::from)
    }
}

/// Ends the program where a command can't be carried out.
pub fn stop(why: &str) -> ! {
    eprintln!("{why}");
    std::process::exit(2)
}

/// A command: its name, its words as they are told, how many at the least and at the most, its options with a number, with a file, and
/// with nothing behind them.
struct Usage {
    name: &'static str,
    words: &'static str,
    least: usize,
    most: usize,
    numbers: &'static [&'static str],
    files: &'static [&'static str],
    flags: &'static [&'static str],
}

const NONE: &[&str] = &[];
const AGGREGATES: &[&str] = &["--without-aggregates"];
const MANY: usize = usize::MAX;

const fn usage(
    name: &'static str,
    words: (&'static str, usize, usize),
    numbers: &'static [&'static str],
    files: &'static [&'static str],
    flags: &'static [&'static str],
) -> Usage {
    Usage { name, words: words.0, least: words.1, most: words.2, numbers, files, flags }
}

const COMMANDS: [Usage; 14] = [
    usage("vectors", (" PATH", 1, 1), NONE, NONE, NONE),
    usage("cases", (" FILE", 1, 1), NONE, NONE, NONE),
    usage("compare", ("", 0, 0), &["--plans", "--seconds", "--seed", "--threads"], NONE, NONE),
    usage("show", (" CALL .. TEXT", 2, MANY), NONE, NONE, NONE),
    usage("damage", ("", 0, 0), &["--files", "--seed"], NONE, &["--heap"]),
    usage("dry", ("", 0, 0), &["--plans", "--seed"], NONE, &["--heap"]),
    usage("dry-times", ("", 0, 0), NONE, NONE, NONE),
    usage("threads", ("", 0, 0), &["--plans", "--seed", "--threads"], NONE, NONE),
    usage("mutants", ("", 0, 0), &["--plans", "--seed", "--from"], &["--cases"], &["--kept"]),
    usage("sample", (" FILE", 1, 1), &["--small", "--plans", "--seed", "--most"], NONE, &["--kept"]),
    usage("answers", ("", 0, 0), &["--plans", "--seed"], &["--cases"], NONE),
    usage("stack", ("", 0, 0), &["--plans", "--seed"], NONE, NONE),
    usage("times", ("", 0, 0), NONE, &["--svg"], AGGREGATES),
    usage("requests", ("", 0, 0), &["--plans", "--seed"], NONE, AGGREGATES),
];

impl Usage {
    fn told(&self) -> String {
        let numbers = self.numbers.iter().map(|o| format!(" [{o} N]"));
        let files = self.files.iter().map(|o| format!(" [{o} FILE]"));
        let flags = self.flags.iter().map(|o| format!(" [{o}]"));
        format!("differential {}{}{}", self.name, self.words, numbers.chain(files).chain(flags).collect::<String>())
    }

    /// The value that an option takes from the words behind it.
    fn value(&self, name: &str, behind: Option<&String>) -> Result<String, String> {
        let value = behind.map_or("", String::as_str);
        if self.files.contains(&name) {
            return if value.is_empty() { Err(format!("{name} wants a file behind it")) } else { Ok(value.into()) };
        }
        match value.parse::<u64>() {
            Err(_) => Err(format!("{name} wants a number, and {value:?} is none")),
            Ok(0) if name == "--threads" => Err("no threads do nothing".into()),
            Ok(_) => Ok(value.into()),
        }
    }

    /// The words behind the command's name, or what is wrong with them.
    fn take(&self, words: &[String]) -> Result<Options, String> {
        let mut options = Options { words: vec![self.name.into()], values: BTreeMap::new() };
        let mut words = words.iter();
        while let Some(word) = words.next() {
            let name = word.as_str();
            if !name.starts_with("--") {
                options.words.push(word.clone());
                continue;
            }
            let value = if self.flags.contains(&name) {
                String::new()
            } else if self.numbers.contains(&name) || self.files.contains(&name) {
                self.value(name, words.next())?
            } else {
                return Err(format!("{} has no option {name}", self.name));
            };
            if options.values.insert(name.into(), value).is_some() {
                return Err(format!("{name} stands twice"));
            }
        }
        let plain = options.words.len() - 1;
        if (self.least..=self.most).contains(&plain) {
            Ok(options)
        } else {
            Err(format!("{} was given {plain} words", self.name))
        }
    }
}

/// What all commands take.
pub fn all() -> String {
    COMMANDS.iter().map(|c| c.told() + "\n").collect()
}

/// A command line, or what is wrong with it, with what the command takes.
pub fn take(words: &[String]) -> Result<Options, String> {
    let name = words.first().map_or("", String::as_str);
    match COMMANDS.iter().find(|c| c.name == name) {
        Some(command) => command.take(&words[1..]).map_err(|wrong| format!("{wrong}\n{}", command.told())),
        None => Err(format!("no command {name:?}\n{}", all().trim_end())),
    }
}

#[cfg(test)]
mod tests {
    use super::Options;

    fn take(line: &str) -> Result<Options, String> {
        let words: Vec<String> = line.split_whitespace().map(String::from).collect();
        super::take(&words)
    }

    #[test]
    fn what_is_wrong_is_named() {
        for (line, part) in [
            ("compare --plan 5", "no option --plan"),
            ("compare --plans five", "wants a number, and \"five\""),
            ("compare --plans", "wants a number"),
            ("compare 5", "given 1 words"),
            ("vectors", "given 0 words"),
            ("mutants --cases", "wants a file"),
            ("compare --threads 0", "no threads do nothing"),
            ("compare --seed 1 --seed 2", "--seed stands twice"),
            ("sample --small 5", "given 0 words"),
            ("dry --threads 2", "no option --threads"),
            ("compute", "no command \"compute\""),
            ("", "no command"),
        ] {
            let told = take(line).expect_err(line);
            assert!(told.contains(part), "{line}: {told}");
        }
    }

    #[test]
    fn what_is_right_is_run() {
        for line in [
            "compare --plans 5 --seed 2",
            "show preserve spr TEXT",
            "damage --heap",
            "dry --plans 5 --seed 2 --heap",
            "dry-times",
            "times --svg F --without-aggregates",
            "sample F --kept",
        ] {
            take(line).expect(line);
        }
        let sample = take("sample --small 5 F --kept").expect("a command line");
        assert_eq!(sample.words, ["sample", "F"]);
        assert_eq!((sample.number("--small", 0), sample.number("--seed", 7), sample.is_given("--kept")), (5, 7, true));
    }
}
