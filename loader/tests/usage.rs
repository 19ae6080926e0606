//! The words of the command line: help, version, and what is wrong.
mod common;

use common::*;
use std::ffi::OsStr;
use std::os::unix::ffi::OsStrExt;
use std::process::Command;

const COMMANDS: [&str; 14] = [
    "check",
    "copy",
    "ensure",
    "parallelize",
    "preserve",
    "push",
    "partial",
    "list",
    "draw",
    "make",
    "show",
    "try",
    "dry-run",
    "settings",
];

/// Whether the linked library has what a command calls.
fn can_run(command: &str) -> bool {
    cfg!(has_dry_run) || !matches!(command, "dry-run" | "settings")
}

#[test]
fn help_and_version_are_printed() {
    let help = run(&["--help"], b"");
    for command in COMMANDS {
        assert!(text(&help).contains(&format!("\n  {command} ")), "{command}");
    }
    assert!(text(&help).contains("looks at orders alone"));
    for args in [&["-h"][..], &["help"], &["help", "help"]] {
        assert_eq!(run(args, b"").stdout, help.stdout);
    }
    assert_eq!(text(&run(&["--version"], b"")), concat!("sort_placement ", env!("CARGO_PKG_VERSION"), "\n"));
    assert_eq!(text(&run(&["-V"], b"")), text(&run(&["--version"], b"")));
}

/// Each page has an example, and it runs as it stands there.
#[test]
fn every_command_has_a_page_and_an_example_that_runs() {
    let folder = std::path::Path::new(env!("CARGO_BIN_EXE_sort_placement")).parent().expect("a folder");
    let path = format!("{}:{}", folder.display(), std::env::var("PATH").unwrap_or_default());
    for command in COMMANDS {
        let page = run(&["help", command], b"");
        assert_eq!(run(&[command, "--help"], b"").stdout, page.stdout);
        assert!(text(&page).starts_with(&format!("sort_placement {command} ")));
        let example = text(&page).lines().last().expect("a line").trim();
        if !can_run(command) {
            continue;
        }
        let ran = Command::new("sh").args(["-c", example]).current_dir(ROOT).env("PATH", &path).output().expect("sh");
        let wanted = if command == "check" { 1 } else { 0 };
        assert_eq!(ran.status.code(), Some(wanted), "{example}: {}", String::from_utf8_lossy(&ran.stderr));
        assert!(ran.stderr.is_empty(), "{example}");
    }
}

#[test]
fn abbreviations_and_settings_are_explained() {
    for command in ["list", "try"] {
        assert!(text(&run(&["help", command], b"")).contains("0al   column 0, ascending, nulls last"));
    }
    let preserve = run(&["help", "preserve"], b"");
    for setting in ["  spr  ", "  spm  ", "  prefer  "] {
        assert!(text(&preserve).contains(setting));
    }
    assert!(
        text(&run(&["help", "check"], b""))
            .contains("distribution that it wants (one stream, or streams by key) is not looked at")
    );
}

#[test]
fn a_usage_error_names_what_is_wrong() {
    for (args, what) in [
        (&[][..], "a command is wanted"),
        (&["frobnicate"], "there is no command 'frobnicate'"),
        (&["help", "frobnicate"], "there is no command 'frobnicate'"),
        (&["help", "check", "list"], "'list' has no place beside help"),
        (&["ensure", "a", "b", "--help"], "'a' has no place beside help"),
        (&["--version", "list"], "'list' has no place beside --version"),
        (&["--version", "--help"], "--version does not go with help"),
        (&["--frobnicate"], "there is no option --frobnicate"),
        (&["list", "-o"], "-o wants a path behind it, or - for standard output"),
        (&["list", "-o", "a", "-o", "b"], "-o stands twice"),
        (&["help", "-o", "a"], "-o does not go with help"),
        (&["--version", "-o", "a"], "-o does not go with --version"),
        (&["list", "a", "b"], "one file at a time: 'b' is a second"),
        (&["partial"], "partial wants a node's number behind it"),
        (&["partial", "one"], "partial wants a node's number behind it, not 'one'"),
        (&["partial", "+1"], "partial wants a node's number behind it, not '+1'"),
        (&["preserve", "spr", "spr"], "the setting spr stands twice"),
        (&["dry-run"], "dry-run wants a plan file and the rows of its sources, as dry-run PLAN ROWS"),
        (&["settings", "a"], "settings wants a plan file and the rows of its sources, as settings PLAN ROWS"),
        (&["dry-run", "a", "b", "c"], "dry-run takes a plan file and rows: 'c' is a third"),
        (&["settings", "-", "-"], "the plan and the rows can't both come from standard input"),
        (&["dry-run", "a", "b", "--choices"], "--choices wants bytes in hex behind it, as 0001ff"),
        (&["dry-run", "a", "b", "--choices", "0"], "--choices wants two hex digits for each byte, as 0001ff, not '0'"),
        (&["dry-run", "a", "b", "--choices", "+1"], "--choices wants two hex digits for each byte, as 0001ff, not '+1'"),
        (&["dry-run", "--choices", "00", "--choices", "00"], "--choices stands twice"),
        (&["list", "--choices", "00"], "--choices goes with dry-run and settings alone"),
        (&["help", "--choices", "00"], "--choices does not go with help"),
        (&["try"], "try wants a call behind it, as try ensure"),
        (&["try", "list"], "try knows no call 'list'; there are check, copy, ensure, parallelize, preserve, push and partial"),
    ] {
        let wanted = format!("{what}\n`sort_placement --help` lists the commands.\n");
        assert_eq!(told(&run(args, b""), 2), wanted);
    }
}

#[test]
fn every_command_writes_where_it_is_told() {
    let folder = std::env::temp_dir().join(format!("sort_placement-usage-{}", std::process::id()));
    std::fs::create_dir_all(&folder).expect("a folder");
    let path = |name: &str| folder.join(name).to_str().expect("text").to_string();
    let (plan, out) = (path("plan"), path("out"));
    assert!(run(&["make", SAMPLE, "-o", &plan], b"").stdout.is_empty());
    for words in [
        &["check"][..],
        &["copy"],
        &["ensure"],
        &["parallelize"],
        &["preserve", "spr"],
        &["push"],
        &["partial", "1"],
        &["list"],
        &["draw"],
        &["show"],
    ] {
        let printed = run(&[words, &[&plan]].concat(), b"");
        let written = run(&[words, &[&plan, "-o", &out]].concat(), b"");
        assert_eq!(written.status, printed.status);
        assert!(written.stdout.is_empty() && !printed.stdout.is_empty(), "{words:?}");
        assert_eq!(std::fs::read(&out).expect("an output"), printed.stdout);
    }
    let tried = run(&["try", "ensure", SAMPLE, "-o", &out], b"");
    assert!(tried.stdout.is_empty());
    assert_eq!(std::fs::read(&out).expect("an output"), run(&["try", "ensure", SAMPLE], b"").stdout);
    std::fs::remove_dir_all(&folder).expect("it goes");
}

#[test]
fn words_need_not_be_utf8() {
    let odd = OsStr::from_bytes(b"/no\xff/such");
    let not_found = common::command().args([OsStr::new("list"), odd]).output().expect("it ends");
    assert!(told(&not_found, 4).contains("No such file"));
    for args in [vec![odd], vec![OsStr::new("try"), odd], vec![OsStr::new("partial"), odd], vec![OsStr::new("help"), odd]] {
        told(&common::command().args(args).output().expect("it ends"), 2);
    }
}
