//! The library's calls on plan files, and a few views of them.
mod changes;
mod commands;
mod dry_runs;
mod failure;
mod files;
mod help;
mod request;
mod settings;
mod side_by_side;
mod words;

use std::io::Write;
use std::process::ExitCode;

fn main() -> ExitCode {
    let args: Vec<_> = std::env::args_os().skip(1).collect();
    match request::request(args).and_then(commands::run) {
        Ok(status) => status,
        Err(failure) => {
            // where standard error is closed too, the status still tells
            let _ = writeln!(std::io::stderr(), "{failure}");
            failure.status()
        }
    }
}
