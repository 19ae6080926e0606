//! Proves and builds the library with the toolchain's own command, and links a copy of it.
//!
//! The copy stands in cargo's own folder: `rt ci` sets the provers' folders aside while it runs, and a package that is built must still link then.
//! A call is compiled in if the library exports it: the list of calls is read from the exports that
//! crates/sort_placement_c/src/lib.rt declares, here and nowhere else.
use std::collections::{BTreeMap, BTreeSet};
use std::fs::{File, OpenOptions};
use std::io::{ErrorKind, Read, Write};
use std::os::unix::fs::FileTypeExt;
use std::path::{Path, PathBuf};
use std::process::{Child, Command, ExitCode, ExitStatus, Stdio};
use std::thread::JoinHandle;
use std::time::{Duration, Instant, SystemTime};

/// The name of the archive that is linked, and of the crate of its exports.
const LIBRARY: &str = "sort_placement";
const EXPORTS: &str = "sort_placement_c";

const CALLS: [&str; 8] = [
    "check_order",
    "copy_plan",
    "ensure_sorting",
    "parallelize_sorts",
    "replace_with_order_preserving_variants",
    "pushdown_sorts",
    "replace_with_partial_sort",
    "dry_run",
];

const NO_TOOLCHAIN: &str = "\
The command `rt` is not there, and only what it has proved is linked.
Install the Rattle toolchain (the kit that has bin/rt), put its bin folder on the PATH and build again; `rt version` names it.";

/// Where something can be told on the way.
struct Screen {
    file: File,
    /// on a terminal cargo's progress bar stands in the line
    clear: &'static str,
}

/// Cargo shows nothing of a build script before it ends, so what is told on the way goes to the terminal, or to the pipe that
/// cargo's own messages go to.
fn screen() -> Option<Screen> {
    let open = |path: &str| OpenOptions::new().append(true).open(path).ok();
    if let Some(file) = open("/dev/tty") {
        return Some(Screen { file, clear: "\r\x1b[K" });
    }
    let cargo = format!("/proc/{}/fd/2", std::os::unix::process::parent_id());
    let is_pipe = std::fs::metadata(&cargo).is_ok_and(|m| m.file_type().is_fifo());
    is_pipe.then(|| open(&cargo)).flatten().map(|file| Screen { file, clear: "" })
}

fn tell(screen: &mut Option<Screen>, line: &str) {
    if let Some(Screen { file, clear }) = screen {
        // who watches no longer is no reason to stop
        let _ = writeln!(file, "{clear}sort_placement: {line}");
    }
}

/// What each crate of crates.txt uses of the others.
fn uses(list: &str) -> BTreeMap<&str, &str> {
    let lines = list.lines().map(|l| l.split('#').next().unwrap_or_default()).filter_map(|l| l.split_once(':'));
    lines.map(|(name, below)| (name.split_whitespace().next().unwrap_or_default(), below)).collect()
}

/// The crates that are listed at or below some: of the exports, those that the library is made of.
fn crates_below(list: &str, of: &[&str]) -> BTreeSet<String> {
    let below = uses(list);
    let (mut seen, mut open) = (BTreeSet::new(), of.to_vec());
    while let Some(name) = open.pop() {
        if let Some(names) = below.get(name)
            && seen.insert(name.to_string())
        {
            open.extend(names.split_whitespace());
        }
    }
    seen
}

/// When a crate was proved last: its library is written then.
fn proved_at(root: &Path, name: &str) -> Option<SystemTime> {
    let out = root.join("crates").join(name).join("out");
    let made = if name == EXPORTS { out.join(format!("lib{EXPORTS}.a")) } else { out.join(format!("rlib/{name}.rlib")) };
    made.metadata().and_then(|m| m.modified()).ok()
}

/// Tells of each crate that is proved, as it is proved, until the command ends. What stands below it is proved then too, also what was unchanged.
fn watch(rt: &mut Child, root: &Path, list: &str, screen: &mut Option<Screen>) -> std::io::Result<ExitStatus> {
    let names = crates_below(list, &[EXPORTS]);
    let (began, before) = (Instant::now(), names.iter().map(|n| proved_at(root, n)).collect::<Vec<_>>());
    let mut told: Vec<&str> = vec![];
    loop {
        let ended = rt.try_wait()?;
        for (name, before) in names.iter().zip(&before) {
            if proved_at(root, name) > *before && !told.contains(&name.as_str()) {
                told.push(name);
                let (proved, total) = (crates_below(list, &told).len(), names.len());
                tell(screen, &format!("crate {proved} of {total} proved, {} s so far: {name}", began.elapsed().as_secs()));
            }
        }
        match ended {
            Some(status) => return Ok(status),
            None => std::thread::sleep(Duration::from_millis(200)),
        }
    }
}

/// Runs `rt lib` for the exports; the lines that say why it failed.
fn prove(root: &Path) -> Result<(), String> {
    let mut rt = Command::new("rt");
    rt.arg("lib").current_dir(root.join("crates").join(EXPORTS));
    rt.stdin(Stdio::null()).stdout(Stdio::piped()).stderr(Stdio::piped());
    let mut rt = rt.spawn().map_err(|e| match e.kind() {
        ErrorKind::NotFound => NO_TOOLCHAIN.to_string(),
        _ => format!("rt can't be run: {e}"),
    })?;
    let mut screen = screen();
    let list = std::fs::read_to_string(root.join("crates.txt")).unwrap_or_default();
    if !archive(root).exists() {
        let total = crates_below(&list, &[EXPORTS]).len();
        tell(&mut screen, &format!("{total} crates are proved first, which takes some ten minutes the first time"));
    }
    let (out, error) = (rt.stdout.take().expect("it is piped"), rt.stderr.take().expect("it is piped"));
    let (out, error) = (read_on(out), read_on(error));
    let ended = watch(&mut rt, root, &list, &mut screen);
    let said = error.join().unwrap_or_default() + &out.join().unwrap_or_default();
    match ended {
        Ok(status) if status.success() => Ok(()),
        Ok(_) => Err(format!("{}\n`rt lib` has not proved the library, so it is not linked.", failures(&said))),
        Err(e) => Err(format!("rt can't be waited for: {e}")),
    }
}

/// Reads to the end, beside what else is done.
fn read_on(mut from: impl Read + Send + 'static) -> JoinHandle<String> {
    std::thread::spawn(move || {
        let mut bytes = vec![];
        from.read_to_end(&mut bytes).map(|_| String::from_utf8_lossy(&bytes).into_owned()).unwrap_or_default()
    })
}

/// What was said of other functions and crates than the proved ones.
fn failures(said: &str) -> String {
    let proved = |l: &str| l.starts_with("logic=proved") || l.starts_with("checked ") || l.starts_with("statements ") || l.ends_with(": proved");
    said.lines().filter(|l| !proved(l)).collect::<Vec<_>>().join("\n")
}

fn archive(root: &Path) -> PathBuf {
    root.join("crates").join(EXPORTS).join(format!("out/lib{EXPORTS}.a"))
}

fn build() -> Result<(), String> {
    let folder = |name: &str| std::env::var_os(name).map(PathBuf::from).ok_or(format!("cargo gives no {name}"));
    let (package, out) = (folder("CARGO_MANIFEST_DIR")?, folder("OUT_DIR")?);
    let root = package.parent().ok_or("the package stands in no repository")?;
    // first what can fail: cargo shows all of a failed script's output
    prove(root)?;
    let (from, to) = (archive(root), out.join(format!("lib{LIBRARY}.a")));
    std::fs::copy(&from, &to).map_err(|e| format!("{}: {e}", from.display()))?;
    let exports = root.join("crates").join(EXPORTS).join("src/lib.rt");
    let text = std::fs::read_to_string(&exports).map_err(|e| format!("{}: {e}", exports.display()))?;
    for call in CALLS {
        println!("cargo:rustc-check-cfg=cfg(has_{call})");
        if text.contains(&format!("pub extern \"C\" fn {call}(")) {
            println!("cargo:rustc-cfg=has_{call}");
        }
    }
    println!("cargo:rustc-link-search=native={}", out.display());
    println!("cargo:rustc-link-lib=static={LIBRARY}");
    // for the test that links it from C
    println!("cargo:rustc-env=SORT_PLACEMENT_ARCHIVE={}", to.display());
    for watched in ["crates.txt", "loader/build.rs"] {
        println!("cargo:rerun-if-changed={}", root.join(watched).display());
    }
    // not the crates' folders out/, which the prover writes
    for name in crates_below(&std::fs::read_to_string(root.join("crates.txt")).unwrap_or_default(), &[EXPORTS]) {
        for part in ["src", "specs", "proofs"] {
            let folder = root.join("crates").join(&name).join(part);
            if folder.exists() {
                println!("cargo:rerun-if-changed={}", folder.display());
            }
        }
    }
    Ok(())
}

fn main() -> ExitCode {
    match build() {
        Ok(()) => ExitCode::SUCCESS,
        Err(why) => {
            eprintln!("{why}");
            ExitCode::FAILURE
        }
    }
}
