//! The build script, over a small repository with a stand-in for `rt`: what it tells on the way, and how it fails.
use std::path::{Path, PathBuf};
use std::process::{Command, Output, Stdio};

/// A folder outside of the repository, where `rt` would count the stand-ins' files as its own.
struct Room(PathBuf);

impl Room {
    /// A repository of three crates under the library, and `rt` as a shell script.
    fn new(name: &str, rt: Option<&str>) -> Room {
        let root = std::env::temp_dir().join(format!("sort_placement-{name}-{}", std::process::id()));
        let put = |path: &str, text: &str| {
            let path = root.join(path);
            std::fs::create_dir_all(path.parent().expect("a folder")).expect("a folder");
            std::fs::write(path, text).expect("a file");
        };
        put("crates.txt", "# NAME: DEP DEP ..\nlow:\nother: low\nhigh: low  # low\nsort_placement_c staticlib: high low\n");
        put("crates/sort_placement_c/src/lib.rt", "pub extern \"C\" fn check_order(plan: &[u8])\n");
        put("loader/none", "");
        put("out/none", "");
        std::fs::create_dir_all(root.join("bin")).expect("a folder");
        if let Some(script) = rt {
            put("bin/rt", &format!("#!/bin/sh\nPATH=/usr/bin:/bin\n{script}"));
            let made = Command::new("chmod").arg("+x").arg(root.join("bin/rt")).status().expect("chmod");
            assert!(made.success());
        }
        Room(root)
    }

    /// Runs the build script without a terminal, so that what it tells on the way comes through the pipe of its parent, a shell.
    fn build(&self) -> Output {
        let script = build_script(&self.0);
        let mut shell = Command::new("setsid");
        shell.args(["--wait", "/bin/sh", "-c", "PATH=$RT_FOLDER \"$0\"; exit $?"]);
        shell.arg(script).env("RT_FOLDER", self.0.join("bin"));
        shell.env("CARGO_MANIFEST_DIR", self.0.join("loader")).env("OUT_DIR", self.0.join("out"));
        shell.stdin(Stdio::null()).output().expect("the build script")
    }
}

impl Drop for Room {
    fn drop(&mut self) {
        let _ = std::fs::remove_dir_all(&self.0);
    }
}

/// The compiled build script.
fn build_script(root: &Path) -> PathBuf {
    let to = root.join("build_script");
    let from = concat!(env!("CARGO_MANIFEST_DIR"), "/build.rs");
    let rustc = std::env::var("RUSTC").unwrap_or("rustc".into());
    let built = Command::new(rustc).args(["--edition", "2024", "-o"]).arg(&to).arg(from).status().expect("rustc");
    assert!(built.success());
    to
}

const PROVED: &str = "echo 'logic=proved low' >&2
mkdir -p ../low/out/rlib/low.rlib
sleep 1
mkdir out
echo archive > out/libsort_placement_c.a
";

fn texts(output: &Output) -> (String, String) {
    let text = |bytes: &[u8]| String::from_utf8(bytes.to_vec()).expect("text");
    (text(&output.stdout), text(&output.stderr))
}

#[test]
fn it_tells_how_far_it_is_and_links_a_copy() {
    let room = Room::new("proved", Some(PROVED));
    let built = room.build();
    let (out, told) = texts(&built);
    assert!(built.status.success(), "{out}{told}");
    let lines: Vec<&str> = told.lines().collect();
    assert_eq!(lines[0], "sort_placement: 3 crates are proved first, which takes some ten minutes the first time");
    assert!(lines[1].starts_with("sort_placement: crate 1 of 3 proved, ") && lines[1].ends_with(" s so far: low"), "{told}");
    assert!(lines[2].starts_with("sort_placement: crate 3 of 3 proved, ") && lines[2].ends_with(" s so far: sort_placement_c"), "{told}");
    assert!(out.contains("cargo:rustc-cfg=has_check_order\n") && !out.contains("cargo:rustc-cfg=has_copy_plan\n"));
    // the gate sets out/ aside, and the copy stays
    std::fs::remove_dir_all(room.0.join("crates/sort_placement_c/out")).expect("it goes");
    assert!(out.contains(&format!("cargo:rustc-link-search=native={}\n", room.0.join("out").display())));
    assert!(room.0.join("out/libsort_placement.a").exists());
}

#[test]
fn a_failed_proof_is_shown_without_a_backtrace() {
    let room = Room::new(
        "failed",
        Some("echo 'fn low::f: proved'\necho 'error: not so' >&2\necho 'fn high::g: not proved'\nexit 1\n"),
    );
    let built = room.build();
    let (_, told) = texts(&built);
    assert_eq!(built.status.code(), Some(1));
    let why = "error: not so\nfn high::g: not proved\n`rt lib` has not proved the library, so it is not linked.\n";
    assert!(told.ends_with(why), "{told}");
    assert!(!told.contains("panicked") && !told.contains("low::f"), "{told}");
}

#[test]
fn without_rt_it_says_what_to_install() {
    let room = Room::new("absent", None);
    let built = room.build();
    let (_, told) = texts(&built);
    assert_eq!(built.status.code(), Some(1));
    assert!(told.starts_with("The command `rt` is not there"), "{told}");
    assert!(told.contains("Install the Rattle toolchain"), "{told}");
}
