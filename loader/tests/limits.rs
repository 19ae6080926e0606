//! Long, deep and endless inputs, and outputs that nobody takes: an answer or an error, and no panic.
mod common;

use common::*;
use std::process::Stdio;

#[test]
fn a_long_text_is_read_whole() {
    // some 20 kB: more than a plan file may have
    let remark = "# the survey's own words\n".repeat(800);
    let plan = format!("{remark}merge keys=0\n{remark}  source streams=2 width=1\n");
    assert!(plan.len() > 9_217);
    let file = run(&["make"], plan.as_bytes());
    assert_eq!(text(&run(&["show"], &file.stdout)), "merge keys=0al\n  source streams=2 width=1\n");
    assert!(text(&run(&["try", "ensure"], plan.as_bytes())).contains("2 2 source 2 - -"));
}

#[test]
fn a_text_past_its_bound_is_told() {
    let long = vec![b'#'; (1 << 20) + 1];
    for args in [&["make"][..], &["try", "ensure"]] {
        assert_eq!(told(&run(args, &long), 2), "the text is longer than 1 MiB, 1048576 bytes\n");
        assert_eq!(run(args, &long[..1 << 20]).status.code(), Some(2));
    }
    let many = "source streams=1 width=1\n".repeat(127);
    assert_eq!(told(&run(&["make"], many.as_bytes()), 2), "line 127, column 1: a plan has at most 126 nodes\n");
}

#[test]
fn a_deep_text_is_told() {
    let deep: String = (0..1_000).map(|i| format!("{:1$}filter\n", "", 2 * i)).collect();
    assert_eq!(told(&run(&["make"], deep.as_bytes()), 2), "line 127, column 253: a plan has at most 126 nodes\n");
    // 12,000 deep is longer than a text may be
    let deeper: String = (0..12_000).map(|i| format!("{:1$}filter\n", "", 2 * i)).collect();
    assert_eq!(told(&run(&["try", "ensure"], deeper.as_bytes()), 2), "the text is longer than 1 MiB, 1048576 bytes\n");
}

#[test]
fn what_is_no_text_is_told() {
    assert_eq!(told(&run(&["make"], b"filter\n \xc3\xa9 \xff"), 2), "standard input: line 2, column 4: not a text in UTF-8\n");
}

/// Half a gigabyte that takes no room on the disk; a process that may have 100 MB of memory refuses it by its length.
#[test]
fn a_large_file_is_not_read_whole() {
    let path = std::env::temp_dir().join(format!("sort_placement-large-{}", std::process::id()));
    std::fs::File::create(&path).and_then(|f| f.set_len(500 << 20)).expect("a sparse file");
    let program = env!("CARGO_BIN_EXE_sort_placement");
    for (words, wanted) in [
        ("ensure", "refusal 1: the file is longer than 18 blocks, 9216 bytes\n"),
        ("list", "refusal 1: the file is longer than 18 blocks, 9216 bytes\n"),
        ("make", "the text is longer than 1 MiB, 1048576 bytes\n"),
    ] {
        let line = format!("ulimit -v 100000; exec {program} {words} {}", path.display());
        let output = std::process::Command::new("sh").args(["-c", &line]).output().expect("sh");
        assert_eq!(String::from_utf8_lossy(&output.stderr), wanted);
    }
    std::fs::remove_file(&path).expect("it goes");
}

#[test]
fn an_endless_input_is_cut() {
    let output = command().arg("ensure").stdin(std::fs::File::open("/dev/zero").expect("zeros")).output().expect("it ends");
    assert_eq!(told(&output, 3), "refusal 1: the file is longer than 18 blocks, 9216 bytes\n");
}

/// Threads of the sizes that the package names, and 16 kB for what a thread takes itself; one that is too small ends the tests.
#[test]
fn small_threads_are_large_enough() {
    use sort_placement::*;
    for plan in include_str!("deep_plans.txt").split("\n\n") {
        let plan = text::parse(plan).expect("a plan");
        let room = if plan.count() <= 20 { STACK_TO_20_NODES } else { MOST_STACK };
        let (file, mut out) = (plan.write(), vec![0; MOST_BYTES]);
        let calls = move || {
            let called = [
                check_order(&file).is_ok(),
                copy_plan(&file, &mut out).is_ok(),
                ensure_sorting(&file, &mut out).is_ok(),
                parallelize_sorts(&file, &mut out).is_ok(),
                replace_with_order_preserving_variants(&file, Settings::default(), &mut out).is_ok(),
                pushdown_sorts(&file, &mut out).is_ok(),
                replace_with_partial_sort(&file, 0, &mut out).is_ok(),
            ];
            called.into_iter().filter(|ok| *ok).count()
        };
        let thread = std::thread::Builder::new().stack_size(room + (16 << 10)).spawn(calls).expect("a thread");
        assert!(thread.join().expect("it ends") >= 2);
    }
}

/// The same for dry runs, of those of the plans that are stepped: a row of ones on each stream, which any source may have.
#[cfg(has_dry_run)]
#[test]
fn small_threads_are_large_enough_for_dry_runs() {
    use sort_placement::*;
    let mut stepped = 0;
    for plan in include_str!("deep_plans.txt").split("\n\n") {
        let plan = text::parse(plan).expect("a plan");
        let mut rows = rows::Rows::default();
        for (i, stream) in rows::source_streams(&plan).iter().enumerate() {
            rows.streams.push(if i < rows::MOST_ROWS { vec![vec![Some(1); stream.width]] } else { vec![] });
        }
        let (file, rows, mut out) = (plan.write(), rows.write(), vec![0; DRY_RUN_BYTES]);
        let call = move || dry_run(&file, &rows, &[1, 2], &mut out);
        let thread = std::thread::Builder::new().stack_size(DRY_RUN_STACK + (16 << 10)).spawn(call).expect("a thread");
        match thread.join().expect("it ends") {
            Ok(_) => stepped += 1,
            Err(refusal) => assert!(matches!(refusal, Refusal::NotStepped(_)), "{refusal}"),
        }
    }
    assert!(stepped > 0);
}

/// A pipe that nobody reads.
fn closed_pipe() -> std::io::PipeWriter {
    std::io::pipe().expect("a pipe").1
}

/// The status stays what it is where nobody reads the output.
#[test]
fn a_closed_pipe_is_no_failure() {
    for (args, status) in
        [(&["try", "ensure", SAMPLE][..], 0), (&["make", SAMPLE], 0), (&["--help"], 0), (&["try", "check", SAMPLE], 1)]
    {
        let ended = command().args(args).stdout(closed_pipe()).stderr(Stdio::piped()).output().expect("it ends");
        assert_eq!((ended.status.code(), ended.stderr.as_slice()), (Some(status), &b""[..]), "{args:?}");
    }
}

#[test]
fn a_closed_standard_error_is_no_panic() {
    let ended = command().arg("frobnicate").stdout(closed_pipe()).stderr(closed_pipe()).output().expect("it ends");
    assert_eq!(ended.status.code(), Some(2));
}

#[test]
fn a_full_disk_is_told() {
    let full = std::fs::OpenOptions::new().write(true).open("/dev/full").expect("a full disk");
    let output = command().args(["make", SAMPLE]).stdout(full).stderr(Stdio::piped()).output().expect("it ends");
    assert_eq!(told(&output, 4), "standard output: No space left on device (os error 28)\n");
    let output = run(&["make", SAMPLE, "-o", "/dev/full"], b"");
    assert_eq!(told(&output, 4), "/dev/full: No space left on device (os error 28)\n");
    for (path, place) in [("/no/such/file", "/no/such/file"), ("", "the path ''")] {
        let missing = format!("{place}: No such file or directory (os error 2)\n");
        assert_eq!(told(&run(&["list", path], b""), 4), missing);
    }
    assert_eq!(told(&run(&["make", SAMPLE, "-o", ""], b""), 4), "the path '': No such file or directory (os error 2)\n");
}
