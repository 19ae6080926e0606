//! The command line's dry runs: what they deliver, the settings side by side, and what is refused.
#![cfg(has_dry_run)]
mod common;

use common::*;
use std::path::{Path, PathBuf};

/// A folder of a test's own.
struct Room(PathBuf);

impl Room {
    fn new(name: &str) -> Room {
        let room = std::env::temp_dir().join(format!("sort_placement-{name}-{}", std::process::id()));
        std::fs::create_dir_all(&room).expect("a folder");
        Room(room)
    }

    /// A file of the bytes, and its path.
    fn put(&self, name: &str, bytes: &[u8]) -> String {
        let path = self.0.join(name);
        std::fs::write(&path, bytes).expect("a file");
        path.to_str().expect("text").into()
    }

    /// The file of a plan's text.
    fn plan(&self, written: &str) -> String {
        self.put("plan", &run(&["make"], written.as_bytes()).stdout)
    }
}

impl Drop for Room {
    fn drop(&mut self) {
        let _ = std::fs::remove_dir_all(&self.0);
    }
}

#[test]
fn the_sample_is_stepped() {
    let plan = made(DRONES);
    let delivered = "stream 0\n1,71\n2,64\n3,null\n4,70\n5,69\n6,62\n";
    for choices in [&[][..], &["--choices", ""], &["--choices", "0102"], &["--choices", "fFA3"]] {
        assert_eq!(text(&run(&[&["dry-run", "-", DRONES_ROWS], choices].concat(), &plan)), delivered);
    }
    let room = Room::new("stepped");
    let (plan, out) = (room.put("plan", &plan), room.put("out", b""));
    let rows = std::fs::read(DRONES_ROWS).expect("rows");
    assert_eq!(text(&run(&["dry-run", &plan, "-"], &rows)), delivered);
    assert!(run(&["dry-run", &plan, DRONES_ROWS, "-o", &out], b"").stdout.is_empty());
    assert_eq!(std::fs::read_to_string(&out).expect("an output"), delivered);
}

#[test]
fn choices_tell_which_row_moves() {
    let room = Room::new("choices");
    let plan = room.plan("repartition streams=3\n  source streams=2 width=1");
    let rows = b"source 1 stream 0\n1\n2\nsource 1 stream 1\n7\n";
    let delivered = |choices: &str| text(&run(&["dry-run", &plan, "-", "--choices", choices], rows)).to_string();
    assert_eq!(delivered("00"), "stream 0\n1\n2\n7\nstream 1\nstream 2\n");
    // from the second stream to the last; from the first, which alone has rows then, to the second; and the list starts over
    assert_eq!(delivered("010204"), "stream 0\nstream 1\n1\n2\nstream 2\n7\n");
}

/// Each with its place; a plan that isn't stepped is told whatever the rows are.
#[test]
fn a_refusal_says_where_and_why() {
    let room = Room::new("refused");
    let plan = room.plan("filter\n  source streams=2 width=2 keys=0 constants=1");
    for command in ["dry-run", "settings"] {
        let refused = |rows: &str| told(&run(&[command, &plan, "-"], rows.as_bytes()), 3).to_string();
        let place = |line: u32, row: &str| format!("refusal 26: line {line}: node 1 (source): stream {row}: ");
        let order = "it sorts before row 0 by the declared order 0al\n";
        assert_eq!(refused("source 1 stream 1\n5,1\n\n4,1\n"), place(4, "1, row 1") + order);
        let constant = "column 1 is declared constant, and is 1 before and null here\n";
        assert_eq!(refused("source 1 stream 0\n5,1\nsource 1 stream 1\n4,\n"), place(4, "1, row 0") + constant);
        let many = format!("source 1 stream 0\n{}", "1,1\n".repeat(257));
        assert_eq!(refused(&many), "refusal 27: the sources together have 257 rows, more than 256\n");
        let join = "refusal 260: node 4 (sort-merge-join): a plan with a join is not stepped\n";
        assert_eq!(told(&run(&[command, "-", "/no/such/rows"], &made(SAMPLE)), 3), join);
        let grouped = "refusal 258: node 2 (aggregate): a plan with an aggregate is not stepped\n";
        assert_eq!(told(&run(&[command, "-", "/no/such/rows"], &made(GROUPED)), 3), grouped);
        let short = "refusal 1: the file's length is no multiple of 512\n";
        assert_eq!(told(&run(&[command, "-", DRONES_ROWS], &made(DRONES)[1..]), 3), short);
    }
}

#[test]
fn rows_that_are_no_rows_are_told() {
    let plan = made(DRONES);
    let room = Room::new("no-rows");
    let wrong = |rows: &[u8]| told(&run(&["dry-run", "-", &room.put("rows", rows)], &plan), 2).to_string();
    assert_eq!(wrong(b"source 5 stream 0\n1\n"), "line 2, column 1: the row has 1 cell, source 5 has 2 columns\n");
    assert_eq!(wrong(&vec![b'#'; (1 << 20) + 1]), "the text is longer than 1 MiB, 1048576 bytes\n");
    let path = Path::new(&room.0).join("rows");
    assert_eq!(wrong(b"\xff"), format!("{}: line 1, column 1: not a text in UTF-8\n", path.display()));
    assert!(told(&run(&["dry-run", "-", "/no/such/rows"], &plan), 4).contains("No such file"));
}

/// With spr or prefer the sort goes, the answer fails the check, and a row comes out of order.
#[test]
fn settings_stand_side_by_side() {
    let wanted = "rows by 0al; * stands behind a row that is out of order

A  given, none, spm
B  spr, prefer, spr spm, spr prefer, spm prefer, spr spm prefer

              A       B
nodes         6       5
check         passes  does not pass
streams       1       1
rows          6       6
out of order  0       1
stream 0      1,71    1,71
              2,64    3,null
              3,null  4,70
              4,70    2,64 *
              5,69    5,69
              6,62    6,62
";
    let told = run(&["settings", "-", DRONES_ROWS, "--choices", "010100"], &made(DRONES));
    assert_eq!(text(&told), wanted);
}

/// Four answers, on as many streams as they have; streams without rows are left out.
#[test]
fn every_answer_has_its_column() {
    let room = Room::new("columns");
    let plan = room.plan(
        "sort keys=0\n  coalesce\n    sort keys=0 preserve\n      repartition streams=2\n        source streams=2 width=1 keys=0",
    );
    let shown = run(&["settings", &plan, "-"], b"source 4 stream 1\n3\n");
    let wanted = "A  given, none\nB  spr\nC  spm\nD  prefer, spr spm, spr prefer, spm prefer, spr spm prefer\n";
    assert!(text(&shown).contains(wanted), "{}", text(&shown));
    assert!(text(&shown).ends_with("stream 0      3       3       3       3\n"), "{}", text(&shown));
    let plan = room.plan("sort keys=0\n  repartition streams=3\n    source streams=2 width=1 keys=0");
    let shown = run(&["settings", &plan, "-", "--choices", "02"], b"source 2 stream 1\n3\n4\n");
    assert!(text(&shown).contains("\nstreams       1       3\n"), "{}", text(&shown));
    assert!(text(&shown).ends_with("stream 0      3\n              4\nstream 2              3\n                      4\n"));
}

/// The root is a filter, which knows an order and asks for none: an answer that passes the check may have lost it.
#[test]
fn an_order_that_is_only_known_may_be_lost() {
    let room = Room::new("known");
    let chain =
        "filter\n  repartition streams=2\n    sort keys=0\n      repartition streams=2\n        source streams=2 width=1 keys=0";
    let plan = room.plan(chain);
    let rows = b"source 4 stream 0\n1\n4\nsource 4 stream 1\n2\n3\n";
    let shown = run(&["settings", &plan, "-", "--choices", "000101"], rows);
    let heads = "check         passes  passes\nstreams       2       2\nrows          4       4\nout of order  0       1\n";
    assert!(text(&shown).contains(heads), "{}", text(&shown));
}

#[test]
fn a_refused_setting_is_told() {
    let room = Room::new("partial");
    let plan = room.plan("partial-sort keys=0,1 prefix=1\n  source streams=1 width=2 keys=0 unbounded");
    let shown = run(&["settings", &plan, "-"], b"source 1 stream 0\n1,9\n1,\n");
    let wanted = "rows by 0al,1al; * stands behind a row that is out of order

A  given
-  none, spr, spm, prefer, spr spm, spr prefer, spm prefer, spr spm prefer: \
                  refusal 21: node 0 (partial-sort): a tree with a partial sort is not rewritten

              A
nodes         2
check         passes
streams       1
rows          2
out of order  0
stream 0      1,9
              1,null
";
    assert_eq!(text(&shown), wanted);
}

#[test]
fn without_an_order_no_row_is_marked() {
    let room = Room::new("no-order");
    let plan = room.plan("coalesce\n  source streams=2 width=1");
    let shown = run(&["settings", &plan, "-"], b"source 1 stream 0\n3\nsource 1 stream 1\n1\n");
    assert!(text(&shown).starts_with("no order is asked of the plan or known, so no row is out of order\n"));
    assert!(text(&shown).contains("\nstream 0      3\n              1\n") && !text(&shown).contains('*'));
}
