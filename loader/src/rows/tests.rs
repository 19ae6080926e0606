//! Rows: nothing is lost between text, values and bytes, and what is wrong has its place.
use super::*;
use crate::plan::MOST_STREAMS;
use crate::random::Rng;
use crate::text::{MOST_TEXT_BYTES, TextError};
use crate::{DRY_RUN_BYTES, Plan, random_plans, random_rows, text};

fn plan(written: &str) -> Plan {
    text::parse(written).expect("a plan")
}

/// A filter over a source of two streams and two columns.
fn small(source: &str) -> Plan {
    plan(&format!("filter\n  source streams=2 width=2 {source}"))
}

fn wrong(written: &str) -> String {
    parse(written, &small("")).expect_err("a wrong text").to_string()
}

#[test]
fn text_and_bytes_go_there_and_back() {
    let (mut rng, mut most) = (Rng::new(5, 0), 0);
    for _ in 0..2_000 {
        let plan = random_plans::plan(&mut rng);
        let rows = random_rows::rows(&mut rng, &plan);
        most = most.max(rows.count());
        let bytes = rows.write();
        assert!(bytes.len() <= DRY_RUN_BYTES);
        assert_eq!(Rows::read(&bytes, &source_streams(&plan)).as_ref(), Ok(&rows));
        let shown = show(&rows, &plan);
        assert_eq!(parse(&shown, &plan).as_ref(), Ok(&rows), "{shown}");
    }
    assert!(most > 200, "{most}");
}

#[test]
fn the_form_is_that_of_document_02() {
    let rows = Rows { streams: vec![vec![vec![Some(-2), None]], vec![]] };
    let mut bytes = vec![1, 0, 0, 0, 2, 0, 0, 0, 254];
    bytes.extend([255; 7]);
    bytes.extend([0; 8 + 4]);
    assert_eq!(rows.write(), bytes);
    // of 32 columns each has its bit
    let wide = plan("source streams=1 width=32");
    let rows = Rows { streams: vec![vec![vec![None; 32], vec![Some(i64::MIN); 32]]] };
    assert_eq!(rows.write()[4..8], [255; 4]);
    assert_eq!(Rows::read(&rows.write(), &source_streams(&wide)), Ok(rows));
}

/// A plan of 126 nodes with as many sources as can be, 110 under 16 unions: the longest rows have just the length that is named.
#[test]
fn the_longest_rows_have_their_length() {
    let mut written = String::from("union\n");
    let mut put = |times: usize, depth: usize, line: &str| written += &format!("{:1$}{line}\n", "", 2 * depth).repeat(times);
    let source = "source streams=64 width=32";
    for _ in 0..2 {
        put(1, 1, "union");
        for _ in 0..6 {
            put(1, 2, "union");
            put(8, 3, source);
        }
        put(2, 2, source);
    }
    put(1, 1, "union");
    put(5, 2, source);
    put(5, 1, source);
    let plan = plan(&written);
    assert_eq!((plan.count(), source_streams(&plan).len()), (126, MOST_STREAMS));
    let mut rows = Rows { streams: vec![vec![]; MOST_STREAMS] };
    rows.streams[7] = vec![vec![Some(1); 32]; MOST_ROWS];
    assert_eq!(rows.write().len(), DRY_RUN_BYTES);
    assert_eq!(explain(&plan, &rows.write()), None);
    assert_eq!(root_streams(&plan).len(), MOST_STREAMS);
}

#[test]
fn a_text_may_be_loose() {
    let plan = small("");
    let loose = "\u{feff}\n# a remark\n source  1 stream 01 # another\n\n  -0007 ,null  # and one\r\n,\n0,-9223372036854775808\n";
    let rows = parse(loose, &plan).expect("rows");
    assert_eq!(rows.streams[1], [vec![Some(-7), None], vec![None, None], vec![Some(0), Some(i64::MIN)]]);
    assert_eq!(show(&rows, &plan), "source 1 stream 1\n-7,null\nnull,null\n0,-9223372036854775808\n");
    let both = "source 1 stream 1\nsource 1 stream 0\n1,2\n";
    assert_eq!(show(&parse(both, &plan).expect("rows"), &plan), "source 1 stream 0\n1,2\n");
    assert_eq!(parse("", &plan).map(|rows| rows.count()), Ok(0));
}

#[test]
fn what_is_wrong_in_a_text_is_told() {
    let form = "a stream's line has the form 'source NODE stream STREAM'";
    for (written, line, column, words) in [
        ("1,2", 1, 1, "a row before the first stream's line"),
        ("source 1", 1, 1, form),
        ("  source 1 streams 0", 1, 3, form),
        ("source 1 stream 0 1", 1, 1, form),
        ("source one stream 0", 1, 8, "'one' is no number from 0 to 4294967295"),
        ("source 1 stream -1", 1, 17, "'-1' is no number from 0 to 4294967295"),
        ("source 7 stream 0", 1, 8, "there is no node 7, the last is 1"),
        ("source 0 stream 0", 1, 8, "node 0 is no source: filter"),
        ("source 1 stream 2", 1, 17, "there is no stream 2, the last of source 1 is 1"),
        ("source 1 stream 0\n# again\nsource 1 stream 0", 3, 1, "the stream stands twice"),
        ("source 1 stream 0\n 1,2,", 2, 2, "the row has 3 cells, source 1 has 2 columns"),
        ("source 1 stream 0\n7", 2, 1, "the row has 1 cell, source 1 has 2 columns"),
        ("source 1 stream 0\n1, 2x", 2, 4, "'2x' is no signed 64-bit number, nor null"),
        ("source 1 stream 0\n+1,2", 2, 1, "'+1' is no signed 64-bit number, nor null"),
        ("source 1 stream 0\n-,2", 2, 1, "'-' is no signed 64-bit number, nor null"),
        ("source 1 stream 0\n1,9223372036854775808", 2, 3, "'9223372036854775808' is no signed 64-bit number, nor null"),
        ("source 1 stream 0\né,NULL", 2, 1, "'é' is no signed 64-bit number, nor null"),
        ("sources 1 stream 0", 1, 1, "a row before the first stream's line"),
    ] {
        assert_eq!(wrong(written), format!("line {line}, column {column}: {words}"));
    }
    let long = "#".repeat(MOST_TEXT_BYTES + 1);
    assert_eq!(parse(&long[1..], &small("")).map(|rows| rows.count()), Ok(0));
    assert_eq!(parse(&long, &small("")), Err(TextError::TooLong));
    let commas = format!("source 1 stream 0\n{}", ",".repeat(1_000_000));
    assert_eq!(wrong(&commas), "line 2, column 1: the row has 1000001 cells, source 1 has 2 columns");
}

/// Bytes that break the form, each told by its place.
#[test]
fn a_broken_form_is_told() {
    let plan = small("");
    let told = |bytes: &[u8]| explain(&plan, bytes).map_or("fine".into(), |why| why.to_string());
    let one = Rows { streams: vec![vec![], vec![vec![None, Some(7)]]] }.write();
    assert_eq!(told(&one), "fine");
    let place = |row: &str| format!("refusal 26: node 1 (source): stream {row}: ");
    assert_eq!(told(&[0; 3]), place("0") + "the bytes end before its row count does");
    assert_eq!(told(&one[..6]), place("1") + "the bytes end before its row count does");
    assert_eq!(told(&one[..27]), place("1, row 0") + "the bytes end before it does, and the stream has 1 row");
    let endless = [vec![255; 4], vec![0; 50]].concat();
    assert_eq!(told(&endless), place("0, row 2") + "the bytes end before it does, and the stream has 4294967295 rows");
    assert_eq!(told(&[one.clone(), vec![0]].concat()), "refusal 26: 1 byte is left over behind the rows of the last stream");
    let changed = |at: usize, to: u8| {
        let mut bytes = one.clone();
        bytes[at] = to;
        told(&bytes)
    };
    assert_eq!(changed(8, 5), place("1, row 0") + "null column 2 is not below its width 2");
    assert_eq!(changed(8, 3), place("1, row 0") + "column 1 is null, and its cell is 7, not 0");
    assert_eq!(changed(19, 128), place("1, row 0") + "column 0 is null, and its cell is -9223372036854775808, not 0");
}

/// What sources declare, over all their streams; and the count comes behind it.
#[test]
fn a_broken_declaration_is_told() {
    let told = |source: &str, written: &str| {
        let plan = small(source);
        let rows = parse(written, &plan).expect("rows");
        explain(&plan, &rows.write()).map_or("fine".into(), |why| refused(written, why).to_string())
    };
    let rows = "source 1 stream 1\n5,1\n\n5,2\n4,3\nsource 1 stream 0\n9,\n";
    assert_eq!(told("", rows), "fine");
    let place = |line: usize, row: &str| format!("refusal 26: line {line}: node 1 (source): stream {row}: ");
    assert_eq!(told("keys=0", rows), place(5, "1, row 2") + "it sorts before row 1 by the declared order 0al");
    assert_eq!(told("keys=0d", rows), "fine");
    assert_eq!(told("keys=1d", rows), place(4, "1, row 1") + "it sorts before row 0 by the declared order 1dl");
    let constant =
        |column: u8, from: &str, to: &str| format!("column {column} is declared constant, and is {from} before and {to} here");
    assert_eq!(told("constants=0", rows), place(2, "1, row 0") + &constant(0, "9", "5"));
    assert_eq!(told("constants=1", rows), place(2, "1, row 0") + &constant(1, "null", "1"));
    let many = format!("source 1 stream 0\n{}", "1,1\n".repeat(257));
    assert_eq!(told("keys=0 constants=0,1", &many), "refusal 27: the sources together have 257 rows, more than 256");
    // 257 rows out of order are 26
    assert!(told("keys=0", &format!("{many}0,0\n")).starts_with("refusal 26: line 259: "));
    assert_eq!(told("", &many[..many.len() - 4]), "fine");
}

#[test]
fn a_plan_that_is_not_stepped_is_told_first() {
    let source = "source streams=1 width=1";
    let join = plan(&format!("filter\n  hash-join keys=0 right=0\n    aggregate width=1 keys=0\n      {source}\n    {source}"));
    let why = explain(&join, &[]).expect("a refusal");
    assert_eq!(why.to_string(), "refusal 257: node 1 (hash-join): a plan with a join is not stepped");
    assert_eq!(why.refusal, crate::Refusal::NotStepped(1));
    let grouped = plan(&format!("aggregate width=1 keys=0\n  {source}"));
    assert_eq!(explain(&grouped, &[]).expect("a refusal").refusal.number(), 256);
}

/// 01, Rows: nulls are peers, and their place does not turn with descending.
#[test]
fn rows_are_ordered_as_document_01_says() {
    let stream: Vec<Row> = [None, Some(1), Some(2), None].map(|cell| vec![cell]).into();
    for (options, out) in [(0, [false, true, true, false]), (1, [false, true, true, false])] {
        assert_eq!(Order::of_keys(&[(0, options)]).out_of_order(&stream), out);
    }
    assert_eq!(Order::of_keys(&[(0, 2)]).out_of_order(&stream), [false, false, false, true]);
    assert_eq!(Order::of_keys(&[(0, 3)]).out_of_order(&stream), [false, false, true, true]);
    assert_eq!(Order::of_keys(&[]).out_of_order(&stream), [false; 4]);
}

#[test]
fn the_order_asked_of_a_plan_is_its_roots() {
    let order = |written: &str| Order::of_root(&plan(written)).to_string();
    let source = "source streams=2 width=2 keys=0";
    assert_eq!(order(&format!("sort keys=1d\n  {source}")), "1dl");
    assert_eq!(order(&format!("output-requirement keys=1\n  {source}")), "1al");
    assert_eq!(order(&format!("output-requirement single\n  {source}")), "0al");
    assert_eq!(order(&format!("local-limit keys=1 fetch=3\n  {source}")), "0al");
    assert_eq!(order(&format!("coalesce\n  {source}")), "-");
}

/// docs/TEXT.md: its rows are rows, its messages are the ones that come.
#[test]
fn the_document_is_true() {
    let document = include_str!("../../../docs/TEXT.md");
    let plan = plan(include_str!("../../../examples/two_drones.txt"));
    let example = document.split("```csv\n").nth(1).and_then(|rest| rest.split("```").next()).expect("an example");
    assert_eq!(explain(&plan, &parse(example, &plan).expect("rows").write()), None);
    for written in ["source 5 stream 0\n1,x", "source 5 stream 0\n1,71\n4\n", "source 4 stream 0"] {
        let told = parse(written, &plan).expect_err("a wrong text").to_string();
        assert!(document.contains(&format!("\n{told}\n")), "{told}");
    }
    let back = "# a step back\nsource 5 stream 0\n4,70\n1,71\n";
    let why = explain(&plan, &parse(back, &plan).expect("rows").write()).expect("a refusal");
    assert!(document.contains(&format!("`{}`", refused(back, why))));
}
