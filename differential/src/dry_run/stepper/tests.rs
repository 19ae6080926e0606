//! The examples that the readings of document 02 give, each of which another reading would answer otherwise.
use super::super::{Answer, Request};
use super::row::Row;
use super::{answer, delivered, source_rows::written};
use sort_placement::text;

/// Streams from `1 2 | 3 -`: bars between streams, rows of one column. A hyphen stands for null.
fn streams(text: &str) -> Vec<Vec<Row>> {
    let cell = |word: &str| if word == "-" { None } else { Some(word.parse().expect("a number")) };
    text.split('|').map(|stream| stream.split_whitespace().map(|word| vec![cell(word)]).collect()).collect()
}

/// Streams of two columns, as `1.7 2.8 | 1.9`.
fn pairs(text: &str) -> Vec<Vec<Row>> {
    let row = |word: &str| word.split('.').map(|number| Some(number.parse().expect("a number"))).collect();
    text.split('|').map(|stream| stream.split_whitespace().map(row).collect()).collect()
}

fn request(plan: &str, rows: &[Vec<Row>], choices: &[u8]) -> Request {
    let plan = text::parse(plan).unwrap_or_else(|why| panic!("{why}\n{plan}")).write();
    Request { plan, rows: written(rows), choices: choices.to_vec(), room: 10_000 }
}

/// The lines of a plan, each under the one before.
fn chain(lines: &[&str]) -> String {
    lines.iter().enumerate().map(|(depth, line)| format!("{:indent$}{line}\n", "", indent = 2 * depth)).collect()
}

#[track_caller]
fn gives(lines: &[&str], rows: &str, choices: &[u8], wanted: &str) {
    assert_eq!(delivered(&request(&chain(lines), &streams(rows), choices)), Ok(streams(wanted)));
}

#[track_caller]
fn number(plan: &str, rows: &[u8], room: usize) -> u32 {
    answer(&Request { rows: rows.to_vec(), room, ..request(plan, &[], &[]) }).number
}

#[test]
fn a_source_has_delivered() {
    gives(&["source streams=2 width=1"], "1 - | 2", &[3], "1 - | 2");
}

#[test]
fn hash_sends_peers_anywhere() {
    gives(&["repartition streams=2 hash keys=0", "source streams=1 width=1"], "1 1", &[0, 1], "1 | 1");
}

#[test]
fn streams_are_open_one_by_one() {
    gives(&["merge keys=0", "filter", "source streams=2 width=1 keys=0"], "| 1 2", &[], "1 2");
}

/// A row that will be cut keeps its stream open until it has moved.
#[test]
fn cuts_are_not_looked_at() {
    let plan = ["repartition streams=2 preserve", "local-limit fetch=1", "source streams=2 width=1 keys=0"];
    gives(&plan, "1 1 | 1", &[0, 1], "1 | 1");
}

/// With the preserve mark too a sort waits for all its inputs.
#[test]
fn a_preserving_sort_waits_for_all_streams() {
    gives(&["coalesce", "sort keys=0 preserve", "filter", "source streams=2 width=1"], "1 | 2", &[0, 1], "2 1");
}

#[test]
fn a_mark_that_does_not_count_is_none() {
    gives(&["repartition streams=2 preserve", "source streams=2 width=1"], "1 | 2", &[1], " | 2 1");
}

#[test]
fn choices_are_counted_over_streams_with_rows() {
    gives(&["coalesce", "source streams=3 width=1"], "1 | | 2", &[2], "1 2");
}

#[test]
fn a_choice_of_one_takes_no_byte() {
    // operator and input stream are one each, the output stream takes the list's bytes in turn
    gives(&["repartition streams=3", "source streams=1 width=1"], "5 6 7", &[2, 1], "| 6 | 5 7");
}

#[test]
fn sorts_keep_arrival_order_among_peers() {
    let plan = chain(&["sort keys=0", "source streams=2 width=2"]);
    assert_eq!(delivered(&request(&plan, &pairs("1.1 0.2 | 1.3 0.4"), &[9])), Ok(pairs("0.2 0.4 1.1 1.3")));
    // stream 1's row comes first
    let plan = chain(&["sort keys=0", "filter", "source streams=2 width=2"]);
    assert_eq!(delivered(&request(&plan, &pairs("1.1 | 1.2"), &[1])), Ok(pairs("1.2 1.1")));
}

#[test]
fn a_merge_takes_peers_from_the_lowest_stream() {
    let plan = chain(&["merge keys=0", "source streams=2 width=2 keys=0"]);
    assert_eq!(delivered(&request(&plan, &pairs("1.1 2.2 | 1.3 2.4"), &[1])), Ok(pairs("1.1 1.3 2.2 2.4")));
}

#[test]
fn nulls_stay_where_their_key_puts_them() {
    for (key, wanted) in [("0al", "1 2 -"), ("0dl", "2 1 -"), ("0af", "- 1 2"), ("0df", "- 2 1")] {
        gives(&[&format!("sort keys={key}"), "source streams=1 width=1"], "1 - 2", &[], wanted);
    }
}

#[test]
fn skip_comes_before_fetch() {
    gives(&["global-limit skip=1 fetch=2", "source streams=1 width=1"], "1 2 3 4", &[], "2 3");
    gives(&["local-limit fetch=1", "source streams=2 width=1"], "1 2 | 3 4", &[], "1 | 3");
}

#[test]
fn a_union_lists_the_streams_of_its_children() {
    let plan = "coalesce\n  union\n    source streams=1 width=1\n    source streams=2 width=1\n";
    // the operators that can move: at first the union alone, by its third stream, then the coalesce too
    assert_eq!(delivered(&request(plan, &streams("1 | 2 | 3"), &[2, 1, 0, 0, 0])), Ok(streams("1 3 2")));
}

#[test]
fn rows_that_break_the_form_are_refused() {
    let plan = "source streams=1 width=1";
    let row = |nulls: u8, number: u8| [&[1, 0, 0, 0, nulls, 0, 0, 0, number][..], &[0; 7]].concat();
    for (rows, wanted) in [
        (row(0, 5), 0),
        (row(1, 0), 0),
        (row(1, 5), 26),
        (row(2, 0), 26),
        (row(0, 5)[..15].to_vec(), 26),
        ([row(0, 5), vec![0]].concat(), 26),
        (vec![255; 4], 26),
        (vec![], 26),
    ] {
        assert_eq!(number(plan, &rows, 100), wanted, "{rows:?}");
    }
}

#[test]
fn rows_keep_what_is_declared() {
    let rows = |text: &str| written(&streams(text));
    for (fields, text, wanted) in [
        ("keys=0", "1 1 2 - | 0", 0),
        ("keys=0", "1 - 2 |", 26),
        ("keys=0df", "- 3 2 | 9", 0),
        ("constants=0", "4 4 | 4", 0),
        ("constants=0", "4 | 5", 26),
        ("constants=0", "0 | -", 26),
        ("constants=0", "- | -", 0),
    ] {
        assert_eq!(number(&format!("source streams=2 width=1 {fields}"), &rows(text), 1000), wanted, "{fields}: {text}");
    }
}

/// 26 before 27, both before 24; a join's number before all of them.
#[test]
fn refusals_come_in_their_order() {
    let rows = |count: i64, step: i64| written(&[(0..count).map(|i| vec![Some(step * i)]).collect()]);
    let plan = "source streams=1 width=1 keys=0";
    assert_eq!(number(plan, &rows(257, -1), 0), 26);
    assert_eq!(number(plan, &rows(257, 1), 0), 27);
    assert_eq!(number(plan, &rows(256, 1), 3075), 24);
    assert_eq!(number(plan, &rows(256, 1), 3076), 0);
    let join = "filter\n  hash-join keys=0 right=0 type=Inner\n    source streams=1 width=1\n    source streams=1 width=1";
    assert_eq!(number(join, &[], 0), 257);
    assert_eq!(answer(&Request { plan: vec![0; 511], ..request(join, &[], &[]) }), Answer { number: 1, bytes: vec![] });
}
