//! The command line on the sample plans: its views, its refusals and their statuses.
mod common;

use common::*;

fn sample() -> Vec<u8> {
    made(SAMPLE)
}

#[test]
fn text_goes_to_a_file_and_back() {
    for file in [sample(), made(GROUPED)] {
        let shown = run(&["show"], &file);
        assert_eq!(run(&["make"], shown.stdout.as_slice()).stdout, file);
        assert_eq!(run(&["copy"], &file).stdout, file);
    }
}

#[test]
fn the_listing_is_that_of_document_01() {
    let file = run(&["make"], b"merge keys=2\n  source width=3 streams=2 keys=2,0\n").stdout;
    let wanted = "node depth kind streams fetch keys\n0 0 merge 1 - 2al\n1 1 source 2 - 2al,0al\n";
    assert_eq!(text(&run(&["list", "-"], &file)), wanted);
}

#[test]
fn an_unmet_order_is_drawn_red() {
    let drawn = run(&["draw"], &sample());
    let red: Vec<&str> = text(&drawn).lines().filter(|l| l.contains("color=red")).collect();
    assert_eq!(red, ["  n6 -> n4 [color=red, penwidth=2, label=\"wants 0al: 0 of 1 met\"];"]);
}

#[test]
fn the_check_tells_by_its_status() {
    let source = run(&["make"], b"source width=1 streams=1").stdout;
    assert_eq!(text(&run(&["check"], &source)), "passes\n");
    let failed = run(&["check"], &sample());
    assert_eq!(failed.status.code(), Some(1));
    let place = "node 4 (sort-merge-join) wants 0al of child 1, node 6 (repartition), which knows no order: 0 of 1 key is met";
    assert_eq!(String::from_utf8(failed.stdout).expect("text"), format!("does not pass\n  {place}\n"));
}

#[test]
fn every_unmet_place_is_named() {
    let plan =
        "sort-merge-join keys=0,1 right=1,0\n  source streams=1 width=2 keys=0\n  merge keys=1d\n    source streams=2 width=2\n";
    let failed = run(&["check"], &run(&["make"], plan.as_bytes()).stdout);
    let wanted = "does not pass
  node 0 (sort-merge-join) wants 0al,1al of child 0, node 1 (source), which knows 0al: 1 of 2 keys are met
  node 0 (sort-merge-join) wants 1al,0al of child 1, node 2 (merge), which knows 1dl: 0 of 2 keys are met
  node 2 (merge) wants 1dl of child 0, node 3 (source), which knows no order: 0 of 1 key is met
";
    assert_eq!((failed.status.code(), String::from_utf8(failed.stdout).expect("text")), (Some(1), wanted.into()));
}

#[test]
fn a_refusal_writes_nothing() {
    let refused = run(&["check"], &sample()[..511]);
    assert_eq!(told(&refused, 3), "refusal 1: the file's length is no multiple of 512\n");
    let folder = std::env::temp_dir().join(format!("sort_placement-refused-{}", std::process::id()));
    let path = folder.to_str().expect("text");
    told(&run(&["ensure", "-o", path], &sample()[..511]), 3);
    assert!(!folder.exists());
}

#[test]
fn a_refusal_says_where() {
    let mut file = sample();
    file[8 + 64 + 16] = 9;
    file[508] += 9;
    let rule = "refusal 7: node 1 (sort): key column 9 is not below the child's width 4\n";
    for command in ["check", "ensure", "list", "show", "draw", "copy"] {
        assert_eq!(told(&run(&[command], &file), 3), rule);
    }
    assert_eq!(told(&run(&["partial", "99"], &sample()), 3), "refusal 20: there is no node 99, the last is 7\n");
    let made = |text: &str| run(&["make"], text.as_bytes()).stdout;
    let partial = made("filter\n  partial-sort keys=0,1 prefix=1\n    source streams=1 width=2 keys=0 unbounded");
    let rule = "refusal 21: node 1 (partial-sort): a tree with a partial sort is not rewritten\n";
    assert_eq!(told(&run(&["ensure"], &partial), 3), rule);
    let constant = made("filter\n  sort keys=0\n    source streams=2 width=2 constants=0");
    let rule = "refusal 25: node 1 (sort): its keys 0al are all constant, and push meets it\n";
    assert_eq!(told(&run(&["push"], &constant), 3), rule);
}

#[test]
fn a_refusal_of_a_text_says_its_line() {
    let tried = |words: &[&str], plan: &str| {
        let text = format!("# a remark\n{plan}");
        told(&run(&[&["try"], words].concat(), text.as_bytes()), 3).to_string()
    };
    let partial = "filter\n\n  partial-sort keys=0,1 prefix=1\n    source streams=1 width=2 keys=0 unbounded";
    let rule = "refusal 21: line 4: node 1 (partial-sort): a tree with a partial sort is not rewritten\n";
    assert_eq!(tried(&["ensure"], partial), rule);
    let constant = "filter\n  sort keys=0\n    source streams=2 width=2 constants=0";
    let rule = "refusal 25: line 3: node 1 (sort): its keys 0al are all constant, and push meets it\n";
    assert_eq!(tried(&["push"], constant), rule);
    assert_eq!(tried(&["partial", "9"], constant), "refusal 20: there is no node 9, the last is 2\n");
}

/// Document 02, P2: what such a call answers is the file that it got, with a mark that does nothing too.
#[test]
fn a_sort_with_nothing_left_to_do_stays() {
    let sorted = run(&["make"], b"filter\n  sort keys=0 preserve\n    source streams=1 width=2 keys=0 unbounded").stdout;
    let answered = run(&["partial", "1"], &sorted);
    assert!(answered.status.success());
    assert_eq!(answered.stdout, sorted);
    // one key more, and there is something to sort
    let further = run(&["make"], b"sort keys=0,1 preserve\n  source streams=1 width=2 keys=0 unbounded").stdout;
    let shown = run(&["show"], &run(&["partial", "0"], &further).stdout);
    assert!(text(&shown).starts_with("partial-sort keys=0al,1al prefix=1 preserve\n"));
}

#[test]
fn the_sample_is_ensured() {
    let ensured = run(&["ensure"], &sample()).stdout;
    assert_eq!(text(&run(&["check"], &ensured)), "passes\n");
    let shown = run(&["show"], &ensured);
    assert!(text(&shown).contains("merge keys=0al,1al fetch=200"));
    assert!(text(&shown).contains("sort keys=0al preserve"));
}

#[test]
fn a_grouped_plan_is_shown_and_drawn() {
    let file = made(GROUPED);
    let shown = run(&["show"], &file);
    assert!(text(&shown).contains("\n    aggregate width=3 keys=0al,1al\n"));
    assert!(text(&run(&["list"], &file)).contains("\n2 2 aggregate 4 - 0al,1al\n"));
    // it knows its child's order, and wants none
    let drawn = run(&["draw"], &file);
    assert!(text(&drawn).contains("[label=\"2 aggregate width=3 keys=0al,1al\\n4 streams, order 1al,0al\"]"));
    assert!(text(&drawn).contains("  n3 -> n2;\n"));
}

#[test]
fn a_column_that_the_list_does_not_show_orders_it() {
    let nodes = |sort: &str| format!("0 0 projection 1 - -\n1 1 {sort}\n2 2 aggregate 4 - 0al,1al\n3 3 source 4 - 1al,0al\n");
    let heads = "node depth kind streams fetch keys\n";
    let (before, after) = (nodes("sort 1 - 1al  gone"), nodes("merge 1 - 1al  new"));
    assert_eq!(text(&run(&["try", "ensure", GROUPED], b"")), format!("{heads}{before}\nensure\n{heads}{after}"));
}

#[test]
fn what_did_not_change_is_told() {
    let tried = run(&["try", "ensure"], b"source streams=1 width=1");
    assert_eq!(text(&tried), "node depth kind streams fetch keys\n0 0 source 1 - -\n\nensure: unchanged\n");
    let tried = run(&["try", "check"], b"merge keys=0\n  source streams=1 width=1");
    assert_eq!(tried.status.code(), Some(1));
}

/// The walks are tried one by one: pushing alone takes the sort and its fetch away here, as the Rust does.
#[test]
fn a_lost_fetch_is_told() {
    let tried = run(&["try", "push", SAMPLE], b"");
    assert!(text(&tried).contains("1 1 sort 1 200 0al,1al  gone\n"));
    assert!(text(&tried).ends_with("\nlost: fetch 200 of node 1 (sort)\n"));
}

#[test]
fn a_fetch_that_another_node_takes_is_not_lost() {
    // the sort's fetch is the new limit's, so it is not lost
    let plan = b"sort keys=0 fetch=5\n  filter\n    source streams=1 width=1 keys=0\n";
    let tried = run(&["try", "ensure"], plan);
    assert!(text(&tried).contains("0 0 sort 1 5 0al  gone\n"));
    assert!(text(&tried).contains("0 0 global-limit 1 5 0al  new\n"));
    assert!(!text(&tried).contains("lost"));
}

#[test]
fn an_aggregate_is_refused_by_its_fields_and_columns() {
    let number = |line: &str| run(&["make"], format!("{line}\n  source streams=1 width=2").as_bytes()).stderr[..10].to_vec();
    assert_eq!(number("aggregate width=1 keys=0,1"), b"refusal 6:");
    assert_eq!(number("aggregate width=33 keys=0"), b"refusal 6:");
    assert_eq!(number("aggregate width=1 keys=0d"), b"refusal 6:");
    assert_eq!(number("aggregate width=1"), b"refusal 6:");
    assert_eq!(number("aggregate width=2 keys=0,2"), b"refusal 7:");
    assert_eq!(number("aggregate width=2 keys=0,0"), b"refusal 7:");
}
