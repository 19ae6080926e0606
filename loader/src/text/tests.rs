//! The text form: nothing is lost, and what is wrong has its place.
use super::*;
use crate::plan::kind::{JOIN_TYPES, NAMES};
use crate::random::Rng;
use crate::random_plans::plan;
use crate::{MOST_BYTES, Plan, check_order, copy_plan, draw, listing, unmet};

fn wrong(text: &str) -> String {
    parse(text).expect_err("a wrong text").to_string()
}

#[test]
fn file_to_text_to_file_is_the_same() {
    let mut rng = Rng::new(2, 0);
    for _ in 0..5_000 {
        let file = plan(&mut rng).write();
        let shown = show(&Plan::read(&file).expect("a plan"));
        let again = parse(&shown).expect(&shown);
        assert_eq!(again.write(), file, "{shown}");
        assert_eq!(show(&again), shown);
        let mut out = [0; MOST_BYTES];
        let length = copy_plan(&file, &mut out).expect("the library accepts it");
        assert_eq!(&out[..length], file);
    }
}

/// A field or two of every name.
const FIELDS: [&str; 17] = [
    "streams=2",
    "width=3",
    "keys=0al,1df",
    "keys=1al",
    "right=0",
    "right=1,0",
    "columns=0,2",
    "type=Full",
    "prefix=1",
    "constants=0,2",
    "keyed=1",
    "fetch=5",
    "skip=2",
    "preserve",
    "hash",
    "unbounded",
    "single",
];

/// A node of a kind with these words, over as many sources as it has children.
fn text_of(kind: &str, words: &[&str]) -> String {
    let children = match kind {
        "source" => 0,
        "union" | "sort-merge-join" | "hash-join" => 2,
        _ => 1,
    };
    format!("{kind} {}\n{}", words.join(" "), "  source streams=1 width=3\n".repeat(children))
}

/// The words of a plan's first line.
fn first_words(plan: &Plan) -> Vec<String> {
    let shown = show(plan);
    let mut words: Vec<String> = shown.lines().next().expect("a line").split(' ').skip(1).map(Into::into).collect();
    // a join type that is not given is Inner
    words.retain(|w| w != "type=Inner");
    words.sort();
    words
}

/// Every kind with up to four fields that some kind has (more say nothing new, and a join needs three): each word comes out again,
/// or there is an error that says so.
#[test]
fn no_word_of_a_text_is_lost() {
    let (mut taken, mut refused) = (0, 0);
    for set in (0..1u32 << FIELDS.len()).filter(|set| set.count_ones() <= 4) {
        let mut words: Vec<&str> = (0..FIELDS.len()).filter(|i| set >> i & 1 == 1).map(|i| FIELDS[i]).collect();
        words.sort();
        for kind in &NAMES[1..] {
            let text = text_of(kind, &words);
            match parse(&text) {
                Ok(plan) => {
                    taken += 1;
                    assert_eq!(first_words(&plan), words, "{text}");
                }
                Err(TextError::Form { line: 1, .. } | TextError::Refused { .. }) => refused += 1,
                Err(other) => panic!("{text}{other}"),
            }
        }
    }
    assert!(taken > 70 && refused > 10_000, "{taken} taken, {refused} refused");
}

#[test]
fn a_field_that_a_kind_does_not_have_is_told() {
    let source = "streams, width, keys, constants, unbounded";
    assert_eq!(
        wrong("source width=3 streams=1 constants=0 right=0"),
        format!("line 1, column 38: a source has no field 'right'; it has {source}")
    );
    assert_eq!(
        wrong("hash-join keys=0 right=0 prefix=3\n  source streams=1 width=1\n  source streams=1 width=1"),
        "line 1, column 26: a hash-join has no field 'prefix'; it has keys, right, type"
    );
    assert_eq!(wrong("filter preserve\n  source"), "line 1, column 8: a filter has no field 'preserve'; it has no fields");
    assert_eq!(wrong("aggregate fetch=1"), "line 1, column 11: an aggregate has no field 'fetch'; it has width, keys");
}

#[test]
fn a_field_stands_once() {
    assert_eq!(wrong("sort keys=0 keys=1"), "line 1, column 13: 'keys' stands twice");
    assert_eq!(wrong("sort preserve preserve"), "line 1, column 15: 'preserve' stands twice");
    let both = "a distribution is single or keyed, not both";
    assert_eq!(wrong("output-requirement single keyed=0"), format!("line 1, column 27: {both}"));
    assert_eq!(wrong("output-requirement keyed=0 single"), format!("line 1, column 28: {both}"));
    assert_eq!(wrong("source constants=1,0,1"), "line 1, column 8: constants: column 1 stands twice");
}

#[test]
fn a_value_that_does_not_fit_is_told() {
    for (text, column, words) in [
        ("sort keys", 6, "'keys' wants a value, as keys=.."),
        ("sort preserve=1", 6, "'preserve' takes no value"),
        ("source streams=256", 8, "streams: '256' is no number from 0 to 255"),
        ("source streams=+1", 8, "streams: '+1' is no number from 0 to 255"),
        ("source streams=", 8, "streams: '' is no number from 0 to 255"),
        ("source constants=32", 8, "constants: '32' is no number from 0 to 31"),
        ("merge fetch=4294967295", 7, "fetch: '4294967295' is no number from 0 to 4294967294"),
        ("merge keys=0x", 7, "keys: 'x' behind a column is none of a, d, al, af, dl, df"),
        ("merge keys=0,1,2,3,4,5,6,7,8", 7, "keys: the list has 9 entries, more than 8"),
        ("hash-join keys=0 right=0,1", 18, "a hash-join has as many right columns as keys, not 2 and 1"),
        ("hash-join keys=0", 1, "a hash-join has as many right columns as keys, not 0 and 1"),
        ("hash-join right=0,0,0,0,0,0,0,0,0", 11, "right: the list has 9 entries, more than 8"),
    ] {
        assert_eq!(wrong(text), format!("line 1, column {column}: {words}"));
    }
    let columns: Vec<String> = (0..33).map(|c| c.to_string()).collect();
    let many = wrong(&format!("projection columns={}", columns.join(",")));
    assert_eq!(many, "line 1, column 12: columns: the list has 33 entries, more than 32");
    assert_eq!(wrong("sorts"), format!("line 1, column 1: no kind 'sorts'; there are {}", NAMES[1..].join(", ")));
    let types = JOIN_TYPES.join(", ");
    assert_eq!(wrong("hash-join type=Outer"), format!("line 1, column 11: type: no join type 'Outer'; there are {types}"));
}

#[test]
fn lines_stand_in_their_places() {
    assert_eq!(wrong(" # nothing\n\n"), "the text has no node");
    let deeper = "a child stands two spaces deeper than its parent";
    assert_eq!(wrong("filter\n   source streams=1 width=1"), format!("line 2, column 4: {deeper}"));
    assert_eq!(wrong("filter\n\tsource streams=1 width=1"), "line 2, column 1: a line is indented by spaces alone");
    let second = "line 3, column 1: a second root: it stands no deeper than the first";
    assert_eq!(wrong("source streams=1 width=1\n# and\nfilter"), second);
    // columns count characters
    assert_eq!(wrong("sort é=1 keys=0"), "line 1, column 6: a sort has no field 'é'; it has keys, fetch, preserve");
    assert_eq!(wrong("sort keys=0 \u{85} é"), "line 1, column 13: a sort has no field '\u{fffd}'; it has keys, fetch, preserve");
}

/// A message shows the beginning of a word, without what a terminal would take for a command.
#[test]
fn a_wrong_word_is_cut_and_clean() {
    let long = format!("sort keys=0 {}", "\u{1b}é".repeat(100));
    let shown = "\u{fffd}é".repeat(20);
    assert_eq!(wrong(&long), format!("line 1, column 13: a sort has no field '{shown}..'; it has keys, fetch, preserve"));
    // as many words as a text can have
    let words = format!("sort preserve{}", " é=".repeat((MOST_TEXT_BYTES - 13) / 4));
    assert_eq!(wrong(&words), "line 1, column 15: a sort has no field 'é'; it has keys, fetch, preserve");
}

#[test]
fn a_byte_order_mark_is_passed_over() {
    let source = "source streams=1 width=1\n";
    assert_eq!(parse(&format!("\u{feff}{source}")), parse(source));
    assert_eq!(wrong("\u{feff}\nsource"), "refusal 6: line 2: node 0 (source): streams are 0, not 1 to 64");
    let inside = wrong("filter\n  \u{feff}source");
    assert!(inside.starts_with("line 2, column 3: no kind '\u{feff}source'"), "{inside}");
}

#[test]
fn a_text_has_its_own_bound() {
    let source = "source streams=1 width=1\n";
    let padded = format!("{source}#{}", "x".repeat(MOST_TEXT_BYTES - source.len() - 1));
    assert_eq!(parse(&padded).map(|p| p.count()), Ok(1));
    assert_eq!(parse(&(padded + "x")), Err(TextError::TooLong));
    let chain = |n: usize| (0..n).map(|i| format!("{:1$}filter\n", "", 2 * i)).collect::<String>();
    let whole = format!("{}{:2$}{source}", chain(125), "", 250);
    assert_eq!(parse(&whole).map(|p| p.count()), Ok(126));
    assert_eq!(wrong(&chain(700)), "line 127, column 253: a plan has at most 126 nodes");
}

#[test]
fn a_refusal_says_its_line() {
    let refused = |text: &str| wrong(&format!("# a remark\n{text}"));
    assert_eq!(refused("filter"), "refusal 4: line 2: node 0 (filter): it has 0 children, and can have 1");
    let over_one = "union\n  source streams=1 width=1";
    assert_eq!(refused(over_one), "refusal 4: line 2: node 0 (union): it has 1 child, and can have 2 to 8");
    assert_eq!(refused("filter\n  # below\n  source width=1"), "refusal 6: line 4: node 1 (source): streams are 0, not 1 to 64");
}

/// What takes a plan answers on every plan.
#[test]
fn views_of_a_plan_do_not_panic() {
    let mut rng = Rng::new(3, 0);
    for _ in 0..2_000 {
        let plan = plan(&mut rng);
        assert!(draw(&plan).ends_with("}\n"));
        assert_eq!(listing(&plan).lines().count(), plan.count() + 1);
        // the check is the library's, the places are the package's
        assert_eq!(check_order(&plan.write()), Ok(unmet(&plan).is_empty()));
    }
}

/// docs/TEXT.md: its plans are plans, its table of fields is the code's, its messages are the ones that come.
#[test]
fn the_document_is_true() {
    let document = include_str!("../../../docs/TEXT.md");
    let plans: Vec<&str> = document.split("```text\n").skip(1).map(|rest| rest.split("```").next().expect("its end")).collect();
    assert_eq!(plans.len(), 1);
    plans.into_iter().for_each(|p| drop(parse(p).expect("a plan")));
    for kind in 1..=15u8 {
        let row = format!("| {} | {} |\n", NAMES[kind as usize], fields::in_words(kind));
        assert!(document.contains(&row), "{row}");
        for field in fields::of_kind(kind) {
            assert!(document.contains(&format!("| `{}", field.name())), "{field:?}");
        }
    }
    let chain: String = (0..127).map(|i| format!("{:1$}filter\n", "", 2 * i)).collect();
    for text in
        ["filter\n  source streams=1 width=3 right=0", "sort keys=0 keys=1", &chain, "sort keys=9\n  source streams=1 width=3"]
    {
        assert!(document.contains(&wrong(text)), "{}", wrong(text));
    }
    assert!(JOIN_TYPES[..7].iter().all(|t| document.contains(t)));
}

/// Fields in any order, short keys, sets in any order, remarks: the normal layout of what is meant.
#[test]
fn a_text_comes_back_in_normal_layout() {
    let loose = "\n# a remark\nsort   preserve fetch=007 keys=1,0d  # another\n\n  source constants=2,0 width=3 streams=2\n";
    let normal = "sort keys=1al,0dl fetch=7 preserve\n  source streams=2 width=3 constants=0,2\n";
    let plan = parse(loose).expect("a plan");
    assert_eq!(show(&plan), normal);
    assert_eq!(Plan::read(&plan.write()).as_ref().map(show).as_deref(), Ok(normal));
    assert_eq!(parse(normal), Ok(plan));
}

/// A text with some characters changed: a plan that comes back whole, or an error; never a panic.
#[test]
fn a_damaged_text_is_a_plan_or_an_error() {
    let mut rng = Rng::new(4, 0);
    let texts: Vec<String> = (0..100).map(|_| show(&plan(&mut rng))).collect();
    let (mut plans, mut errors) = (0, 0);
    for _ in 0..20_000 {
        let mut text: Vec<char> = texts[rng.below(texts.len())].chars().collect();
        for _ in 0..1 + rng.below(3) {
            let at = rng.below(text.len());
            match rng.below(3) {
                0 => text[at] = rng.pick(&['0', '9', 'a', '=', ',', ' ', '\n', '\t', '#', 'é', '\u{2003}']),
                1 => drop(text.remove(at)),
                _ => text.insert(at, rng.pick(&['1', 'd', 'f', ' ', '\r', ','])),
            }
        }
        match parse(&text.into_iter().collect::<String>()) {
            Ok(plan) => {
                plans += 1;
                assert_eq!(parse(&show(&plan)), Ok(plan));
            }
            Err(wrong) => {
                errors += 1;
                assert!(!wrong.to_string().is_empty());
            }
        }
    }
    assert!(plans > 200 && errors > 5_000, "{plans} plans, {errors} errors");
}
