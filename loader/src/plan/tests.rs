//! Refusals of files: the number is the library's, the place and the words are told.
use super::*;
use crate::random::Rng;
use crate::random_plans::{damaged, plan};
use crate::{Plan, check_order, explain, text};
use std::collections::BTreeMap;

/// A hundred thousand damaged files: the number of an explanation is what the library answers.
#[test]
fn the_explained_number_is_the_librarys() {
    let mut rng = Rng::new(7, 0);
    let files: Vec<Vec<u8>> = (0..400).map(|_| plan(&mut rng).write()).collect();
    let mut seen: BTreeMap<u32, u32> = BTreeMap::new();
    for i in 0..100_000 {
        let whole = &files[rng.below(files.len())];
        let file = damaged(&mut rng, whole);
        let explained = explain(&file).map_or(0, |why| why.refusal.number());
        let answered = check_order(&file).map_or_else(|refusal| refusal.number(), |_| 0);
        assert_eq!(explained, answered, "file {i}: {:?}", explain(&file));
        *seen.entry(answered).or_default() += 1;
    }
    assert!((0..=8).all(|n| seen.get(&n).is_some_and(|times| *times > 100)), "{seen:?}");
}

/// The words for a file in which bytes of the first block are put, and its sum made right.
fn refused(form: &str, bytes: &[(usize, u8)]) -> String {
    let mut file = text::parse(form).expect("a plan").write();
    bytes.iter().for_each(|(at, value)| file[*at] = *value);
    repair_sum(&mut file[..BLOCK]);
    explain(&file).expect("a refused file").to_string()
}

const SORT_OVER_SOURCE: &str = "sort keys=0\n  source streams=1 width=3";

#[test]
fn a_file_is_explained_by_its_block() {
    let file = text::parse(SORT_OVER_SOURCE).expect("a plan").write();
    let words = |file: &[u8]| explain(file).expect("a refused file").to_string();
    assert_eq!(words(&file[1..]), "refusal 1: the file's length is no multiple of 512");
    assert_eq!(words(&[0; 19 * BLOCK]), "refusal 1: the file is longer than 18 blocks, 9216 bytes");
    let mut other = file.clone();
    other[509] += 1;
    assert!(words(&other).starts_with("refusal 2: block 0: its sum is "));
    assert_eq!(refused(SORT_OVER_SOURCE, &[(0, 1)]), "refusal 3: block 0: its number is 1");
    assert_eq!(refused(SORT_OVER_SOURCE, &[(2, 2)]), "refusal 3: block 0: its block total is 2, the file has 1");
    assert_eq!(refused(SORT_OVER_SOURCE, &[(4, 8)]), "refusal 3: block 0: it has 8 records, not 1 to 7");
    assert_eq!(refused(SORT_OVER_SOURCE, &[(400, 9)]), "refusal 3: block 0: its byte 400 is 9, not zero");
}

#[test]
fn a_file_is_explained_by_its_node() {
    let at = |bytes: &[(usize, u8)]| refused(SORT_OVER_SOURCE, bytes);
    assert_eq!(at(&[(8, 77)]), "refusal 4: node 0: no kind has the number 77");
    assert_eq!(at(&[(9, 2)]), "refusal 4: node 0 (sort): it has 2 children, and can have 1");
    assert_eq!(at(&[(8, 8), (4, 1), (72, 0)]), "refusal 3: block 0: its byte 74 is 1, not zero");
    assert_eq!(at(&[(8, 1), (9, 0)]), "refusal 5: the root's tree ends with node 0, and 1 record is left over");
    assert_eq!(
        at(&[(72, 2), (73, 1)]),
        "refusal 5: node 1 (filter): it has 1 child, and 0 of them in the file: records are missing"
    );
    let two = "filter\n  filter\n    source streams=1 width=1";
    let rest = "the root's tree ends with node 1, and 1 record is left over";
    // the source before the second filter, which then has no child either
    assert_eq!(refused(two, &[(72, 1), (73, 0), (74, 1), (136, 2), (137, 1)]), format!("refusal 5: {rest}"));
    assert_eq!(at(&[(8 + 15, 3)]), "refusal 6: node 0 (sort): byte 15 is 3, not zero");
    assert_eq!(refused(two, &[(8 + 12, 1)]), "refusal 6: node 0 (filter): it has 1 key, and its kind has none");
    assert_eq!(at(&[(8 + 17, 4)]), "refusal 6: node 0 (sort): key 0 has options 4, and only bits 0 and 1 have a meaning");
    assert_eq!(at(&[(8 + 16, 9)]), "refusal 7: node 0 (sort): key column 9 is not below the child's width 3");
    assert_eq!(at(&[(72 + 32, 8)]), "refusal 7: node 1 (source): constant column 3 is not below its width 3");
}

#[test]
fn unions_and_joins_are_explained() {
    let two = "  source streams=1 width=20\n  source streams=1 width=12\n";
    let join = format!("hash-join keys=0 right=0 type=Inner\n{two}");
    assert_eq!(refused(&join, &[(8 + 14, 9)]), "refusal 6: node 0 (hash-join): join type is 9, not 0 to 7");
    assert_eq!(
        refused(&join, &[(8 + 32, 12)]),
        "refusal 7: node 0 (hash-join): right column 12 is not below the right child's width 12"
    );
    assert_eq!(refused(&join, &[(72 + 13, 32)]), "refusal 8: node 0 (hash-join): it is 44 columns wide, more than 32");
    let union = text::parse(&format!("union\n{two}")).expect_err("unequal widths");
    let words = "refusal 6: line 1: node 0 (union): node 2 has width 12, its first child, node 1, width 20";
    assert_eq!(union.to_string(), words);
}

#[test]
fn what_is_read_is_written() {
    let file = text::parse(SORT_OVER_SOURCE).expect("a plan").write();
    assert_eq!(read(&file).map(|tree| write(&tree)), Ok(file.clone()));
    assert_eq!(read(&file[..8]), Err(1));
    assert_eq!(Plan::read(&file).map(|p| p.write()), Ok(file));
}
