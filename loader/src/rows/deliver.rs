//! A dry run on values.
use super::{Rows, root_streams};
use crate::{DRY_RUN_BYTES, Plan, Refusal, dry_run};

/// The rows that a dry run of a plan delivers, on each stream of its root; [`dry_run`] is the same on bytes.
///
/// # Errors
///
/// The call's refusal; [`explain`](super::explain) has its place.
///
/// # Panics
///
/// Where an accepted dry run has written something else than its root's rows, which its contract rules out.
///
/// ```
/// use sort_placement::{rows, text};
///
/// let plan = text::parse("merge keys=0\n  source streams=2 width=1 keys=0").unwrap();
/// let given = rows::parse("source 1 stream 0\n1\n4\nsource 1 stream 1\n3\n", &plan).unwrap();
/// let delivered = rows::deliver(&plan, &given, &[]).unwrap();
/// assert_eq!(rows::show_delivered(&delivered), "stream 0\n1\n3\n4\n");
/// ```
pub fn deliver(plan: &Plan, rows: &Rows, choices: &[u8]) -> Result<Rows, Refusal> {
    let mut out = vec![0; DRY_RUN_BYTES];
    let length = dry_run(&plan.write(), &rows.write(), choices, &mut out)?;
    Ok(Rows::read(&out[..length], &root_streams(plan)).expect("the rows of the root's streams"))
}

#[cfg(test)]
mod tests {
    use super::*;
    use crate::random::Rng;
    use crate::rows::{Order, Row, explain, show, show_row};
    use crate::{check_order, random_plans, random_rows, text};

    /// The library's number is the one that the package explains, on rows with faults and without.
    #[test]
    fn every_refusal_is_explained() {
        let (mut rng, mut seen) = (Rng::new(6, 0), std::collections::BTreeMap::new());
        let mut out = vec![0; DRY_RUN_BYTES];
        for _ in 0..4_000 {
            let plan = random_plans::plan(&mut rng);
            let rows = random_rows::rows(&mut rng, &plan);
            let bytes = random_rows::damaged(&mut rng, rows);
            let answered = dry_run(&plan.write(), &bytes, &[rng.next() as u8], &mut out).err();
            assert_eq!(answered, explain(&plan, &bytes).map(|why| why.refusal), "{}{bytes:?}", text::show(&plan));
            *seen.entry(answered.map_or(0, |refusal| refusal.number().min(256))).or_insert(0) += 1;
        }
        assert!([0, 26, 27, 256].iter().all(|number| seen[number] > 20), "{seen:?}");
    }

    /// 24 where the output is a byte too short, and then nothing is written; what fits is written, and no byte more.
    #[test]
    fn an_output_that_just_fits_is_enough() {
        let mut rng = Rng::new(7, 0);
        for _ in 0..500 {
            let plan = random_plans::plan(&mut rng);
            let (file, rows) = (plan.write(), random_rows::rows(&mut rng, &plan).write());
            let mut out = vec![0xA5; DRY_RUN_BYTES];
            let Ok(length) = dry_run(&file, &rows, &[3, 1], &mut out) else { continue };
            assert!(out[length..].iter().all(|b| *b == 0xA5));
            let mut short = vec![0xA5; length - 1];
            assert_eq!(dry_run(&file, &rows, &[3, 1], &mut short), Err(Refusal::ShortOutput));
            assert!(short.iter().all(|b| *b == 0xA5));
            assert_eq!(dry_run(&file, &rows, &[3, 1], &mut vec![0; length]), Ok(length));
        }
    }

    /// Document 02: a plan that passes the check shows no row out of order.
    #[test]
    fn a_plan_that_passes_delivers_in_order() {
        let (mut rng, mut seen) = (Rng::new(8, 0), 0);
        for _ in 0..4_000 {
            let plan = random_plans::plan(&mut rng);
            let (order, rows) = (Order::of_root(&plan), random_rows::rows(&mut rng, &plan));
            let choices: Vec<u8> = (0..rng.below(6)).map(|_| rng.next() as u8).collect();
            let Ok(delivered) = deliver(&plan, &rows, &choices) else { continue };
            assert!(delivered.count() <= rows.count());
            if check_order(&plan.write()) == Ok(true) {
                let out = delivered.streams.iter().any(|stream| order.first_out(stream).is_some());
                assert!(!out, "{}{}", text::show(&plan), show(&rows, &plan));
                seen += usize::from(!order.is_none() && delivered.count() > 1);
            }
        }
        assert!(seen > 50, "{seen}");
    }

    /// Where rows wait, the ways that they go, streams that stay open, choices, cuts: a small example of each.
    #[test]
    fn dry_runs_answer_as_they_are_read() {
        for (written, rows, choices, delivered) in [
            ("source streams=2 width=1", "1 | 2", &[][..], "1 | 2"),
            ("repartition streams=2 keys=0 hash\n  source streams=1 width=1", "1 1", &[0, 1], "1 | 1"),
            (
                "repartition streams=2 preserve\n  local-limit fetch=1\n    source streams=2 width=1 keys=0",
                "1 1 | 1",
                &[0, 1],
                "1 | 1",
            ),
            ("coalesce\n  sort keys=0 preserve\n    filter\n      source streams=2 width=1", "1 | 2", &[0, 1], "2 1"),
            ("repartition streams=2 preserve\n  source streams=2 width=1", "1 | 2", &[1], "| 2 1"),
            ("coalesce\n  source streams=3 width=1", "1 | | 2", &[2], "1 2"),
            ("global-limit skip=1 fetch=2\n  source streams=1 width=1", "1 2 3 4", &[], "2 3"),
        ] {
            let row = |word: &str| vec![Some(word.parse().expect("a number"))];
            let rows = Rows { streams: rows.split('|').map(|s| s.split_whitespace().map(row).collect()).collect() };
            let told = deliver(&text::parse(written).expect("a plan"), &rows, choices).expect("rows").streams;
            let words = |stream: &Vec<Row>| stream.iter().map(|row| show_row(row)).collect::<Vec<_>>().join(" ");
            assert_eq!(told.iter().map(words).collect::<Vec<_>>().join(" | ").trim(), delivered, "{written}");
        }
    }
}
