//! What a rewrite changed. Nodes are told apart by their lines: the longest run of equal lines, in node order, stayed; of the
//! others, those with an equal line moved, those of one kind between the same stayed nodes changed, the rest are gone or new.
use sort_placement::{Plan, listing, text};

#[derive(Clone, Copy, PartialEq)]
enum Mark {
    Stayed(usize),
    Moved(usize),
    Changed(usize),
    /// gone, of a node before; new, of one after
    Alone,
}

use Mark::{Alone, Changed, Moved, Stayed};

/// The lengths of the longest common runs of what begins at each pair of places.
fn common(before: &[&str], after: &[&str]) -> Vec<Vec<usize>> {
    let mut lengths = vec![vec![0; after.len() + 1]; before.len() + 1];
    for i in (0..before.len()).rev() {
        for j in (0..after.len()).rev() {
            let skipped = lengths[i + 1][j].max(lengths[i][j + 1]);
            lengths[i][j] = if before[i] == after[j] { skipped.max(lengths[i + 1][j + 1] + 1) } else { skipped };
        }
    }
    lengths
}

/// Both trees' marks; each mark has the number of its node in the other tree.
struct Marks<'a> {
    before: &'a [&'a str],
    after: &'a [&'a str],
    of_before: Vec<Mark>,
    of_after: Vec<Mark>,
}

impl<'a> Marks<'a> {
    fn new(before: &'a [&'a str], after: &'a [&'a str]) -> Marks<'a> {
        let mut marks = Marks { before, after, of_before: vec![Alone; before.len()], of_after: vec![Alone; after.len()] };
        let lengths = common(before, after);
        let (mut i, mut j) = (0, 0);
        while i < before.len() && j < after.len() {
            if before[i] == after[j] && lengths[i][j] == lengths[i + 1][j + 1] + 1 {
                marks.pair(i, j, Stayed);
                (i, j) = (i + 1, j + 1);
            } else if lengths[i + 1][j] >= lengths[i][j + 1] {
                i += 1;
            } else {
                j += 1;
            }
        }
        marks.pair_all(Moved, |m, i, j| m.before[i] == m.after[j]);
        marks.pair_all(Changed, |m, i, j| {
            kind(m.before[i]) == kind(m.after[j]) && m.gap(&m.of_before, i) == m.gap(&m.of_after, j)
        });
        marks
    }

    fn pair(&mut self, i: usize, j: usize, mark: fn(usize) -> Mark) {
        self.of_before[i] = mark(j);
        self.of_after[j] = mark(i);
    }

    /// Pairs nodes that are still alone, first come first served.
    fn pair_all(&mut self, mark: fn(usize) -> Mark, fits: fn(&Marks, usize, usize) -> bool) {
        for j in 0..self.after.len() {
            let alone = |i: &usize| self.of_before[*i] == Alone && fits(self, *i, j);
            if self.of_after[j] == Alone
                && let Some(i) = (0..self.before.len()).find(alone)
            {
                self.pair(i, j, mark);
            }
        }
    }

    /// How many nodes before this one stayed.
    fn gap(&self, marks: &[Mark], at: usize) -> usize {
        marks[..at].iter().filter(|m| matches!(m, Stayed(_))).count()
    }

    /// Fetches of nodes that are gone or changed, and that no new or changed node has.
    fn lost_fetches(&self) -> Vec<String> {
        let touched = |m: &Mark| matches!(m, Alone | Changed(_));
        let found = |marks: &[Mark], lines: &[&'a str]| -> Vec<(usize, &'a str)> {
            let of = |i: usize| fetch(lines[i]).map(|f| (i, f));
            (0..lines.len()).filter(|i| touched(&marks[*i])).filter_map(of).collect()
        };
        let mut kept = found(&self.of_after, self.after);
        let mut lost = vec![];
        for (i, fetch) in found(&self.of_before, self.before) {
            match kept.iter().position(|k| k.1 == fetch) {
                Some(at) => drop(kept.swap_remove(at)),
                None => lost.push(format!("lost: fetch {fetch} of node {i} ({})", kind(self.before[i]))),
            }
        }
        lost
    }

    fn word_before(&self, i: usize) -> String {
        match self.of_before[i] {
            Stayed(_) => String::new(),
            Moved(j) => format!("  moves to {j}"),
            Changed(j) => format!("  changes, see {j}"),
            Alone => "  gone".into(),
        }
    }

    fn word_after(&self, j: usize) -> String {
        match self.of_after[j] {
            Stayed(_) => String::new(),
            Moved(i) => format!("  moved from {i}"),
            Changed(i) => format!("  changed, was {i}: {}", self.before[i]),
            Alone => "  new".into(),
        }
    }
}

fn kind(line: &str) -> &str {
    line.split(' ').next().unwrap_or_default()
}

fn fetch(line: &str) -> Option<&str> {
    line.split(' ').find_map(|word| word.strip_prefix("fetch="))
}

/// A listing with a word behind each node's line.
fn marked(plan: &Plan, word: impl Fn(usize) -> String) -> String {
    let listing = listing(plan);
    let mut lines = listing.lines();
    let heads = lines.next().unwrap_or_default();
    let nodes: String = lines.enumerate().map(|(i, line)| format!("{line}{}\n", word(i))).collect();
    format!("{heads}\n{nodes}")
}

/// The listings before and after a call, with what changed; one listing where nothing did.
pub fn told(before: &Plan, call: &str, after: &Plan) -> String {
    if before == after {
        return format!("{}\n{call}: unchanged\n", listing(before));
    }
    let texts = [before, after].map(text::show);
    let [old, new] = [0, 1].map(|i: usize| texts[i].lines().map(str::trim_start).collect::<Vec<_>>());
    let marks = Marks::new(&old, &new);
    let mut out = marked(before, |i| marks.word_before(i));
    out += &format!("\n{call}\n{}", marked(after, |j| marks.word_after(j)));
    for lost in marks.lost_fetches() {
        out += &format!("{lost}\n");
    }
    out
}

#[cfg(test)]
mod tests {
    use super::*;

    fn words(before: &str, after: &str) -> Vec<String> {
        let [before, after] = [before, after].map(|t| text::parse(t).expect("a plan"));
        let told = told(&before, "call", &after);
        told.lines().filter(|l| l.contains("  ") || l.starts_with("lost") || l.contains("unchanged")).map(Into::into).collect()
    }

    const SOURCE: &str = "source streams=2 width=2";

    #[test]
    fn nothing_changed() {
        assert_eq!(words(SOURCE, SOURCE), ["call: unchanged"]);
    }

    #[test]
    fn new_and_gone() {
        let sort = format!("sort keys=0 fetch=5\n  filter\n    {SOURCE}");
        let merge = format!("merge keys=0 fetch=5\n  filter\n    {SOURCE}");
        assert_eq!(words(&sort, &merge), ["0 0 sort 1 5 0al  gone", "0 0 merge 1 5 0al  new"]);
        let lost = ["0 0 sort 1 5 0al  gone", "lost: fetch 5 of node 0 (sort)"];
        assert_eq!(words(&sort, &format!("filter\n  {SOURCE}")), lost);
    }

    #[test]
    fn moved() {
        let above = format!("sort keys=0 fetch=5\n  filter\n    filter\n      {SOURCE}");
        let below = format!("filter\n  filter\n    sort keys=0 fetch=5\n      {SOURCE}");
        assert_eq!(words(&above, &below), ["0 0 sort 1 5 0al  moves to 2", "2 2 sort 1 5 0al  moved from 0"]);
    }

    #[test]
    fn changed() {
        let whole = format!("filter\n  sort keys=0 fetch=5\n    {SOURCE}");
        let each = format!("filter\n  sort keys=0 preserve\n    {SOURCE}");
        let told = [
            "1 1 sort 1 5 0al  changes, see 1",
            "1 1 sort 2 - 0al  changed, was 1: sort keys=0al fetch=5",
            "lost: fetch 5 of node 1 (sort)",
        ];
        assert_eq!(words(&whole, &each), told);
    }
}
