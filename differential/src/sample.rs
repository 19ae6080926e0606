//! Chooses cases for the program `replay` by what they notice: for each mutant some small requests that it answers otherwise, of
//! different calls, no two of which notice just the same mutants. Behind the cases that a file has come the pinned plans, then these.
use crate::answers::Requests;
use crate::cases::{self, Case, Request};
use crate::mutants::{self, MUTANTS};
use crate::{pinned, shrink, small_plans};
use sort_placement::exports::Call;
use sort_placement::plan::{self, Node};
use std::collections::{BTreeMap, BTreeSet};
use std::fs::File;
use std::io::{BufWriter, Write};
use std::path::Path;

/// What a choice is made from.
pub struct Choice {
    /// small plans that are tried, and the seed of all plans
    pub small: u64,
    pub seed: u64,
    /// plans of a comparison, tried for the mutants that no small one notices
    pub plans: u64,
    /// cases at the most
    pub most: usize,
    /// the mutants' programs are those of an earlier run
    pub kept: bool,
}

/// Requests with the right answers to them.
struct Asked {
    requests: Requests,
    wanted: Vec<String>,
}

impl Asked {
    fn new(requests: Requests) -> Asked {
        let wanted = mutants::wanted(&requests);
        Asked { requests, wanted }
    }

    fn noticed(&self, program: &Path, most: usize) -> Vec<usize> {
        mutants::noticed(program, &self.requests, &self.wanted, most)
    }
}

/// A request that may become a case, and the mutants that answer it otherwise.
struct Candidate {
    request: Request,
    notices: BTreeSet<usize>,
}

/// The requests, by number, with the mutants that answer them otherwise.
type Notices = BTreeMap<usize, BTreeSet<usize>>;

fn add(notices: &mut Notices, mutant: usize, requests: Vec<usize>) {
    for i in requests {
        notices.entry(i).or_default().insert(mutant);
    }
}

/// The requests that notice something.
fn candidates<'a>(asked: &'a Asked, notices: &'a Notices) -> impl Iterator<Item = Candidate> + 'a {
    let all = asked.requests.all().enumerate();
    all.filter_map(|(i, request)| Some(Candidate { request, notices: notices.get(&i)?.clone() }))
}

/// Writes requests, with no answers, as a file of cases that mutants can be asked about.
fn asked(name: &str, requests: impl Iterator<Item = Request>) -> Asked {
    let path = Path::new(env!("CARGO_MANIFEST_DIR")).join("target/mutants").join(name);
    std::fs::create_dir_all(path.parent().expect("a folder")).expect("a folder");
    let mut file = BufWriter::new(File::create(&path).expect("a file"));
    for request in requests {
        file.write_all(&Case { request, number: 0, bytes: vec![] }.written()).expect("room for a request");
    }
    file.flush().expect("room for requests");
    Asked::new(Requests::Cases(path))
}

/// A plan of more nodes is left as it is: the smallest that notices a mutant is large if the mutant is about the number of nodes.
const MOST_SHRUNK: usize = 40;

/// A smaller request that the mutant answers otherwise too.
fn shrunk(program: &Path, request: Request) -> Request {
    let on = |tree: &Node| Request { file: plan::write(tree), ..request.clone() };
    let first = |trees: &[Node]| asked("shrinking", trees.iter().map(on)).noticed(program, 1).first().copied();
    let tree = plan::read(&request.file).expect("a plan");
    if tree.count() > MOST_SHRUNK { request } else { on(&shrink::shrink_by(tree, &first)) }
}

/// The least that are to notice a mutant; where fewer small plans do, the plans of a comparison are made smaller.
const LEAST: usize = 4;

/// Of the plans of a comparison some that notice a mutant, made smaller.
fn from_plans(program: &Path, plans: &Asked, least: usize) -> Vec<Request> {
    let noticed: BTreeSet<usize> = plans.noticed(program, 10 * least).into_iter().collect();
    let all = plans.requests.all().enumerate().filter(|(i, r)| noticed.contains(i) && r.call != Call::Copy);
    let mut requests: Vec<Request> = all.map(|(_, r)| r).collect();
    requests.sort_by_key(|r| r.file.len());
    requests.into_iter().take(least).map(|r| shrunk(program, r)).collect()
}

/// Asks every mutant; all candidates, smaller files first, and how many mutants the plans of a comparison notice.
fn ask(choice: &Choice) -> (Vec<Candidate>, usize) {
    let small = asked("small", small_plans::requests(choice.small, choice.seed));
    let plans = Asked::new(Requests::Plans(choice.plans, choice.seed));
    let mut notices = Notices::new();
    let (mut by_plans, mut further) = (0, vec![]);
    let programs: Vec<_> = (0..MUTANTS.len()).map(|m| mutants::program(m, choice.kept)).collect();
    for (mutant, program) in programs.iter().enumerate().filter_map(|(m, p)| Some((m, p.as_ref()?))) {
        let found = small.noticed(program, usize::MAX);
        let is_noticed = !plans.noticed(program, 1).is_empty();
        by_plans += is_noticed as usize;
        eprintln!("{}: {} small requests notice it, the plans {is_noticed}", mutants::name(mutant), found.len());
        if found.len() < LEAST && is_noticed {
            further.extend(from_plans(program, &plans, LEAST - found.len()));
        }
        add(&mut notices, mutant, found);
    }
    let further = asked("further", further.into_iter());
    let mut of_further = Notices::new();
    for (mutant, program) in programs.iter().enumerate().filter_map(|(m, p)| Some((m, p.as_ref()?))) {
        add(&mut of_further, mutant, further.noticed(program, usize::MAX));
    }
    let mut all: Vec<_> = candidates(&small, &notices).chain(candidates(&further, &of_further)).collect();
    all.sort_by_key(|c| c.request.file.len());
    (all, by_plans)
}

/// Of a mutant's candidates the next to take: none that notices just what a taken one does, of a call that few of the taken ones
/// have, the smallest.
fn next(candidates: &[Candidate], of: &[usize], taken: &[usize]) -> Option<usize> {
    let same = |c: usize| taken.iter().any(|t| candidates[*t].notices == candidates[c].notices);
    let call = |c: usize| candidates[c].request.call.name();
    let of_call = |c: usize| taken.iter().filter(|t| call(**t) == call(c)).count();
    of.iter().copied().filter(|c| !taken.contains(c) && !same(*c)).min_by_key(|c| of_call(*c))
}

/// So many candidates for each mutant, the mutants first that few candidates notice.
fn chosen(candidates: &[Candidate], each: usize) -> BTreeSet<usize> {
    let mut of: BTreeMap<usize, Vec<usize>> = BTreeMap::new();
    for (place, candidate) in candidates.iter().enumerate() {
        candidate.notices.iter().for_each(|m| of.entry(*m).or_default().push(place));
    }
    let mut rarest: Vec<_> = of.into_iter().collect();
    rarest.sort_by_key(|(mutant, of)| (of.len(), *mutant));
    let mut out: BTreeSet<usize> = BTreeSet::new();
    for (mutant, of) in rarest {
        let mut taken: Vec<usize> = out.iter().copied().filter(|c| candidates[*c].notices.contains(&mutant)).collect();
        while taken.len() < each {
            let Some(place) = next(candidates, &of, &taken) else { break };
            taken.push(place);
            out.insert(place);
        }
    }
    out
}

/// The choice with the most candidates for each mutant that there is room for.
fn largest(candidates: &[Candidate], room: usize) -> (usize, BTreeSet<usize>) {
    let choices = (1..).map(|each| (each, chosen(candidates, each)));
    let mut best = (0, BTreeSet::new());
    for (each, choice) in choices {
        if choice.len() > room || choice.len() == best.1.len() {
            break;
        }
        best = (each, choice);
    }
    best
}

/// Adds the pinned plans and the chosen requests to a file of cases.
pub fn run(path: &Path, choice: &Choice) {
    let before = cases::read(path).len();
    let mut added = pinned::cases();
    println!("{before} cases, {} pinned plans", added.len());
    let (candidates, by_plans) = ask(choice);
    let room = choice.most.saturating_sub(before + added.len());
    let (each, places) = largest(&candidates, room);
    let noticed: BTreeSet<usize> = places.iter().flat_map(|p| &candidates[*p].notices).copied().collect();
    println!(
        "{by_plans} of {} mutants are noticed on {} plans; {} requests notice one",
        MUTANTS.len(),
        choice.plans,
        candidates.len()
    );
    println!("{} of them chosen, {each} for a mutant where there are so many; they notice {}", places.len(), noticed.len());
    added.extend(places.into_iter().filter_map(|p| Case::of(candidates[p].request.clone())));
    let mut file = std::fs::OpenOptions::new().append(true).open(path).expect("the cases");
    added.iter().for_each(|case| file.write_all(&case.written()).expect("room for a case"));
    println!("{} cases", before + added.len());
}

#[cfg(test)]
mod tests {
    use super::*;

    fn candidate(call: Call, notices: &[usize]) -> Candidate {
        Candidate { request: Request { call, room: 0, file: vec![] }, notices: notices.iter().copied().collect() }
    }

    #[test]
    fn a_choice_notices_every_mutant() {
        let all = [
            candidate(Call::Push, &[1, 2]),
            candidate(Call::Push, &[1, 2]),
            candidate(Call::Ensure, &[2]),
            candidate(Call::Push, &[2]),
        ];
        assert_eq!(chosen(&all, 1), [0].into());
        // the second notices just what the first does, the last what the third does
        assert_eq!(chosen(&all, 3), [0, 2].into());
        assert_eq!(largest(&all, 1), (1, [0].into()));
    }
}
