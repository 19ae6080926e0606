//! Requests on random plans of a block or two, from which replay's cases are chosen.
use crate::cases::Request;
use crate::random_plans::{self, Rng};
use sort_placement::exports::{ALL, Call};
use sort_placement::plan::{self, kind::SORT};

/// All calls that are replayed, on one plan. A setting is any byte; the output is often just long enough, or a byte too short.
fn on_a_plan(seed: u64, i: u64) -> Vec<Request> {
    let mut rng = Rng::new(seed, i);
    let tree = random_plans::small_plan(&mut rng);
    let file = plan::write(&tree);
    let sorts: Vec<usize> = (0..tree.count()).filter(|i| tree.at(*i).is_some_and(|n| n.record.kind == SORT)).collect();
    let node = if sorts.is_empty() || rng.one_in(8) { rng.below(tree.count() + 2) } else { rng.pick(&sorts) };
    let settings = std::array::from_fn(|_| rng.pick(&[0, 0, 0, 1, 2, 255]));
    let request = |call: Call| {
        let call = match call {
            Call::Preserve(_) => Call::Preserve(settings),
            Call::Partial(_) => Call::Partial(node as u32),
            other => other,
        };
        let room = rng.pick(&[512, 512, 1024, 1024, 1024, 1024, 1024, 1536, 1023, 511, 0]);
        Request { call, room: if call == Call::Check { 1 } else { room }, file: file.clone() }
    };
    ALL.into_iter().filter(|c| *c != Call::Copy).map(request).collect()
}

pub fn requests(plans: u64, seed: u64) -> impl Iterator<Item = Request> {
    (0..plans).flat_map(move |i| on_a_plan(seed, i))
}
