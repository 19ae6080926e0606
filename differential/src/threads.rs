//! The same requests from several threads at once: each answer is the one that a thread alone gets.
use crate::library;
use crate::random_plans::{self, Rng};
use sort_placement::exports::{ALL, Call};
use sort_placement::plan::{self, BLOCK, MOST_BLOCKS};

const ROOM: usize = MOST_BLOCKS * BLOCK;

fn answer(call: Call, file: &[u8]) -> (u32, Vec<u8>) {
    let room = if call == Call::Check { 1 } else { ROOM };
    let got = library::answer(call, file, room).expect("a call that is present").expect("guards untouched");
    (got.number, got.bytes)
}

/// Whether all threads agree.
pub fn run(plans: u64, seed: u64, threads: u64) -> bool {
    let calls: Vec<Call> = ALL.into_iter().filter(|c| c.is_present()).collect();
    let files: Vec<Vec<u8>> = (0..plans).map(|i| plan::write(&random_plans::plan(&mut Rng::new(seed, i)))).collect();
    let requests: Vec<(Call, &[u8])> = files.iter().flat_map(|f| calls.iter().map(move |c| (*c, f.as_slice()))).collect();
    let alone: Vec<_> = requests.iter().map(|(call, file)| answer(*call, file)).collect();
    let agreed = std::thread::scope(|scope| {
        let run = |t: usize| {
            let (requests, alone) = (&requests, &alone);
            move || {
                // each thread begins elsewhere
                let from = t * requests.len() / threads as usize;
                (0..requests.len()).map(|i| (from + i) % requests.len()).all(|i| answer(requests[i].0, requests[i].1) == alone[i])
            }
        };
        let running: Vec<_> = (0..threads as usize).map(|t| scope.spawn(run(t))).collect();
        running.into_iter().all(|t| t.join().unwrap_or(false))
    });
    println!(
        "{} requests in each of {threads} threads at once: {}",
        requests.len(),
        if agreed { "all the same" } else { "they differ" }
    );
    agreed
}
