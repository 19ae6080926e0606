//! The most bytes of stack that the calls take on random plans, by the number of their nodes.
use crate::random_plans::{self, Rng};
use sort_placement::exports::{ALL, Call};
use sort_placement::stack::Meter;
use sort_placement::{MOST_STACK, STACK_TO_20_NODES, plan};

const NODES: [usize; 7] = [1, 7, 14, 20, 42, 63, 126];

/// Whether all calls stay within what the package says.
pub fn run(plans: u64, seed: u64) -> bool {
    let calls: Vec<Call> = ALL.into_iter().chain([Call::Preserve([1; 3])]).filter(|c| c.is_present()).collect();
    let (mut meter, mut most) = (Meter::default(), vec![[0; NODES.len()]; calls.len()]);
    for i in 0..plans {
        let root = random_plans::plan(&mut Rng::new(seed, i));
        let (file, size) = (plan::write(&root), NODES.iter().position(|n| root.count() <= *n));
        for (call, most) in calls.iter().zip(&mut most) {
            let most = &mut most[size.expect("a plan of up to 126 nodes")];
            *most = meter.of(*call, &file).max(*most);
        }
    }
    println!(
        "most bytes of stack, {plans} plans of seed {seed}\n{:24}{}",
        "up to .. nodes",
        NODES.map(|n| format!("{n:>8}")).concat()
    );
    for (call, most) in calls.iter().zip(&most) {
        println!("{:24}{}", format!("{call:?}"), most.map(|n| format!("{n:>8}")).concat());
    }
    let within = |most: &[usize; NODES.len()]| {
        NODES.iter().zip(most).all(|(n, used)| *used <= if *n <= 20 { STACK_TO_20_NODES } else { MOST_STACK })
    };
    most.iter().all(within)
}
