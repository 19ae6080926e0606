//! Random plans through the library alone. Of such a run a tool can count the library's instructions; the sum tells whether two
//! libraries gave the same answers.
use crate::random_plans::{self, Rng};
use crate::{compare, library};
use sort_placement::plan;
use std::hash::{DefaultHasher, Hash, Hasher};

pub fn run(plans: u64, seed: u64, aggregates: bool) {
    let mut sum = DefaultHasher::new();
    let mut answers = 0;
    for i in 0..plans {
        let mut rng = Rng::new(seed, i);
        let tree = random_plans::plan_with(&mut rng, aggregates);
        let file = plan::write(&tree);
        for (call, room) in compare::requests(&mut rng, &tree, &file) {
            if let Some(answer) = library::answer(call, &file, room) {
                let answer = answer.expect("guards untouched");
                (answer.number, answer.bytes).hash(&mut sum);
                answers += 1;
            }
        }
    }
    println!("{plans} plans, {answers} answers, sum {:016x}", sum.finish());
}
