//! How much of the stack a call takes: measured in a thread whose stack is memory of our own, painted before.
use crate::exports::Call;
#[cfg(has_dry_run)]
use crate::{DRY_RUN_BYTES, DRY_RUN_STACK, exports::dry_run};
use crate::{MOST_BYTES, MOST_STACK};
use std::ffi::{c_int, c_void};

const PAINT: u128 = 0xA5A5_A5A5_A5A5_A5A5_A5A5_A5A5_A5A5_A5A5;

/// As long as the system's own, or longer.
#[repr(C, align(16))]
struct Attributes([u8; 256]);

unsafe extern "C" {
    fn pthread_attr_init(attributes: *mut Attributes) -> c_int;
    fn pthread_attr_setstack(attributes: *mut Attributes, memory: *mut c_void, length: usize) -> c_int;
    fn pthread_attr_destroy(attributes: *mut Attributes) -> c_int;
    fn pthread_create(
        thread: *mut usize,
        attributes: *const Attributes,
        start: extern "C" fn(*mut c_void) -> *mut c_void,
        argument: *mut c_void,
    ) -> c_int;
    fn pthread_join(thread: usize, answer: *mut *mut c_void) -> c_int;
}

/// What a thread does.
type Work<'a> = &'a mut dyn FnMut();

extern "C" fn start(work: *mut c_void) -> *mut c_void {
    // SAFETY: `used` lends it, and waits for the thread
    let work = unsafe { &mut *work.cast::<Work>() };
    work();
    std::ptr::null_mut()
}

/// Memory for the threads' stacks, to be used again and again.
pub struct Meter {
    /// in words of 16 bytes
    memory: Vec<u128>,
    /// What a thread takes that calls nothing.
    own: usize,
    /// How many words from the top on may have lost their paint.
    worn: usize,
}

/// For the calls that take a plan and an output.
impl Default for Meter {
    fn default() -> Meter {
        Meter::with_room(MOST_STACK)
    }
}

impl Meter {
    /// For calls that take so many bytes, and half as many again.
    fn with_room(bytes: usize) -> Meter {
        let words = (bytes + bytes / 2) / 16;
        let mut meter = Meter { memory: vec![0; words], own: 0, worn: words };
        meter.own = meter.used(&mut || {});
        meter
    }

    /// For dry runs.
    #[cfg(has_dry_run)]
    pub fn for_dry_runs() -> Meter {
        Meter::with_room(DRY_RUN_STACK)
    }

    /// The bytes of stack that a call on the plan took, beside those of the thread itself.
    pub fn of(&mut self, call: Call, plan: &[u8]) -> usize {
        let mut out = vec![0; MOST_BYTES];
        let mut work = || {
            call.run(plan, &mut out);
        };
        self.used(&mut work) - self.own
    }

    /// The same of a dry run.
    #[cfg(has_dry_run)]
    pub fn of_dry_run(&mut self, plan: &[u8], rows: &[u8], choices: &[u8]) -> usize {
        let mut out = vec![0; DRY_RUN_BYTES];
        let mut work = || {
            dry_run(plan, rows, choices, &mut out);
        };
        self.used(&mut work) - self.own
    }

    fn used(&mut self, mut work: Work) -> usize {
        let (mut attributes, mut thread, words) = (Attributes([0; 256]), 0, self.memory.len());
        self.memory[words - self.worn..].fill(PAINT);
        // SAFETY: the memory is nobody else's until the thread has ended; so is the work
        unsafe {
            assert_eq!(pthread_attr_init(&mut attributes), 0);
            assert_eq!(pthread_attr_setstack(&mut attributes, self.memory.as_mut_ptr().cast(), 16 * words), 0);
            assert_eq!(pthread_create(&mut thread, &attributes, start, (&raw mut work).cast()), 0);
            assert_eq!(pthread_join(thread, std::ptr::null_mut()), 0);
            pthread_attr_destroy(&mut attributes);
        }
        self.worn = words - self.memory.iter().take_while(|w| **w == PAINT).count();
        16 * self.worn
    }
}

#[cfg(test)]
mod tests {
    use super::*;
    use crate::exports::ALL;
    use crate::plan::{BLOCK, repair_sum};
    use crate::random::Rng;
    use crate::{STACK_TO_20_NODES, random_plans, text};

    /// Every call, with the settings on too.
    fn calls() -> impl Iterator<Item = Call> {
        ALL.into_iter().chain([Call::Preserve([1; 3])])
    }

    fn room(nodes: usize) -> usize {
        if nodes <= 20 { STACK_TO_20_NODES } else { MOST_STACK }
    }

    /// A file's header chooses the arenas to start with: whatever it says, three blocks take no more than a plan of 20 nodes does.
    #[test]
    fn damaged_files_fit_the_stack_of_their_length() {
        let mut meter = Meter::default();
        for blocks in [1, 2, 3, 18] {
            let room = if blocks <= 3 { STACK_TO_20_NODES } else { MOST_STACK };
            for (count, fill) in [(255, 0), (0, 0), (8, 1), (7, 255)] {
                let mut file = vec![fill; blocks * BLOCK];
                for block in file.chunks_mut(BLOCK) {
                    block[4] = count;
                    repair_sum(block);
                }
                for call in calls() {
                    let used = meter.of(call, &file);
                    assert!(used <= room, "{used} bytes, {call:?}: {blocks} blocks that say {count} records");
                }
            }
        }
    }

    #[test]
    fn random_plans_fit_their_stack() {
        let (mut meter, mut small) = (Meter::default(), 0);
        for i in 0..600 {
            let plan = random_plans::plan(&mut Rng::new(17, i));
            small += usize::from(plan.count() <= 20);
            for call in calls() {
                let used = meter.of(call, &plan.write());
                assert!(used <= room(plan.count()), "{used} bytes, {call:?}:\n{}", text::show(&plan));
            }
        }
        assert!((200..599).contains(&small));
    }

    /// Plans that a search for the most slots, or for the most stack, found: six of 20 nodes, one of 126.
    #[test]
    fn the_worst_plans_fit_their_stack() {
        let mut meter = Meter::default();
        let mut most = [0, 0];
        for plan in include_str!("../tests/deep_plans.txt").split("\n\n") {
            let plan = text::parse(plan).expect("a plan");
            for call in calls() {
                let used = meter.of(call, &plan.write());
                assert!(used <= room(plan.count()), "{used} bytes, {call:?}:\n{}", text::show(&plan));
                let most = &mut most[usize::from(plan.count() > 20)];
                *most = used.max(*most);
            }
        }
        // the figures say no more than is so
        assert!(most[0] > STACK_TO_20_NODES * 9 / 10 && most[1] > MOST_STACK * 8 / 10, "{most:?}");
    }

    /// Dry runs of random plans and rows; `--nocapture` shows the most that was seen.
    #[cfg(has_dry_run)]
    #[test]
    fn dry_runs_fit_their_stack() {
        let (mut meter, mut most) = (Meter::for_dry_runs(), 0);
        for i in 0..300 {
            let mut rng = Rng::new(18, i);
            let plan = random_plans::plan(&mut rng);
            let (rows, choices) = (crate::random_rows::rows(&mut rng, &plan), [rng.next() as u8, rng.next() as u8]);
            let used = meter.of_dry_run(&plan.write(), &rows.write(), &choices);
            assert!(used <= DRY_RUN_STACK, "{used} bytes:\n{}", text::show(&plan));
            most = used.max(most);
        }
        println!("a dry run took at most {most} bytes of the stack");
    }
}
