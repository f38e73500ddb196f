//! A stand-in for `rayon` 1, for tests where no registry is reached: the calls that this repository uses, by a thread
//! of the system for each call of `join`. The names, the signatures and what each call returns are those of the crate.
#![forbid(unsafe_code)]

use std::panic::resume_unwind;
use std::thread;

/// How many threads work at once: as many on each machine, so that tests split their work alike on all of them.
pub fn current_num_threads() -> usize {
    4
}

/// Runs both, perhaps at once, and returns what they return. A panic of one is a panic of this call.
pub fn join<A, B, RA, RB>(oper_a: A, oper_b: B) -> (RA, RB)
where
    A: FnOnce() -> RA + Send,
    B: FnOnce() -> RB + Send,
    RA: Send,
    RB: Send,
{
    thread::scope(|scope| {
        let second = scope.spawn(oper_b);
        let first = oper_a();
        (first, second.join().unwrap_or_else(|panic| resume_unwind(panic)))
    })
}
