//! Calls on several threads at once, which answer as calls on one.

use crate::random::Random;
use crate::report::Report;
use crate::stack::OWN_STACK;
use std::sync::Barrier;
use std::thread;

const THREADS: usize = 4;
const CASES_A_THREAD: usize = 2_000;
const CALLS_A_CASE: usize = 20;

/// Every thread makes its cases first, then all call together. A case passes if each of its calls is `right`.
pub fn all_right<Case>(
    report: &mut Report,
    make: impl Fn(&mut Random) -> Case + Sync,
    right: impl Fn(&Case) -> bool + Sync,
) {
    let start = Barrier::new(THREADS);
    let run = |seed| {
        let mut random = Random::new(seed);
        let cases: Vec<_> = (0..CASES_A_THREAD).map(|_| make(&mut random)).collect();
        let mut good = vec![true; CASES_A_THREAD];
        start.wait();
        for _ in 0..CALLS_A_CASE {
            for (good, case) in good.iter_mut().zip(&cases) {
                *good &= right(case);
            }
        }
        good
    };
    let run = &run;
    thread::scope(|scope| {
        let spawn = |seed| thread::Builder::new().stack_size(OWN_STACK).spawn_scoped(scope, move || run(seed));
        let threads: Vec<_> = (0..THREADS).map(|i| spawn(5 + i as u64).expect("a thread")).collect();
        for (number, thread) in threads.into_iter().enumerate() {
            for good in thread.join().expect("answers") {
                report.case(good, || format!("a call on thread {number} of {THREADS}"));
            }
        }
    });
}
