//! Comparisons on two threads.

use crate::tally::Tally;
use std::thread;

/// What each of two threads counts, added up; each is told which of the two it is.
pub fn on_two_threads(run: impl Fn(u64) -> Vec<Tally> + Sync) -> Vec<Tally> {
    let (first, second) = thread::scope(|scope| {
        let other = scope.spawn(|| run(1));
        (run(0), other.join().expect("a thread that ends"))
    });
    first
        .into_iter()
        .zip(second)
        .map(|(one, other)| one.and(other))
        .collect()
}
