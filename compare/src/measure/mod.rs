//! The measurements, a module each: both sides on the same inputs, in turn, in one run.

mod lines;
mod loads;
mod payloads;
mod stack;
mod utf8;
mod varints;
mod writes;

pub use payloads::{check, read};
pub use stack::stack;
use std::hint::black_box;
use std::time::{Duration, Instant};
pub use writes::write;

// The least of many short rounds is what a call takes when nothing else runs: a busy machine only adds to it.
const ROUNDS: usize = 151;
const SAMPLE: Duration = Duration::from_micros(500);

/// The layers under the payload: varints, UTF-8 and lines.
pub fn leaves(seed: u64) {
    println!(
        "{:<44} {:>12} {:>12} {:>9}",
        "", "ours, ns", "Rust, ns", "ours/Rust"
    );
    varints::reading(seed);
    varints::writing(seed);
    utf8::testing(seed);
    lines::indexing(seed);
    lines::finding(seed);
}

/// Prints the least time of a call of each side over all rounds, and their ratio.
fn measure(name: &str, mut ours: impl FnMut(), mut original: impl FnMut()) {
    let our_calls = calls_in_sample(&mut ours);
    let original_calls = calls_in_sample(&mut original);
    let (mut our_least, mut original_least) = (f64::INFINITY, f64::INFINITY);
    for _ in 0..ROUNDS {
        our_least = our_least.min(nanoseconds(our_calls, &mut ours));
        original_least = original_least.min(nanoseconds(original_calls, &mut original));
    }
    println!(
        "{name:<44} {our_least:>12.1} {original_least:>12.1} {:>9.2}",
        our_least / original_least
    );
}

/// How many calls fill a sample, found by doubling; this warms the caches too.
fn calls_in_sample(call: &mut impl FnMut()) -> u32 {
    let mut calls = 1;
    while time(calls, call) < SAMPLE {
        calls *= 2;
    }
    calls
}

fn nanoseconds(calls: u32, call: &mut impl FnMut()) -> f64 {
    time(calls, call).as_secs_f64() * 1e9 / f64::from(calls)
}

fn time(calls: u32, call: &mut impl FnMut()) -> Duration {
    let begin = Instant::now();
    for _ in 0..calls {
        call();
    }
    begin.elapsed()
}

/// Rounds of long calls: at least the first number, at most the second, and no more once they took so long.
const LONG_ROUNDS: (usize, usize) = (2, 25);
const LONG_TIME: Duration = Duration::from_secs(4);

/// The least seconds of a call of each side, in turn; what a call gives is dropped outside of its time.
fn in_turn<T, U>(mut ours: impl FnMut() -> T, mut original: impl FnMut() -> U) -> (f64, f64) {
    let begin = Instant::now();
    let (mut our_least, mut original_least) = (f64::INFINITY, f64::INFINITY);
    for round in 0..LONG_ROUNDS.1 {
        if round >= LONG_ROUNDS.0 && begin.elapsed() > LONG_TIME {
            break;
        }
        our_least = our_least.min(seconds(&mut ours));
        original_least = original_least.min(seconds(&mut original));
    }
    (our_least, original_least)
}

fn seconds<T>(call: &mut impl FnMut() -> T) -> f64 {
    let begin = thread_time();
    let given = black_box(call());
    let time = thread_time() - begin;
    drop(given);
    time.as_secs_f64()
}

/// The processor time that this thread has taken: a long call is often interrupted on a busy machine, which this leaves out.
fn thread_time() -> Duration {
    let mut time = [0; 2];
    let refused = unsafe { clock_gettime(THREAD_CPU_TIME, &mut time) };
    assert_eq!(refused, 0, "a clock of the thread's time");
    let [seconds, nanoseconds] = time;
    Duration::new(seconds as u64, nanoseconds as u32)
}

const THREAD_CPU_TIME: i32 = 3;

unsafe extern "C" {
    /// Of the C library on 64-bit Linux: seconds and nanoseconds.
    fn clock_gettime(clock: i32, time: *mut [i64; 2]) -> i32;
}
