//! Reading and checking the loads. Lent tables hold what the round before left there: they are not cleared before a call.

use super::in_turn;
use super::loads::{Load, growing, natives_load, short_strings_load, strings_load};
use original::native::Module;
use original::{Chunk, LineIndex};
use port::ReadCall;

/// The Rust reads; what it made is dropped outside of the measured time.
pub fn read(seed: u64) {
    run(seed, port::rlc2_deserialize, rust_read);
}

/// The Rust reads, writes, and compares the writing with the payload; what it made is dropped as above.
pub fn check(seed: u64) {
    run(seed, port::rlc2_house_check_tables, |payload, natives| {
        let (chunk, lines) = rust_read(payload, natives);
        let written = original::serialize_payload(&chunk, lines.as_ref());
        assert!(written == payload);
        (chunk, lines, written)
    });
}

fn rust_read(payload: &[u8], natives: &Module) -> (Chunk, Option<LineIndex>) {
    original::deserialize_payload(payload, natives).expect("a payload that reads")
}

fn run<T>(seed: u64, ours: ReadCall, original: impl Fn(&[u8], &Module) -> T) {
    println!(
        "{:<40} {:>9} {:>9} {:>9} {:>13}",
        "", "ours, ms", "Rust, ms", "ours/Rust", "ours, ns/byte"
    );
    measure(&strings_load(seed), ours, &original);
    measure(&short_strings_load(seed), ours, &original);
    measure(&natives_load(seed), ours, &original);
    let per_byte: Vec<f64> = growing(seed)
        .map(|load| measure(&load, ours, &original))
        .collect();
    let growth = per_byte[per_byte.len() - 1] / per_byte[0];
    println!("time per byte, largest over smallest script: {growth:.2}");
}

/// Prints the times of a load; the nanoseconds that ours takes for a byte.
fn measure<T>(load: &Load, ours: ReadCall, original: &impl Fn(&[u8], &Module) -> T) -> f64 {
    let natives = load.natives();
    let mut lent = load.tables.clone();
    let mut answer = [0; 9];
    let (our_time, rust_time) = in_turn(
        || {
            let number = ours(
                &load.payload,
                &load.names,
                &mut lent.rows,
                &mut lent.spans,
                &mut lent.starts,
                &mut lent.pool,
                &mut answer,
            );
            assert_eq!(number, 0);
        },
        || original(&load.payload, &natives),
    );
    assert!(lent == load.tables);
    let per_byte = our_time * 1e9 / load.payload.len() as f64;
    println!(
        "{:<40} {:>9.2} {:>9.2} {:>9.2} {:>13.2}",
        load.name,
        our_time * 1e3,
        rust_time * 1e3,
        our_time / rust_time,
        per_byte
    );
    per_byte
}
