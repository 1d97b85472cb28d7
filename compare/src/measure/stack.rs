//! The stack that each call takes: on payloads whose values nest as deep as they may, one for each kind of nesting, and on a pool of many strings.

use crate::document::{Loan, Program, Tables, read};
use crate::inputs::loads::NATIVES;
use crate::ours;
use std::arch::asm;
use std::ffi::c_void;

/// What the memory of a measured stack holds where no call has written.
const UNTOUCHED: u64 = 0x5AC1_0ADE_D15C_0A7E;
const WORDS: usize = 1 << 17;
const DEPTH: usize = 32;

/// Prints the bytes of stack that each call takes on each payload.
pub fn stack() {
    println!(
        "{:<32} {:>10} {:>10} {:>10} {:>16}",
        "bytes of stack", "reading", "checking", "writing", "rlc2_house_check"
    );
    for (name, payload) in payloads() {
        let loan = Loan {
            rows: 5 * 1024,
            spans: 2 * 1024,
            starts: 1024,
            pool: 2 * 1024,
        };
        let reading = read(&payload, NATIVES, loan);
        let accepted = reading.answer.expect("a payload that reads");
        let program = Program {
            store: &payload,
            counts: accepted.counts,
            rows: &reading.tables.rows,
            spans: &reading.tables.spans,
            starts: &reading.tables.starts,
        };
        let reader = |call: port::ReadCall| {
            let Tables {
                mut rows,
                mut spans,
                mut starts,
                mut pool,
            } = Tables::zero(loan);
            taken(|| {
                call(
                    &payload,
                    NATIVES,
                    &mut rows,
                    &mut spans,
                    &mut starts,
                    &mut pool,
                    &mut [],
                )
            })
        };
        let mut pool = vec![0; loan.pool];
        let mut out = vec![0; payload.len()];
        let writing = taken(|| ours::serialize(&program, &mut pool, &mut out, &mut []));
        let own_tables = taken(|| port::rlc2_house_check(&payload, NATIVES));
        println!(
            "{name:<32} {:>10} {:>10} {writing:>10} {own_tables:>16}",
            reader(port::rlc2_deserialize),
            reader(port::rlc2_house_check_tables)
        );
    }
}

/// The payloads, each of one constant around the next; the pool has one string, which every name is.
fn payloads() -> Vec<(&'static str, Vec<u8>)> {
    let nested = |around: &[u8], behind: &[u8], levels: usize| {
        let mut payload = vec![1, 1, b'a', 0, 0, 1];
        (1..levels).for_each(|_| payload.extend(around));
        payload.extend([6, 0]);
        (1..levels).for_each(|_| payload.extend(behind));
        payload.push(0);
        payload
    };
    let strings = |count: u8| {
        let mut payload = vec![0x80 | (count & 0x7F), 2 + (count >> 7)];
        let indices = 0..0x100 + u16::from(count);
        indices
            .clone()
            .for_each(|i| payload.extend([2, b'A' + (i / 64) as u8, b' ' + (i % 64) as u8]));
        payload.extend([0, 0, 0x80 | (count & 0x7F), 2 + (count >> 7)]);
        indices.for_each(|i| payload.extend([6, 0x80 | (i % 128) as u8, (i / 128) as u8]));
        payload.push(0);
        payload
    };
    vec![
        ("arrays", nested(&[12, 1], &[], DEPTH)),
        ("maps", nested(&[15, 1, 4, 0], &[], DEPTH)),
        ("records", nested(&[16, 0, 1, 0], &[], DEPTH)),
        ("functions", nested(&[7, 0, 0, 0, 0, 1], &[], DEPTH)),
        (
            "captured values of closures",
            nested(&[18, 7, 0, 0, 0, 0, 0, 0, 1], &[], DEPTH),
        ),
        (
            "constants of closures",
            nested(&[18, 7, 0, 0, 0, 0, 1], &[0, 0], DEPTH / 2),
        ),
        ("256 strings", strings(0)),
        ("300 strings", strings(44)),
    ]
}

/// The bytes of a stack of its own that a call has written to which gives 0, or that it is not house-written, or too large for its tables.
fn taken(mut call: impl FnMut() -> u64) -> usize {
    let mut memory = vec![[UNTOUCHED; 2]; WORDS / 2];
    let mut given = None;
    let mut run = || given = Some(call());
    let mut boxed: &mut dyn FnMut() = &mut run;
    let top = memory.as_mut_ptr_range().end;
    // SAFETY: the memory is aligned, nothing else uses it, and `enter` takes what `boxed` is.
    unsafe {
        asm!(
            "mov r12, rsp",
            "mov rsp, {top}",
            "call {enter}",
            "mov rsp, r12",
            top = in(reg) top,
            enter = in(reg) enter as extern "C" fn(*mut c_void),
            in("rdi") (&raw mut boxed).cast::<c_void>(),
            out("r12") _,
            clobber_abi("C"),
        );
    }
    assert!(
        matches!(given, Some(0 | 19 | 21)),
        "a call that reads the payload: {given:?}"
    );
    let untouched = memory.iter().take_while(|&&words| words == [UNTOUCHED; 2]);
    8 * (WORDS - 2 * untouched.count())
}

extern "C" fn enter(call: *mut c_void) {
    // SAFETY: `taken` gives a pointer to this.
    let call = unsafe { &mut *call.cast::<&mut dyn FnMut()>() };
    call();
}
