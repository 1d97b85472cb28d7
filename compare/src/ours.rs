//! The port's calls on lent tables, with every lent word as it stands after the call.

use crate::document::{Counts, Loan, Program, Reading, Tables, Write, answered};
use crate::layout;
use crate::random::Random;
use port::ReadCall;

/// What a read or check returns and leaves.
#[derive(Debug, PartialEq)]
pub struct Called {
    pub number: u64,
    pub answer: Vec<u64>,
    pub tables: Tables,
}

impl Called {
    /// What document 01 has for a reading and the answer lent.
    pub fn expected(reading: Reading, answer: &[u64]) -> Self {
        let fields = reading.fields();
        Self {
            number: fields[0],
            answer: answered(answer, &fields),
            tables: reading.tables,
        }
    }

    /// Bytes consumed, and the program of an accepted call whose fields were put into the answer.
    pub fn program(&self, payload: &[u8]) -> (u64, original::tree::Program) {
        let [
            _,
            consumed,
            rows,
            spans,
            starts,
            _,
            line_flag,
            offset,
            length,
        ] = self.answer[..9]
        else {
            unreachable!("nine words");
        };
        let program = Program {
            store: payload,
            counts: Counts {
                rows,
                spans,
                starts,
                line_flag,
                name: (offset, length),
            },
            rows: &self.tables.rows,
            spans: &self.tables.spans,
            starts: &self.tables.starts,
        };
        (consumed, layout::tree(&program))
    }
}

/// Tables in which some word stands everywhere.
pub fn lent(random: &mut Random, loan: Loan) -> Tables {
    let word = random.draw();
    Tables {
        rows: vec![word; loan.rows],
        spans: vec![word; loan.spans],
        starts: vec![word as u32; loan.starts],
        pool: vec![word; loan.pool],
    }
}

/// Reads or checks a payload.
pub fn read(
    call: ReadCall,
    payload: &[u8],
    names: &[u8],
    mut tables: Tables,
    answer: &[u64],
) -> Called {
    let mut answer = answer.to_vec();
    let number = call(
        payload,
        names,
        &mut tables.rows,
        &mut tables.spans,
        &mut tables.starts,
        &mut tables.pool,
        &mut answer,
    );
    Called {
        number,
        answer,
        tables,
    }
}

/// What a write returns and leaves.
#[derive(Debug, PartialEq)]
pub struct Written {
    pub number: u64,
    pub answer: Vec<u64>,
    pub pool: Vec<u64>,
    pub out: Vec<u8>,
}

impl Written {
    /// What document 01 has for a write, and the answer and output lent.
    pub fn expected(write: Write, answer: &[u64], out: &[u8]) -> Self {
        let fields = write.fields();
        let mut left = out.to_vec();
        left[..write.bytes.len()].copy_from_slice(&write.bytes);
        Self {
            number: fields[0],
            answer: answered(answer, &fields),
            pool: write.pool,
            out: left,
        }
    }
}

pub fn write(
    random: &mut Random,
    program: &Program,
    pool_words: usize,
    out: &[u8],
    answer: &[u64],
) -> Written {
    let mut answer = answer.to_vec();
    let mut pool = vec![random.draw(); pool_words];
    let mut out = out.to_vec();
    let number = serialize(program, &mut pool, &mut out, &mut answer);
    Written {
        number,
        answer,
        pool,
        out,
    }
}

/// The write of a program, with what is lent for it.
pub fn serialize(program: &Program, pool: &mut [u64], out: &mut [u8], answer: &mut [u64]) -> u64 {
    port::rlc2_serialize(
        program.store,
        &program.counts.words(),
        program.rows,
        program.spans,
        program.starts,
        pool,
        out,
        answer,
    )
}
