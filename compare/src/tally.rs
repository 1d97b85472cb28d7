//! The count of a comparison's inputs, and the first of them on which the two sides differ.

use std::collections::BTreeMap;
use std::fmt::Debug;

/// So many characters of an input or an answer are printed.
const SHOWN: usize = 1000;

pub struct Tally {
    name: String,
    inputs: u64,
    differing: u64,
    first: Option<String>,
    /// How often each answer was the expected one.
    answers: BTreeMap<u64, u64>,
    left_out: u64,
}

impl Tally {
    pub fn new(name: impl Into<String>) -> Self {
        Self {
            name: name.into(),
            inputs: 0,
            differing: 0,
            first: None,
            answers: BTreeMap::new(),
            left_out: 0,
        }
    }

    /// Counts an input that is not compared.
    pub fn leave_out(&mut self) {
        self.left_out += 1;
    }

    /// Counts an answer by its number, so that the report says which answers the inputs met.
    pub fn answer(&mut self, number: u64) {
        *self.answers.entry(number).or_default() += 1;
    }

    /// Adds up two counts of one comparison.
    pub fn and(mut self, other: Self) -> Self {
        self.inputs += other.inputs;
        self.differing += other.differing;
        self.first = self.first.or(other.first);
        self.left_out += other.left_out;
        for (number, count) in other.answers {
            *self.answers.entry(number).or_default() += count;
        }
        self
    }

    /// Counts one input; `input` describes it should the answers differ. True when they do not.
    pub fn same<T: PartialEq + Debug>(
        &mut self,
        ours: T,
        expected: T,
        input: impl FnOnce() -> String,
    ) -> bool {
        self.inputs += 1;
        let same = ours == expected;
        if !same {
            self.differing += 1;
            self.first.get_or_insert_with(|| {
                let ours = shortened(format!("{ours:?}"));
                let expected = shortened(format!("{expected:?}"));
                let input = shortened(input());
                format!("input {input}\n  ours     {ours}\n  expected {expected}")
            });
        }
        same
    }
}

fn shortened(text: String) -> String {
    match text.char_indices().nth(SHOWN) {
        Some((end, _)) => format!("{} .. ({} bytes)", &text[..end], text.len()),
        None => text,
    }
}

/// Prints the counts and the first differences; true when nothing differs.
pub fn report(tallies: &[Tally]) -> bool {
    for tally in tallies {
        println!(
            "{:<58} {:>11} inputs, {} differ",
            tally.name, tally.inputs, tally.differing
        );
        if tally.left_out > 0 {
            println!("  left out: {}", tally.left_out);
        }
        if !tally.answers.is_empty() {
            println!("  answers: {}", counted(&tally.answers));
        }
        if let Some(first) = &tally.first {
            println!("  first difference: {first}");
        }
    }
    let inputs: u64 = tallies.iter().map(|tally| tally.inputs).sum();
    let differing: u64 = tallies.iter().map(|tally| tally.differing).sum();
    println!("{:<58} {inputs:>11} inputs, {differing} differ", "total");
    differing == 0
}

fn counted(answers: &BTreeMap<u64, u64>) -> String {
    let each = answers.iter();
    let counts: Vec<String> = each
        .map(|(number, count)| format!("{number}: {count}"))
        .collect();
    counts.join(", ")
}

pub fn hex(bytes: &[u8]) -> String {
    let pairs: Vec<String> = bytes.iter().map(|byte| format!("{byte:02X}")).collect();
    format!("[{}]", pairs.join(" "))
}
