//! The words of a command line: plain words, and `--seed N`.

use std::{env, process};

const DEFAULT_SEED: u64 = 1;

pub struct Arguments {
    pub words: Vec<String>,
    pub seed: u64,
}

/// Reads the command line; words that do not fit end the program with its usage.
pub fn arguments(usage: &str) -> Arguments {
    let mut words = Vec::new();
    let mut seed = DEFAULT_SEED;
    let mut rest = env::args().skip(1);
    while let Some(word) = rest.next() {
        if word == "--seed" {
            let number = rest.next().and_then(|digits| digits.parse().ok());
            seed = number.unwrap_or_else(|| refuse(usage));
        } else {
            words.push(word);
        }
    }
    Arguments { words, seed }
}

pub fn refuse(usage: &str) -> ! {
    eprintln!("usage: {usage} [--seed N]");
    process::exit(2);
}
