//! The test for UTF-8 on valid texts of each script, short and long.

use super::measure;
use crate::inputs::texts::{Script, text};
use crate::random::Random;
use std::hint::black_box;
use std::str::from_utf8;

pub fn testing(seed: u64) {
    let mut random = Random::new(seed);
    for script in Script::ALL {
        for length in [8, 20, 32, 100, 256, 4096, 65536] {
            let text = text(&mut random, script, length);
            let bytes = text.as_bytes();
            assert_eq!(port::rlc2_is_utf8(bytes), 1);
            measure(
                &format!("UTF-8 test, {script:?}, {length} bytes"),
                || {
                    black_box(port::rlc2_is_utf8(black_box(bytes)));
                },
                || {
                    black_box(from_utf8(black_box(bytes)).is_ok());
                },
            );
        }
    }
}
