//! Reading and writing many varints into room made before.

use super::measure;
use crate::inputs::numbers::of_width;
use crate::random::Random;
use std::hint::black_box;

const COUNT: usize = 10_000;

pub fn reading(seed: u64) {
    for (kind, numbers) in lists(seed) {
        let bytes = written(&numbers);
        let mut ours = vec![0; COUNT];
        let mut original = Vec::with_capacity(COUNT);
        original::read_uvarints(&bytes, &mut original);
        assert_eq!(port::rlc2_read_all(&bytes, &mut ours), COUNT);
        assert_eq!(ours, original);
        measure(
            &format!("read {COUNT} varints, {kind}"),
            || {
                black_box(port::rlc2_read_all(black_box(&bytes), &mut ours));
            },
            || {
                original.clear();
                original::read_uvarints(black_box(&bytes), &mut original);
            },
        );
    }
}

pub fn writing(seed: u64) {
    for (kind, numbers) in lists(seed) {
        let mut original = Vec::with_capacity(10 * COUNT);
        original::write_uvarints(&numbers, &mut original);
        let mut ours = vec![0; original.len()];
        assert_eq!(port::rlc2_write_all(&numbers, &mut ours), original.len());
        assert_eq!(ours, original);
        measure(
            &format!("write {COUNT} varints, {kind}"),
            || {
                black_box(port::rlc2_write_all(black_box(&numbers), &mut ours));
            },
            || {
                original.clear();
                original::write_uvarints(black_box(&numbers), &mut original);
            },
        );
    }
}

fn lists(seed: u64) -> Vec<(String, Vec<u64>)> {
    let mut random = Random::new(seed);
    let mixed = (0..COUNT).map(|_| random.number()).collect();
    let mut lists = vec![("mixed lengths".to_string(), mixed)];
    for width in [1, 2, 5, 10] {
        lists.push((
            format!("{width} bytes each"),
            of_width(&mut random, width, COUNT),
        ));
    }
    lists
}

fn written(numbers: &[u64]) -> Vec<u8> {
    let mut bytes = Vec::new();
    original::write_uvarints(numbers, &mut bytes);
    bytes
}
