//! Bytes as hex text.
use crate::arrays::Global;
use crate::random::{all_bytes, mix, small_number, Random};
use original::sequence::GenericSequence;
use original::typenum::Sum;
use original::{ArrayLength, GenericArray};
use std::ops::Add;

fn bytes_of<N: ArrayLength>(base: u64) -> GenericArray<u8, N> {
    GenericArray::generate(|index| {
        let high = small_number(base, index).wrapping_mul(32);
        (high.wrapping_add(small_number(base >> 5, index)) & 255) as u8
    })
}

/// How many digits at most: often near all of them, or near the most that ours writes at once.
fn limit_of(random: &mut Random, way: u64, len: usize) -> Option<usize> {
    let near = (random.word() % 8) as usize;
    let digits = 2 * len;
    match way & 7 {
        0 | 1 => None,
        2 => Some(digits.saturating_sub(near)),
        3 => Some(digits + near),
        4 => Some(2044 + near),
        _ => Some((random.word() % 5000) as usize),
    }
}

pub fn hex_run<N: ArrayLength + Add<N>>(_: Global, seed: u64) -> u64
where
    Sum<N, N>: ArrayLength,
{
    let mut random = Random::of(seed);
    let array: GenericArray<u8, N> = bytes_of(random.word());
    let way = random.word();
    let limit = limit_of(&mut random, way, N::USIZE);
    let text = match (way & 8 == 0, limit) {
        (true, None) => format!("{array:x}"),
        (true, Some(limit)) => format!("{array:.limit$x}"),
        (false, None) => format!("{array:X}"),
        (false, Some(limit)) => format!("{array:.limit$X}"),
    };
    all_bytes(mix(seed, 1), text.as_bytes())
}
