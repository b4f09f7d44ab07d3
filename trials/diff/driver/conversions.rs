//! Inline arrays from and to vectors and boxed slices.
use crate::arrays::{array_of, list_of, Array, Global};
use crate::random::{all, mix, Random};
use original::{ArrayLength, LengthError};

fn sum_of_array<N: ArrayLength>(seed: u64, built: Result<Array<N>, LengthError>) -> u64 {
    match built {
        Ok(array) => all(seed, &array),
        Err(_) => mix(seed, 11),
    }
}

pub fn conversions_run<N: ArrayLength>(_: Global, seed: u64) -> u64 {
    let mut random = Random::of(seed);
    let base = random.word();
    let count = random.near(N::USIZE);
    match random.word() & 7 {
        0 | 4 => sum_of_array::<N>(seed, list_of(base, count).try_into()),
        2 => all(seed, &Vec::from(array_of::<N>(base))),
        3 => all(seed, &Box::<[u64]>::from(array_of::<N>(base))),
        6 => all(seed, &Array::<N>::default()),
        7 => all(seed, &array_of::<N>(base).clone()),
        _ => sum_of_array::<N>(seed, list_of(base, count).into_boxed_slice().try_into()),
    }
}
