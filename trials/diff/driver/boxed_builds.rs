//! Boxed arrays: builds and conversions.
use crate::arrays::{array_of, list_of, Array, Global};
use crate::closures::{closure, sum_of_build, try_closure};
use crate::random::{all, mix, mix_option, Random};
use crate::sources::{Source, Trials};
use original::sequence::{FallibleGenericSequence, GenericSequence};
use original::{ArrayLength, LengthError};

fn sum_of_array<N: ArrayLength>(seed: u64, built: Result<Box<Array<N>>, LengthError>) -> u64 {
    match built {
        Ok(array) => all(seed, &array),
        Err(_) => mix(seed, 11),
    }
}

fn fill<N: ArrayLength>(seed: u64, left: usize) -> u64 {
    let mut source = Source::of(left);
    let sum = sum_of_array::<N>(seed, Array::<N>::try_boxed_from_iter(&mut source));
    let sum = mix_option(sum, source.next());
    mix(sum, source.asked)
}

/// The original's fallible fill of a box panics at a wrong length, and its inline one answers as
/// our boxed one does. So that one stands here.
fn fill_fallibly<N: ArrayLength>(seed: u64, left: usize, bad: u64) -> u64 {
    let mut trials = Trials::of(left, bad);
    let sum = match Array::<N>::try_from_fallible_iter(&mut trials) {
        Ok(Ok(array)) => all(seed, &array),
        Ok(Err(error)) => mix(seed, error),
        Err(_) => mix(seed, 12),
    };
    mix(sum, trials.asked)
}

fn generate<N: ArrayLength>(seed: u64, bad: u64, way: u64) -> u64 {
    let mut calls = 0u64;
    let built = if way == 2 {
        Ok(Box::<Array<N>>::generate(closure!(calls, |index: usize| index as u64)))
    } else {
        let call = try_closure!(calls, bad, |index: usize| index as u64);
        let built = <Box<Array<N>> as FallibleGenericSequence<u64>>::try_generate(call);
        built.expect("there is memory")
    };
    sum_of_build(seed, calls, built)
}

fn convert<N: ArrayLength>(seed: u64, way: u64, base: u64, count: usize) -> u64 {
    match way & 7 {
        0 => sum_of_array::<N>(seed, Array::<N>::try_from_vec(list_of(base, count))),
        1 => {
            let items = list_of(base, count).into_boxed_slice();
            sum_of_array::<N>(seed, Array::<N>::try_from_boxed_slice(items))
        }
        2 => all(seed, &Box::new(array_of::<N>(base)).into_vec()),
        3 => all(seed, &Box::new(array_of::<N>(base)).into_boxed_slice()),
        4 => all(seed, &Box::new(array_of::<N>(base))),
        5 => all(seed, &Array::<N>::default_boxed()),
        _ => all(seed, &<Box<Array<N>> as GenericSequence<u64>>::repeat(base)),
    }
}

pub fn boxed_builds_run<N: ArrayLength>(_: Global, seed: u64) -> u64 {
    let mut random = Random::of(seed);
    let near = random.near(N::USIZE);
    let bad = random.word() % 20;
    let base = random.word();
    match random.word() & 7 {
        0 => fill::<N>(seed, near),
        1 => fill_fallibly::<N>(seed, near, bad),
        way @ (2 | 3) => generate::<N>(seed, bad, way),
        _ => convert::<N>(seed, random.word(), base, near),
    }
}
