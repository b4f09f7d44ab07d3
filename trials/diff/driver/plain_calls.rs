//! What our plain calls of closures stand for: the original's trait, over arrays and references.
use crate::arrays::{array_of, Array, Length};
use crate::closures::{closure, sum_of_build, try_closure};
use crate::random::Random;
use original::functional::FunctionalSequence;

pub fn plain_calls_run<N: Length>(seed: u64) -> u64 {
    let mut random = Random::of(seed);
    let left: Array<N> = array_of(random.word());
    let right: Array<N> = array_of(random.word());
    let bad = random.word() & 15;
    let mut calls = seed;
    let built = match random.word() % 12 {
        0 | 1 => Ok(left.map(closure!(calls, |item: u64| item))),
        2 | 3 => Ok((&left).map(closure!(calls, |item: &u64| *item))),
        4 | 5 => left.try_map(try_closure!(calls, bad, |item: u64| item)),
        6 | 7 => (&left).try_map(try_closure!(calls, bad, |item: &u64| *item)),
        8 | 9 => Ok(left.zip(right, closure!(calls, |left: u64, right: u64| left, right))),
        _ => {
            let call = closure!(calls, |left: &u64, right: &u64| *left, *right);
            Ok((&left).zip(&right, call))
        }
    };
    sum_of_build(seed, calls, built)
}
