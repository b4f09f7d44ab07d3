//! Arrays made of the items of others.
use crate::arrays::{array_of, Array};
use crate::random::{all, mix, put, Random};
use original::sequence::{Concat, Lengthen, Remove, Shorten, Split};
use original::ArrayLength;

/// One of the four calls at an end: `L` is one longer than `N`.
pub fn ends_run<N: ArrayLength, L: ArrayLength>(seed: u64) -> u64
where
    Array<N>: Lengthen<u64, Longer = Array<L>>,
    Array<L>: Shorten<u64, Shorter = Array<N>>,
{
    let mut random = Random::of(seed);
    let base = random.word();
    let item = random.word();
    match random.word() & 3 {
        0 => all(seed, &array_of::<N>(base).append(item)),
        1 => all(seed, &array_of::<N>(base).prepend(item)),
        2 => {
            let (shorter, item) = array_of::<L>(base).pop_back();
            mix(all(seed, &shorter), item)
        }
        _ => {
            let (item, shorter) = array_of::<L>(base).pop_front();
            mix(all(seed, &shorter), item)
        }
    }
}

/// An item taken from a place: `L` is one longer than `N`.
pub fn remove_run<N: ArrayLength, L: ArrayLength>(seed: u64) -> u64
where
    Array<L>: Remove<u64, L, Output = Array<N>>,
{
    let mut random = Random::of(seed);
    let array: Array<L> = array_of(random.word());
    let at = (random.word() % 17) as usize;
    if at >= L::USIZE {
        return seed;
    }
    // The place is below the length.
    let (item, shorter) = match random.word() & 3 {
        0 => array.remove(at),
        1 => array.swap_remove(at),
        2 => unsafe { array.remove_unchecked(at) },
        _ => unsafe { array.swap_remove_unchecked(at) },
    };
    mix(all(seed, &shorter), item)
}

/// `N` cut in `K` and `M`, and these joined.
pub fn join_run<N: ArrayLength, K: ArrayLength, M: ArrayLength>(seed: u64) -> u64
where
    Array<K>: Concat<u64, M, Rest = Array<M>, Output = Array<N>>,
    Array<N>: Split<u64, K, First = Array<K>, Second = Array<M>>,
    for<'a> &'a Array<N>: Split<u64, K, First = &'a Array<K>, Second = &'a Array<M>>,
    for<'a> &'a mut Array<N>: Split<u64, K, First = &'a mut Array<K>, Second = &'a mut Array<M>>,
{
    let mut random = Random::of(seed);
    let base = random.word();
    let at = random.count();
    let other = random.count();
    let mut array: Array<N> = array_of(base);
    match random.word() & 3 {
        0 => all(
            seed,
            &array_of::<K>(base).concat(array_of::<M>(other as u64)),
        ),
        1 => {
            let (first, second) = array.split();
            all(all(seed, &first), &second)
        }
        2 => {
            let (first, second) = (&array).split();
            all(all(seed, first), second)
        }
        _ => {
            let (first, second) = (&mut array).split();
            put(first, at, 100);
            put(second, other, 200);
            let sum = all(all(seed, first), second);
            all(sum, &array)
        }
    }
}

/// An array cut in two through a reference to it.
pub fn halves_run<N: ArrayLength, K: ArrayLength, M: ArrayLength>(seed: u64) -> u64
where
    for<'a> &'a Array<N>: Split<u64, K, First = &'a Array<K>, Second = &'a Array<M>>,
{
    let array: Array<N> = array_of(seed);
    let (first, second) = (&array).split();
    all(all(seed, first), second)
}
