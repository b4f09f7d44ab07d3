//! Calls of a closure at all items, of arrays and of references to them.
use crate::items::{mix, Word};
use crate::library::*;

pub fn map<T: Word, N: ArrayLength<T>>(array: GenericArray<T, N>) -> GenericArray<T, N> {
    array.map(|item: T| T::make(item.word().rotate_left(3), 1))
}

pub fn map_view<T: Word, N: ArrayLength<T>>(array: &GenericArray<T, N>) -> GenericArray<T, N> {
    array.map(|item: &T| T::make(item.word().rotate_left(3), 1))
}

pub fn try_map<T: Word, N: ArrayLength<T>>(
    array: GenericArray<T, N>,
    seed: u64,
) -> Result<GenericArray<T, N>, u64> {
    let bad = mix(seed, 1);
    array.try_map(|item: T| {
        let word = item.word();
        if word == bad { Err(word) } else { Ok(T::make(word, 1)) }
    })
}

pub fn zip<T: Word, N: ArrayLength<T>>(
    left: GenericArray<T, N>,
    right: GenericArray<T, N>,
) -> GenericArray<T, N> {
    left.zip(right, |left: T, right: T| T::make(left.word() ^ right.word(), 2))
}

pub fn zip_view<T: Word, N: ArrayLength<T>>(
    left: &GenericArray<T, N>,
    right: &GenericArray<T, N>,
) -> GenericArray<T, N> {
    left.zip(right, |left: &T, right: &T| T::make(left.word() ^ right.word(), 2))
}

pub fn inverted_zip<T: Word, N: ArrayLength<T>>(
    second: &GenericArray<T, N>,
    first: GenericArray<T, N>,
) -> GenericArray<T, N> {
    second.inverted_zip(first, |left: T, right: &T| T::make(left.word() ^ right.word(), 2))
}

pub fn inverted_zip2<T: Word, N: ArrayLength<T>>(
    second: GenericArray<T, N>,
    first: GenericArray<T, N>,
) -> GenericArray<T, N> {
    second.inverted_zip2(first, |left: T, right: T| T::make(left.word() ^ right.word(), 2))
}
