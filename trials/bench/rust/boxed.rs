//! Boxes of arrays. Borrowed ones are mapped and zipped by a build of indexes: `map` of a reference
//! makes an array.
use crate::items::{mix, Word};
use crate::library::*;

pub fn boxed_generate<T: Word, N: ArrayLength<T>>(seed: u64) -> BoxedArray<T, N> {
    BoxedArray::<T, N>::generate(|index| T::make(seed, index))
}

pub fn boxed_generate_from<T: Word, N: ArrayLength<T>>(
    left: &BoxedArray<T, N>,
    right: &BoxedArray<T, N>,
) -> BoxedArray<T, N> {
    BoxedArray::<T, N>::generate(|index| T::make(left[index].word() ^ right[index].word(), 2))
}

pub fn boxed_from_iter<T: Word, N: ArrayLength<T>>(
    seed: u64,
) -> Result<BoxedArray<T, N>, LengthError> {
    GenericArray::try_boxed_from_iter((0..N::USIZE).map(|index| T::make(seed, index)))
}

pub fn boxed_clone<T: Word, N: ArrayLength<T>>(array: BoxedArray<T, N>) -> BoxedArrayIter<T> {
    array.into_iter().clone()
}

pub fn boxed_into_vec<T: Word, N: ArrayLength<T>>(array: BoxedArray<T, N>) -> Vec<T> {
    array.into_vec()
}

/// To a boxed slice and back.
pub fn boxed_slice<T: Word, N: ArrayLength<T>>(
    array: BoxedArray<T, N>,
) -> Result<BoxedArray<T, N>, LengthError> {
    GenericArray::try_from_boxed_slice(array.into_boxed_slice())
}

pub fn map_boxed<T: Word, N: ArrayLength<T>>(array: BoxedArray<T, N>) -> BoxedArray<T, N> {
    array.map(|item: T| T::make(item.word().rotate_left(3), 1))
}

pub fn zip_boxed<T: Word, N: ArrayLength<T>>(
    left: BoxedArray<T, N>,
    right: BoxedArray<T, N>,
) -> BoxedArray<T, N> {
    left.zip(right, |left: T, right: T| T::make(left.word() ^ right.word(), 2))
}

pub fn fold_boxed<T: Word, N: ArrayLength<T>>(array: BoxedArray<T, N>) -> u64 {
    FunctionalSequence::fold(array, 0u64, |sum: u64, item: T| sum.rotate_left(5) ^ item.word())
}

pub fn map_ref_boxed<T: Word, N: ArrayLength<T>>(array: &BoxedArray<T, N>) -> BoxedArray<T, N> {
    BoxedArray::<T, N>::generate(|index| T::make(array[index].word().rotate_left(3), 1))
}

pub fn try_map_ref_boxed<T: Word, N: ArrayLength<T>>(
    array: &BoxedArray<T, N>,
    seed: u64,
) -> Result<Result<BoxedArray<T, N>, u64>, generic_array::AllocError> {
    let bad = mix(seed, 1);
    BoxedArray::<T, N>::try_generate(|index| {
        let word = array[index].word();
        if word == bad { Err(word) } else { Ok(T::make(word, 1)) }
    })
}

pub fn fold_ref_boxed<T: Word, N: ArrayLength<T>>(array: &BoxedArray<T, N>) -> u64 {
    (&**array).fold(0u64, |sum: u64, item: &T| sum.rotate_left(5) ^ item.word())
}
