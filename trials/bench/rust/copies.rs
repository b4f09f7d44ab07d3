//! Builds that may fail, copies, vectors and hex text.
use crate::items::{check_items, Check, Word};
use crate::library::*;
use generic_array::internals::ArrayBuilder;
use std::fmt::Write;

pub fn try_generate<T: Word, N: ArrayLength<T>>(seed: u64) -> Result<GenericArray<T, N>, usize> {
    let bad = ((seed >> 1) | 0x10_0000) as usize;
    let built = <GenericArray<T, N> as FallibleGenericSequence<T>>::try_generate(|index| {
        if index == bad { Err(index) } else { Ok(T::make(seed, index)) }
    });
    match built {
        Ok(built) => built,
        Err(never) => match never {},
    }
}

pub fn repeat<T: Word, N: ArrayLength<T>>(seed: u64) -> GenericArray<T, N> {
    GenericArray::repeat(T::make(seed, 3))
}

pub fn clone<T: Word, N: ArrayLength<T>>(array: &GenericArray<T, N>) -> GenericArray<T, N> {
    array.clone()
}

pub fn builder<T: Word, N: ArrayLength<T>>(seed: u64) -> Option<GenericArray<T, N>> {
    let half = N::USIZE / 2;
    let mut builder = ArrayBuilder::new();
    // Each place that is counted has been written.
    unsafe {
        {
            let (mut places, position) = builder.iter_position();
            let first = (0..half).map(|index| T::make(seed, index));
            for (place, item) in places.by_ref().take(half).zip(first) {
                place.write(item);
                *position += 1;
            }
            let second = (half..N::USIZE).map(|index| T::make(seed, index));
            for (place, item) in places.zip(second) {
                place.write(item);
                *position += 1;
            }
        }
        if builder.is_full() { Some(builder.assume_init()) } else { None }
    }
}

pub fn into_vec<T: Word, N: ArrayLength<T>>(array: GenericArray<T, N>) -> Vec<T> {
    Vec::from(array)
}

pub fn try_from_vec<T: Word, N: ArrayLength<T>>(
    items: Vec<T>,
) -> Result<GenericArray<T, N>, LengthError> {
    GenericArray::try_from(items)
}

/// An empty text.
pub fn text() -> String {
    String::new()
}

impl Check for String {
    #[inline]
    fn check(&self, sum: u64) -> u64 {
        check_items(sum, self.as_bytes(), self.len())
    }
}

pub fn hex_lower<N: ArrayLength<u8>>(array: &GenericArray<u8, N>, text: &mut String) -> bool
where GenericArray<u8, N>: std::fmt::LowerHex
{
    text.clear();
    write!(text, "{array:x}").is_ok()
}

pub fn hex_upper<N: ArrayLength<u8>>(array: &GenericArray<u8, N>, text: &mut String) -> bool
where GenericArray<u8, N>: std::fmt::UpperHex
{
    text.clear();
    write!(text, "{array:X}").is_ok()
}
