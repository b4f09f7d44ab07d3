//! Slices in arrays, and vectors of std that have room for `N` items.
use crate::items::{place, Check, Word};
use crate::library::*;
use std::marker::PhantomData;

pub fn list_joined<T: Word, N: ArrayLength<T>>(
    array: &GenericArray<T, N>,
    at: usize,
) -> GenericArray<T, N> {
    let (first, second) = array.split_at(at);
    let mut joined = GenericArray::<T, N>::default();
    let (front, back) = joined.split_at_mut(first.len());
    front.copy_from_slice(first);
    back.copy_from_slice(second);
    joined
}

pub fn list_cloned<T: Word, N: ArrayLength<T>>(items: &[T]) -> GenericArray<T, N> {
    let mut copy = GenericArray::<T, N>::default();
    copy.clone_from_slice(items);
    copy
}

pub struct List<T, N> {
    items: Vec<T>,
    length: PhantomData<N>,
}

/// A list of all items but the first.
pub fn list<T: Word, N: ArrayLength<T>>(array: GenericArray<T, N>) -> List<T, N> {
    let mut items = Vec::with_capacity(N::USIZE);
    items.extend_from_slice(&array[1..]);
    List { items, length: PhantomData }
}

impl<T: Check, N> Check for List<T, N> {
    #[inline]
    fn check(&self, sum: u64) -> u64 {
        self.items.last().map_or(1, |item| item.check(sum))
    }
}

pub fn list_edit<T: Word, N: ArrayLength<T>>(list: &mut List<T, N>, seed: u64) -> u64 {
    let list = &mut list.items;
    let to = place(seed >> 20, N::USIZE / 2);
    let from = place(seed >> 40, N::USIZE / 2);
    if list.len() == N::USIZE || to > list.len() {
        return 0;
    }
    list.insert(to, T::make(seed, 5));
    if from >= list.len() {
        return 0;
    }
    list.remove(from).word()
}

pub fn list_cut<T: Word, N: ArrayLength<T>>(array: &GenericArray<T, N>, list: &mut List<T, N>) {
    let list = &mut list.items;
    let (first, _second) = array.split_at(N::USIZE / 2);
    list.truncate(N::USIZE / 2);
    if first.len() <= N::USIZE - list.len() {
        list.extend_from_slice(first);
    }
}

/// What a long boxed array is compared with.
pub fn long_generate<N: Unsigned>(seed: u64) -> List<u8, N> {
    let items = (0..N::USIZE).map(|index| u8::make(seed, index)).collect();
    List { items, length: PhantomData }
}

/// In place.
pub fn long_map<N: Unsigned>(bytes: List<u8, N>) -> Vec<u8> {
    bytes.items.into_iter().map(|item| item.rotate_left(3) ^ 1).collect()
}
