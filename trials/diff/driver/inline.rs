//! Inline arrays, as the texts that are laid out for both kinds name them.
use crate::arrays::{self, Global, Length, NotedArray};
use crate::noted::{Log, Noted};
use crate::random::{all, mix_option};
use original::GenericArrayIter;
use std::convert::Infallible;

pub use crate::arrays::{Array, Array as Sequence};
pub type Items<N> = GenericArrayIter<u64, N>;
pub type NotedItems<'a, N> = GenericArrayIter<Noted<'a>, N>;

pub fn array_of<N: Length>(_: Global, base: u64) -> Result<Array<N>, Infallible> {
    Ok(arrays::array_of(base))
}

pub fn noted_of<N: Length>(_: Global, log: &Log) -> Result<NotedArray<'_, N>, Infallible> {
    Ok(arrays::noted_of(log))
}

pub fn mix_references<N: Length>(sum: u64, array: &Array<N>) -> u64 {
    let items = array.each_ref().into_iter();
    items.fold(sum, |sum, item| mix_option(sum, Some(*item)))
}

pub fn mix_clone<N: Length>(sum: u64, array: &Array<N>) -> u64 {
    all(sum, &array.clone())
}
