//! What the texts of both sides name, on the original's side: kinds of arrays, and lengths.
use crate::noted::{item_of, Log, Noted};
use crate::random::small_number;
use crate::sources::Source;
use std::convert::Infallible;

pub use crate::adapter::*;
pub use original::{
    ArrayLength as Length, ArrayLength as ByteLength, ConstGenericArray as ConstArray,
};

pub type Array<N> = GenericArray<u64, N>;
pub type NotedArray<'a, N> = GenericArray<Noted<'a>, N>;
pub type Text = String;

/// Stands for the allocator, which the original isn't passed.
#[derive(Clone, Copy)]
pub struct Global;

pub trait NotedLength<'a>: Length {}

impl<N: Length> NotedLength<'_> for N {}

impl Clone for Noted<'_> {
    fn clone(&self) -> Self {
        self.copy()
    }
}

/// `clone` as ours returns it.
pub trait TryClone: Clone {
    fn try_clone(&self) -> Result<Self, Infallible> {
        Ok(self.clone())
    }
}

impl<T: Clone> TryClone for T {}

/// `nth_back` that drops what it passes over item by item from the back, as ours does.
pub trait Stepwise: DoubleEndedIterator + ExactSizeIterator {
    fn stepwise_nth_back(&mut self, count: usize) -> Option<Self::Item> {
        for _passed in 0..count.min(self.len()) {
            drop(self.next_back());
        }
        self.next_back()
    }
}

impl<I: DoubleEndedIterator + ExactSizeIterator> Stepwise for I {}

pub fn array_of<N: Length>(base: u64) -> Array<N> {
    GenericArray::generate(|index| small_number(base, index))
}

pub fn view_of<N: Length>(array: &Array<N>) -> &Array<N> {
    array
}

pub fn boxed_of<N: Length>(_: Global, base: u64) -> Result<BoxedArray<u64, N>, AllocError> {
    Ok(Box::new(array_of(base)))
}

pub fn noted_of<N: Length>(log: &Log) -> NotedArray<'_, N> {
    GenericArray::generate(|index| item_of(log, index as u64 + 1))
}

pub fn noted_box_of<N: Length>(
    _: Global,
    log: &Log,
) -> Result<BoxedArray<Noted<'_>, N>, AllocError> {
    Ok(Box::new(noted_of(log)))
}

pub fn list_of(base: u64, count: usize) -> Vec<u64> {
    (0..count).map(|index| small_number(base, index)).collect()
}

pub fn collect_of_right_length<N: Length>(source: &mut Source) -> Result<Array<N>, LengthError> {
    Ok(source.collect())
}

/// The checksum of what was noted before the value is dropped.
pub fn sum_before_drop<T>(ordered: u64, log: &Log, _value: T) -> u64 {
    log.sum(ordered)
}

pub fn answer_of(run: Result<u64, AllocError>) -> u64 {
    run.unwrap_or(1)
}
