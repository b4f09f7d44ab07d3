//! Boxed arrays, as the texts that are laid out for both kinds name them.
use crate::arrays::BoxedArray;
use crate::noted::Noted;

pub use crate::arrays::{boxed_of as array_of, noted_box_of as noted_of};
pub use crate::inline::{mix_clone, mix_references, Array};

pub type Sequence<N> = BoxedArray<u64, N>;
pub type Items<N> = <Sequence<N> as IntoIterator>::IntoIter;
pub type NotedItems<'a, N> = <BoxedArray<Noted<'a>, N> as IntoIterator>::IntoIter;
