//! The Rust crate, by the names that the files of `both` have.
pub use generic_array::functional::FunctionalSequence;
pub use generic_array::sequence::*;
pub use generic_array::typenum::{Sum, Unsigned, U1024, U4};
pub use generic_array::{GenericArray, LengthError};

pub type Const<const N: usize> = generic_array::ConstArrayLength<N>;
pub type BoxedArray<T, N> = Box<GenericArray<T, N>>;
pub type BoxedArrayIter<T> = std::vec::IntoIter<T>;
pub type ChunksRef<T, N> = GenericArray<T, N>;

/// Every type, also one that can be copied.
pub trait Drop {}

impl<T> Drop for T {}

/// A length, whatever the items are.
pub trait ArrayLength<T>: generic_array::ArrayLength {}

impl<T, N: generic_array::ArrayLength> ArrayLength<T> for N {}

/// Our views are references there.
pub trait View {
    #[inline(always)]
    fn view(&self) -> &Self {
        self
    }

    #[inline(always)]
    fn view_mut(&mut self) -> &mut Self {
        self
    }
}

impl<T, N: ArrayLength<T>> View for GenericArray<T, N> {}
