//! The original under our names: what the texts of both sides take from `generic_array`.
use original::sequence::{FallibleGenericSequence, GenericSequence};
use std::slice;

pub use original::typenum::{U0, U1};
pub use original::{arr, AllocError, ArrayLength as Unsigned, GenericArray, LengthError};

pub type BoxedArray<T, N> = Box<GenericArray<T, N>>;
pub type GenericArrayRef<'a, T, N> = &'a GenericArray<T, N>;
pub type GenericArrayMut<'a, T, N> = &'a mut GenericArray<T, N>;
pub type ChunksRef<'a, T, N> = &'a [GenericArray<T, N>];
pub type ChunksMut<'a, T, N> = &'a mut [GenericArray<T, N>];
pub type ChunkIter<'a, T, N> = slice::Iter<'a, GenericArray<T, N>>;

/// Why a fill by the traits failed.
pub enum FillError<E, P> {
    Item(E),
    Length(LengthError),
    #[allow(dead_code)]
    Place(P),
}

/// The value: there is memory.
pub fn always<T>(made: Result<T, AllocError>) -> T {
    made.expect("there is memory")
}

macro_rules! box_arr {
    ($alloc:expr, [$($items:tt)*]) => {{
        let _ = $alloc;
        Ok::<_, $crate::AllocError>(original::box_arr![$($items)*])
    }};
}
pub(crate) use box_arr;

pub trait AsSlice<T> {
    fn as_slice(&self) -> &[T];
}

impl<T, N: Unsigned> AsSlice<T> for GenericArray<T, N> {
    fn as_slice(&self) -> &[T] {
        self
    }
}

impl<T, N: Unsigned> AsSlice<T> for BoxedArray<T, N> {
    fn as_slice(&self) -> &[T] {
        self
    }
}

/// Builds of inline arrays.
pub trait Builds<T>: GenericSequence<T, Sequence = Self> {
    fn generate(f: impl FnMut(usize) -> T) -> Self {
        <Self as GenericSequence<T>>::generate(f)
    }

    fn repeat(item: T) -> Result<Self, AllocError>
    where
        T: Clone,
    {
        Ok(<Self as GenericSequence<T>>::repeat(item))
    }

    fn try_generate<E>(f: impl FnMut(usize) -> Result<T, E>) -> Result<Self, E>
    where
        Self: FallibleGenericSequence<T>,
    {
        match <Self as FallibleGenericSequence<T>>::try_generate(f) {
            Ok(built) => built,
            Err(_) => unreachable!("an inline array needs no memory"),
        }
    }
}

impl<T, N: Unsigned> Builds<T> for GenericArray<T, N> {}

/// Fills of inline arrays.
pub trait Fills<T>: Sized {
    fn try_from_iter_ref<I: Iterator<Item = T>>(items: &mut I) -> Result<Self, LengthError>;

    fn try_from_fallible_iter_ref<E, I: Iterator<Item = Result<T, E>>>(
        results: &mut I,
    ) -> Result<Result<Self, E>, LengthError>;
}

impl<T, N: Unsigned> Fills<T> for GenericArray<T, N> {
    fn try_from_iter_ref<I: Iterator<Item = T>>(items: &mut I) -> Result<Self, LengthError> {
        Self::try_from_iter(items)
    }

    fn try_from_fallible_iter_ref<E, I: Iterator<Item = Result<T, E>>>(
        results: &mut I,
    ) -> Result<Result<Self, E>, LengthError> {
        Self::try_from_fallible_iter(results)
    }
}

/// Builds of boxed arrays.
pub trait BoxedBuilds<T>: FallibleGenericSequence<T, Sequence = Self> {
    fn try_generate<P, E>(
        _: P,
        f: impl FnMut(usize) -> Result<T, E>,
    ) -> Result<Result<Self, E>, AllocError> {
        <Self as FallibleGenericSequence<T>>::try_generate(f).map_err(|_| AllocError)
    }
}

impl<T, N: Unsigned> BoxedBuilds<T> for BoxedArray<T, N> {}

/// Views of arrays, which here are references.
pub trait View<T> {
    fn view(&self) -> &Self {
        self
    }

    fn view_mut(&mut self) -> &mut Self {
        self
    }

    fn into_inner(&mut self) -> &mut Self {
        self
    }

    fn from_view(view: &Self) -> Self
    where
        Self: Clone,
    {
        view.clone()
    }

    fn into_slice(&self) -> &[T];

    fn into_mut_slice(&mut self) -> &mut [T];
}

impl<T, N: Unsigned> View<T> for GenericArray<T, N> {
    fn into_slice(&self) -> &[T] {
        self
    }

    fn into_mut_slice(&mut self) -> &mut [T] {
        self
    }
}

/// Rows of a slice, which here are a slice of arrays.
pub trait Rows<'a, T>: Sized {
    fn chunks_from_slice(slice: &'a [T]) -> (Self, &'a [T]);

    fn into_slice(self) -> &'a [T];
}

impl<'a, T, N: Unsigned> Rows<'a, T> for ChunksRef<'a, T, N> {
    fn chunks_from_slice(slice: &'a [T]) -> (Self, &'a [T]) {
        GenericArray::chunks_from_slice(slice)
    }

    fn into_slice(self) -> &'a [T] {
        GenericArray::slice_from_chunks(self)
    }
}

pub trait RowsMut<'a, T, N: Unsigned>: Sized {
    fn chunks_from_slice_mut(slice: &'a mut [T]) -> (Self, &'a mut [T]);

    fn whole_and_rest(slice: &'a mut [T]) -> (&'a mut [T], &'a mut [T]) {
        let (rows, rest) = Self::chunks_from_slice_mut(slice);
        (rows.into_slice(), rest)
    }

    fn over(whole: &'a mut [T]) -> Self {
        Self::chunks_from_slice_mut(whole).0
    }

    fn row_mut(&mut self, at: usize) -> &mut [T];

    fn view(&self) -> &[GenericArray<T, N>];

    fn as_slice(&self) -> &[T];

    fn as_mut_slice(&mut self) -> &mut [T];

    fn into_slice(self) -> &'a mut [T];
}

impl<'a, T, N: Unsigned> RowsMut<'a, T, N> for ChunksMut<'a, T, N> {
    fn chunks_from_slice_mut(slice: &'a mut [T]) -> (Self, &'a mut [T]) {
        GenericArray::chunks_from_slice_mut(slice)
    }

    fn row_mut(&mut self, at: usize) -> &mut [T] {
        &mut self[at]
    }

    fn view(&self) -> &[GenericArray<T, N>] {
        self
    }

    fn as_slice(&self) -> &[T] {
        GenericArray::slice_from_chunks(self)
    }

    fn as_mut_slice(&mut self) -> &mut [T] {
        GenericArray::slice_from_chunks_mut(self)
    }

    fn into_slice(self) -> &'a mut [T] {
        GenericArray::slice_from_chunks_mut(self)
    }
}
