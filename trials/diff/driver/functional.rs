//! The original's calls of closures under our names: each is passed a place, and returns a result.
use original::functional::{FunctionalSequence as Original, MappedGenericSequence, MappedSequence};
use original::sequence::{FromFallibleIterator, GenericSequence};
use original::{AllocError, ArrayLength, GenericArray};

pub trait FunctionalSequence<T>: Original<T> {
    fn map<P, U, F>(self, _: P, f: F) -> Result<MappedSequence<Self, T, U>, AllocError>
    where
        Self: MappedGenericSequence<T, U>,
        F: FnMut(Self::Item) -> U,
    {
        Ok(Original::map(self, f))
    }

    fn try_map<P, U, E, F>(
        self,
        _: P,
        f: F,
    ) -> Result<Result<MappedSequence<Self, T, U>, E>, AllocError>
    where
        Self: MappedGenericSequence<T, U>,
        MappedSequence<Self, T, U>: FromFallibleIterator<U>,
        F: FnMut(Self::Item) -> Result<U, E>,
    {
        Ok(Original::try_map(self, f))
    }

    fn zip<P, B, R, U, F>(
        self,
        _: P,
        right: R,
        f: F,
    ) -> Result<MappedSequence<Self, T, U>, AllocError>
    where
        Self: MappedGenericSequence<T, U>,
        R: MappedGenericSequence<B, U, Mapped = MappedSequence<Self, T, U>>,
        R: GenericSequence<B, Length = Self::Length>,
        F: FnMut(Self::Item, R::Item) -> U,
    {
        Ok(Original::zip(self, right, f))
    }

    fn fold<U, F: FnMut(U, Self::Item) -> U>(self, init: U, f: F) -> U {
        Original::fold(self, init, f)
    }

    fn try_fold<U, E, F>(self, init: U, f: F) -> Result<U, E>
    where
        F: FnMut(U, Self::Item) -> Result<U, E>,
    {
        Original::try_fold(self, init, f)
    }
}

impl<T, S: Original<T>> FunctionalSequence<T> for S {}

pub fn inverted_zip<T, B, U, N: ArrayLength>(
    right: &GenericArray<T, N>,
    left: GenericArray<B, N>,
    f: impl FnMut(B, &T) -> U,
) -> GenericArray<U, N> {
    right.inverted_zip(left, f)
}

pub fn inverted_zip2<P, T, B, U, L, R, F>(
    right: R,
    _: P,
    left: L,
    f: F,
) -> Result<MappedSequence<L, B, U>, AllocError>
where
    R: MappedGenericSequence<T, U>,
    L: MappedGenericSequence<B, U> + GenericSequence<B, Length = R::Length>,
    F: FnMut(L::Item, R::Item) -> U,
{
    Ok(right.inverted_zip2(left, f))
}
