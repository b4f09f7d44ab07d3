//! The original's builds by traits under our names: each is passed a place, and returns a result.
use crate::adapter::FillError;
use crate::arrays::Array;
use crate::sources::Trials;
use original::sequence::{self, FallibleGenericSequence as Fallible, GenericSequence as Original};
use original::{AllocError, LengthError};

pub trait GenericSequence<T>: Original<T> {
    fn generate<P>(_: P, f: impl FnMut(usize) -> T) -> Result<Self::Sequence, AllocError> {
        Ok(<Self as Original<T>>::generate(f))
    }

    fn repeat<P>(_: P, item: T) -> Result<Self::Sequence, AllocError>
    where
        T: Clone,
    {
        Ok(<Self as Original<T>>::repeat(item))
    }
}

impl<T, S: Original<T>> GenericSequence<T> for S {}

pub trait FallibleGenericSequence<T>: Fallible<T> {
    fn try_generate<P, E>(
        _: P,
        f: impl FnMut(usize) -> Result<T, E>,
    ) -> Result<Result<Self::Sequence, E>, AllocError> {
        <Self as Fallible<T>>::try_generate(f).map_err(|_| AllocError)
    }
}

impl<T, S: Fallible<T>> FallibleGenericSequence<T> for S {}

pub trait FromFallibleIterator: sequence::FromFallibleIterator<u64> + Original<u64> {
    /// At a wrong length the original's trait panics, and what its type returns stands here.
    fn from_fallible_iter_ref<P>(
        _: P,
        trials: &mut Trials,
    ) -> Result<Self, FillError<u64, AllocError>> {
        let again = trials.clone();
        match Array::<Self::Length>::try_from_fallible_iter(&mut *trials) {
            Err(LengthError) => Err(FillError::Length(LengthError)),
            Ok(_) => {
                *trials = again;
                <Self as sequence::FromFallibleIterator<u64>>::from_fallible_iter(trials)
                    .map_err(FillError::Item)
            }
        }
    }
}

impl<S: sequence::FromFallibleIterator<u64> + Original<u64>> FromFallibleIterator for S {}
