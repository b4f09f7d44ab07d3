//! Arrays cut into rows and joined.
use crate::arrays::{array_of, noted_of, Array, NotedArray};
use crate::noted::{Log, Noted};
use crate::random::{all, mix};
use original::sequence::{Flatten, Unflatten};
use original::{ArrayLength, GenericArray};
use std::ops::{Div, Mul};

type Rows<W, R> = GenericArray<Array<W>, R>;
type NotedRows<'a, W, R> = GenericArray<NotedArray<'a, W>, R>;

pub fn flat_run<W: ArrayLength, R: ArrayLength, N: ArrayLength>(seed: u64) -> u64
where
    N: Div<W, Output = R>,
    W: Mul<R, Output = N>,
    Array<N>: Unflatten<u64, N, W, Output = Rows<W, R>>,
    Rows<W, R>: Flatten<u64, W, R, Output = Array<N>>,
    for<'a> &'a Array<N>: Unflatten<u64, N, W, Output = &'a Rows<W, R>>,
    for<'a> &'a mut Array<N>: Unflatten<u64, N, W, Output = &'a mut Rows<W, R>>,
    for<'a> &'a Rows<W, R>: Flatten<u64, W, R, Output = &'a Array<N>>,
    for<'a> &'a mut Rows<W, R>: Flatten<u64, W, R, Output = &'a mut Array<N>>,
{
    let mut array = array_of::<N>(seed);
    let cut: &mut Rows<W, R> = (&mut array).unflatten();
    if let Some(place) = cut.flatten().first_mut() {
        *place = 100;
    }
    let mut sum = seed;
    for row in (&array).unflatten().as_slice() {
        sum = all(sum, row);
    }
    let rows = array_of::<N>(seed).unflatten();
    for row in rows.as_slice() {
        sum = all(sum, row);
    }
    for item in (&rows).flatten().as_slice() {
        sum = mix(sum, *item);
    }
    all(sum, &rows.flatten())
}

pub fn flat_drops_run<W: ArrayLength, R: ArrayLength, N: ArrayLength>(
    ordered: u64,
    seed: u64,
    log: &Log,
) -> u64
where
    N: Div<W, Output = R>,
    W: Mul<R, Output = N>,
    for<'a> NotedArray<'a, N>: Unflatten<Noted<'a>, N, W, Output = NotedRows<'a, W, R>>,
    for<'a> NotedRows<'a, W, R>: Flatten<Noted<'a>, W, R, Output = NotedArray<'a, N>>,
{
    let rows = noted_of::<N>(log).unflatten();
    let sum = mix(seed, log.sum(ordered));
    if seed & 1 == 0 {
        drop(rows);
        mix(sum, log.sum(ordered))
    } else {
        let array = rows.flatten();
        let sum = mix(sum, log.sum(ordered));
        drop(array);
        mix(sum, log.sum(ordered))
    }
}
