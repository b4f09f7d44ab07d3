//! Drops in calls of closures, shapes and conversions of inline arrays.
use crate::arrays::{noted_of, sum_before_drop, NotedArray};
use crate::noted::{item_of, join, renew, try_renew, try_sum, Log, Noted};
use crate::random::{mix, Random};
use original::functional::FunctionalSequence;
use original::sequence::{Concat, Lengthen, Remove, Shorten, Split};
use original::{ArrayLength, LengthError};

/// Drops of calls of closures.
pub fn closure_drops_run<N: ArrayLength>(ordered: u64, seed: u64, log: &Log) -> u64 {
    let mut random = Random::of(seed);
    let bad = random.word() % 20;
    let array = noted_of::<N>(log);
    let renewal = |item: Noted<'_>| renew(log, item);
    let joint = |left: Noted<'_>, right: Noted<'_>| join(log, left, right);
    let sum = match random.word() & 7 {
        0 | 4 => sum_before_drop(ordered, log, array.map(renewal)),
        1 => FunctionalSequence::fold(array, 0, |sum, item: Noted<'_>| mix(sum, item.id)),
        2 => {
            let call = |item: Noted<'_>| try_renew(log, item, bad).map_err(|_| item_of(log, 80));
            sum_before_drop(ordered, log, array.try_map(call))
        }
        3 | 6 => sum_before_drop(ordered, log, array.zip(noted_of::<N>(log), joint)),
        5 => sum_before_drop(
            ordered,
            log,
            array.try_map(|item: Noted<'_>| try_renew(log, item, bad)),
        ),
        _ => {
            let call = |sum, item: Noted<'_>| try_sum(sum, item, bad);
            FunctionalSequence::try_fold(array, 0, call).unwrap_or_else(|word| mix(word, 3))
        }
    };
    mix(sum, log.sum(ordered))
}

/// Drops of shapes: `L` is one longer than `N`.
pub fn shape_drops_run<N: ArrayLength, L: ArrayLength>(ordered: u64, seed: u64, log: &Log) -> u64
where
    for<'a> NotedArray<'a, N>: Lengthen<Noted<'a>, Longer = NotedArray<'a, L>>,
    for<'a> NotedArray<'a, L>: Shorten<Noted<'a>, Shorter = NotedArray<'a, N>>
        + Remove<Noted<'a>, L, Output = NotedArray<'a, N>>,
{
    let mut random = Random::of(seed);
    let way = random.word() & 1;
    let at = (random.word() % 17) as usize;
    let array = noted_of::<N>(log);
    let longer = if way == 0 {
        array.append(item_of(log, 90))
    } else {
        array.prepend(item_of(log, 90))
    };
    let mut sum = mix(seed, log.sum(ordered));
    // What a pattern binds is dropped from its end on, here as there.
    if at < L::USIZE && random.word() & 1 == 0 {
        let (item, _shorter) = if way == 0 {
            longer.remove(at)
        } else {
            longer.swap_remove(at)
        };
        sum = mix(mix(sum, item.id), log.sum(ordered));
    } else {
        let (_shorter, item) = if way == 0 {
            longer.pop_back()
        } else {
            let (item, shorter) = longer.pop_front();
            (shorter, item)
        };
        sum = mix(mix(sum, item.id), log.sum(ordered));
    }
    mix(sum, log.sum(ordered))
}

/// Drops of arrays that are cut and joined, and of vectors.
pub fn joined_drops_run<N: ArrayLength, K: ArrayLength, M: ArrayLength>(
    ordered: u64,
    seed: u64,
    log: &Log,
) -> u64
where
    for<'a> NotedArray<'a, N>:
        Split<Noted<'a>, K, First = NotedArray<'a, K>, Second = NotedArray<'a, M>>,
    for<'a> NotedArray<'a, K>:
        Concat<Noted<'a>, M, Rest = NotedArray<'a, M>, Output = NotedArray<'a, N>>,
{
    let (first, second) = noted_of::<N>(log).split();
    let sum = mix(seed, log.sum(ordered));
    let both = first.concat(second);
    let sum = mix(sum, log.sum(ordered));
    let built: Result<NotedArray<'_, M>, LengthError> = Vec::from(both).try_into();
    let sum = mix(mix(sum, built.is_ok().into()), log.sum(ordered));
    drop(built);
    mix(sum, log.sum(ordered))
}
