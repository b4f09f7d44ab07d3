//! What a builder that goes on at its position stands for: a vector with room for some items.
use crate::arrays::array_of;
use crate::noted::{item_of, Log, Noted};
use crate::random::{all, mix, mix_option, Random};
use crate::sources::{Source, Trials};
use original::internals::ArrayBuilder;
use original::ArrayLength;

/// Takes items up to the room, and asks for none when there is no room.
fn extend(items: &mut Vec<u64>, room: usize, source: &mut Source) {
    while items.len() < room {
        match source.next() {
            Some(item) => items.push(item),
            None => return,
        }
    }
}

fn try_extend(items: &mut Vec<u64>, room: usize, trials: &mut Trials) -> Result<(), u64> {
    while items.len() < room {
        match trials.next() {
            Some(item) => items.push(item?),
            None => return Ok(()),
        }
    }
    Ok(())
}

fn step(sum: u64, items: &mut Vec<u64>, room: usize, random: &mut Random) -> u64 {
    let (way, word, count) = (random.word(), random.word(), random.count());
    match way & 7 {
        0..=2 => {
            if items.len() < room {
                items.push(word);
            }
            sum
        }
        3 => mix_option(sum, items.pop()),
        4 => {
            let mut source = Source::of(count);
            extend(items, room, &mut source);
            mix(sum, source.asked)
        }
        5 => {
            let mut trials = Trials::of(count, word & 3);
            let sum = match try_extend(items, room, &mut trials) {
                Ok(()) => mix(sum, 14),
                Err(error) => mix(sum, error),
            };
            mix(sum, trials.asked)
        }
        _ => mix(sum, (items.len() == room).into()),
    }
}

fn take<N: ArrayLength>(sum: u64, items: &mut Vec<u64>, random: &mut Random) -> u64 {
    let (base, at, count) = (random.word(), random.count(), random.count());
    let mut others = array_of::<N>(base).into_iter();
    let sum = mix_option(sum, others.nth(at));
    let count = count.min(N::USIZE - items.len()).min(others.len());
    items.extend((&mut others).take(count));
    let mut slots = [0; 2];
    if others.len() >= 2 {
        slots.fill_with(|| others.next().unwrap_or(0));
    }
    all(all(sum, others.as_slice()), &slots)
}

pub fn builders_run<N: ArrayLength>(seed: u64) -> u64 {
    let mut random = Random::of(seed);
    let mut items = Vec::new();
    let mut sum = seed;
    let steps = random.word() & 15;
    for _step in 0..steps {
        sum = step(sum, &mut items, N::USIZE, &mut random);
        sum = mix(all(sum, &items), items.len() as u64);
    }
    sum = take::<N>(sum, &mut items, &mut random);
    sum = all(sum, &items);
    if items.len() == N::USIZE {
        sum = all(sum, &items);
    }
    sum
}

/// A builder that is extended by an iterator of so many items.
pub fn extend_once<N: ArrayLength>(sum: u64, left: usize) -> u64 {
    let mut source = Source::of(left);
    let mut builder: ArrayBuilder<u64, N> = ArrayBuilder::new();
    // It is extended once, so nothing is written over that has to be dropped.
    unsafe { builder.extend(&mut source) };
    let mut sum = mix(sum, builder.is_full().into());
    if builder.is_full() {
        // It is full.
        sum = all(sum, &unsafe { builder.assume_init() });
    }
    mix(sum, source.asked)
}

/// A builder with some items, which is dropped as it is or finished.
pub fn build_noted<N: ArrayLength>(ordered: u64, log: &Log, count: usize) -> u64 {
    let mut builder: ArrayBuilder<Noted<'_>, N> = ArrayBuilder::new();
    // The items before the position are written, and no others.
    let (places, position) = unsafe { builder.iter_position() };
    for (place, id) in places.zip(0..count as u64) {
        place.write(item_of(log, id + 1));
        *position += 1;
    }
    let sum = log.sum(ordered);
    if builder.is_full() {
        // It is full.
        let array = unsafe { builder.assume_init() };
        mix(sum, array.len() as u64)
    } else {
        sum
    }
}
