//! What a block of memory stands for: a deque, and the room behind it.
use crate::arrays::Global;
use crate::random::{all, mix, Random};
use std::collections::VecDeque;

fn step(sum: u64, items: &mut VecDeque<u64>, room: &mut usize, way: u64, word: u64) -> u64 {
    match way & 7 {
        0..=2 => {
            if *room > 0 {
                items.push_back(word);
                *room -= 1;
            }
            mix(sum, *room as u64)
        }
        3 | 4 => mix(sum, items.pop_front().unwrap_or(99)),
        5 | 6 => match items.pop_back() {
            Some(item) => {
                *room += 1;
                mix(sum, item)
            }
            None => mix(sum, 98),
        },
        _ => {
            if let Some(item) = items.get_mut((word & 7) as usize) {
                *item = word;
            }
            mix(sum, items.len() as u64)
        }
    }
}

pub fn blocks_run(_: Global, size: u32, seed: u64) -> u64 {
    let mut random = Random::of(seed);
    let mut sum = seed;
    let (mut items, mut room) = (VecDeque::new(), size as usize);
    let steps = random.word() & 63;
    for _step in 0..steps {
        sum = step(sum, &mut items, &mut room, random.word(), random.word());
        sum = mix(all(sum, items.make_contiguous()), room as u64);
    }
    sum
}
