//! Runs each case on both sides. `check` compares their checksums, `count` calls them between
//! requests to callgrind, and `time ROUNDS` prints medians in nanoseconds.
#![allow(dead_code, unused_imports, unused_mut, unused_must_use)]

include!("modules.rs");

use std::hint::black_box;
use std::time::Instant;

pub struct Case {
    pub name: &'static str,
    pub kind: &'static str,
    pub length: usize,
    /// Ours by the number of its kind, a seed and how often it is repeated. It returns a checksum.
    pub ours: (extern "C" fn(u32, u64, u64) -> u64, u32),
    pub other: fn(u64, u64) -> u64,
}

const SIDES: [&str; 2] = ["ours", "other"];

impl Case {
    fn run(&self, side: &str, seed: u64, repeats: u64) -> u64 {
        let (seed, repeats) = (black_box(seed), black_box(repeats));
        black_box(match side {
            "ours" => self.ours.0(black_box(self.ours.1), seed, repeats),
            _ => (self.other)(seed, repeats),
        })
    }

    fn is_large(&self) -> bool {
        self.length >= 1_000_000
    }

    /// Too long for callgrind, and for more than a few rounds.
    fn is_huge(&self) -> bool {
        self.length > 10_000_000
    }

    /// Prints how many of some seeds have checksums that differ.
    fn check(&self) {
        let seeds = match (self.is_huge(), self.is_large()) {
            (true, _) => 2,
            (_, true) => 8,
            _ => 2000u64,
        };
        let differs = |number: &u64| {
            let seed = number.wrapping_mul(0x2545_F491_4F6C_DD1D) ^ number;
            self.run("ours", seed, seed % 5 + 1) != self.run("other", seed, seed % 5 + 1)
        };
        let wrong = (0..seeds).filter(differs).count();
        println!("{},{},{wrong},{seeds}", self.name, self.kind);
    }

    /// Has callgrind dump what few and what many repeats cost, so that the rest can be taken off.
    fn count(&self) {
        for side in SIDES {
            for repeats in if self.is_large() { [1, 3] } else { [4, 20] } {
                // Made before the count begins: what it allocates depends on the name's length.
                let name = format!("{}/{}/{side}/{repeats}\0", self.name, self.kind);
                // Once before: the allocator tidies up what earlier cases left.
                self.run(side, 12345, repeats);
                request(ZERO_STATS, 0);
                self.run(side, 12345, repeats);
                request(DUMP_STATS_AT, name.as_ptr() as u64);
            }
        }
    }

    fn nanoseconds(&self, side: &str, seed: u64, repeats: u64) -> f64 {
        let start = Instant::now();
        self.run(side, seed, repeats);
        start.elapsed().as_nanos() as f64
    }

    /// Prints the medians for one call. What stands before the repeats isn't timed.
    fn time(&self, rounds: u64) {
        let mut repeats = if self.is_large() { 1 } else { 64 };
        while repeats <= 1 << 24 && self.nanoseconds("other", 1, repeats) < 7e5 {
            repeats *= 2;
        }
        let mut times = [vec![], vec![]];
        for seed in 0..rounds.min(if self.is_huge() { 5 } else { u64::MAX }) {
            for (side, times) in SIDES.iter().zip(&mut times) {
                let before = self.nanoseconds(side, seed, 0);
                let whole = self.nanoseconds(side, seed, repeats);
                times.push((whole - before) / repeats as f64);
            }
        }
        let [ours, other] = times.map(|mut times| {
            times.sort_by(f64::total_cmp);
            times[times.len() / 2]
        });
        println!("{},{},{ours:.2},{other:.2}", self.name, self.kind);
    }
}

// Callgrind's requests, which do nothing outside it.
const ZERO_STATS: u64 = 0x4354_0001;
const DUMP_STATS_AT: u64 = 0x4354_0003;

#[inline(never)]
fn request(code: u64, argument: u64) -> u64 {
    let words: [u64; 6] = [code, argument, 0, 0, 0, 0];
    let mut result: u64 = 0;
    // Valgrind's sign, which changes no register but that of the result.
    unsafe {
        std::arch::asm!(
            "rol rdi, 3", "rol rdi, 13", "rol rdi, 61", "rol rdi, 51", "xchg rbx, rbx",
            inout("rdx") result, in("rax") words.as_ptr(), options(nostack)
        );
    }
    result
}

fn main() {
    let words: Vec<String> = std::env::args().skip(1).collect();
    let words: Vec<&str> = words.iter().map(String::as_str).collect();
    for case in cases::CASES {
        match words[..] {
            ["check"] => case.check(),
            ["count"] if case.is_huge() => (),
            ["count"] => case.count(),
            ["time", rounds] => case.time(rounds.parse().expect("a number of rounds")),
            _ => panic!("check, count or time ROUNDS"),
        }
    }
}
