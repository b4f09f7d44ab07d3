//! The comparison of both sides over the seeds of a case, and what it came to.
use std::collections::BTreeMap;
use std::fmt::Debug;
use std::ops::Range;

/// The checksum of a run, by its length and its seed.
pub type Run = fn(u32, u64) -> u64;

pub struct Case {
    pub name: &'static str,
    pub lengths: &'static [u32],
    /// One seed in so many is taken.
    pub share: u64,
    pub ours: Run,
    pub original: Run,
    pub wanted: Option<Wanted>,
}

/// A difference that is wanted.
pub struct Wanted {
    pub name: &'static str,
    /// The original's run with this difference, and no other.
    pub run: Run,
}

/// What a run came to.
pub enum Answer {
    Alike,
    AsWanted(&'static str),
    Differ { ours: u64, original: u64 },
}

impl Case {
    /// Makes the calls of a run on both sides.
    pub fn answer(&self, n: u32, seed: u64) -> Answer {
        let (ours, original) = ((self.ours)(n, seed), (self.original)(n, seed));
        if ours == original {
            return Answer::Alike;
        }
        match &self.wanted {
            Some(it) if ours == (it.run)(n, seed) => Answer::AsWanted(it.name),
            _ => Answer::Differ { ours, original },
        }
    }
}

#[derive(Default)]
pub struct Tally {
    runs: u64,
    differ: u64,
    /// How many differ as they should, by the name of the difference.
    wanted: BTreeMap<&'static str, u64>,
    /// Whether a case has no runs, or lacks the difference that it names.
    is_blind: bool,
}

/// Of so many runs some differ where a difference is wanted.
const ENOUGH: u64 = 100;

impl Tally {
    pub fn runs(&self) -> u64 {
        self.runs
    }

    fn count(&mut self, runs: u64, differ: u64) {
        self.runs += runs;
        self.differ += differ;
    }

    fn count_wanted(&mut self, name: &'static str, runs: u64) {
        *self.wanted.entry(name).or_default() += runs;
    }

    /// Counts a run, and returns whether it differs in a way that isn't wanted.
    fn count_run(&mut self, answer: &Answer) -> bool {
        if let Answer::AsWanted(name) = answer {
            self.count_wanted(name, 1);
        }
        let differs = matches!(answer, Answer::Differ { .. });
        self.count(1, differs.into());
        differs
    }

    /// Runs a case on both sides, and prints its line.
    pub fn compare(&mut self, case: &Case, seeds: u64) {
        let (runs, differ) = (self.runs, self.differ);
        let (mut wanted, mut first) = (0, None);
        for &n in case.lengths {
            for seed in case.seeds(0..seeds, n) {
                let answer = case.answer(n, seed);
                wanted += u64::from(matches!(answer, Answer::AsWanted(_)));
                if self.count_run(&answer) {
                    first.get_or_insert((n, seed));
                }
            }
        }
        let (runs, differ) = (self.runs - runs, self.differ - differ);
        let mut line = format!("{}: {runs} runs, {differ} differ", case.name);
        if let Some((n, seed)) = first {
            line += &format!(", at first at length {n} with seed {seed}");
        }
        if let Some(it) = &case.wanted {
            line += &format!("; {wanted} as wanted: {}", it.name);
        }
        let lacks_wanted = case.wanted.is_some() && wanted == 0 && runs >= ENOUGH;
        if runs == 0 || lacks_wanted {
            self.is_blind = true;
            line += ": it sees nothing";
        }
        println!("{line}");
    }

    /// Makes the runs of a case that have these numbers, up to the first that differs in a way that
    /// isn't wanted, whose length and seed it returns.
    pub fn first_difference(&mut self, case: &Case, numbers: Range<u64>) -> Option<(u32, u64)> {
        for &n in case.lengths {
            for seed in case.seeds(numbers.clone(), n) {
                if self.count_run(&case.answer(n, seed)) {
                    return Some((n, seed));
                }
            }
        }
        None
    }

    /// Makes one run, prints what it came to, and returns whether it is as it should be.
    pub fn replay(&mut self, case: &Case, n: u32, seed: u64) -> bool {
        let answer = case.answer(n, seed);
        let differs = self.count_run(&answer);
        print!("{}, length {n}, seed {seed}: ", case.name);
        match answer {
            Answer::Alike => println!("agree"),
            Answer::AsWanted(name) => println!("differ as wanted: {name}"),
            Answer::Differ { ours, original } => {
                println!("ours is {ours:#018x}, the original's {original:#018x}");
            }
        }
        !differs
    }

    /// Counts seeds at which a case has the same result at two lengths, as a control: where that
    /// is nearly all, it sees no difference at all.
    pub fn control(&mut self, case: &Case) {
        let [.., below, above] = *case.lengths else {
            return;
        };
        let seeds = 1000;
        let alike = (0..seeds)
            .map(|number| seed_of(number, above))
            .filter(|seed| (case.ours)(above, *seed) == (case.original)(below, *seed))
            .count();
        if alike as u64 > seeds * 9 / 10 {
            println!("{}: {alike} of {seeds} agree at two lengths", case.name);
            self.count(seeds, alike as u64);
        }
    }

    /// Compares one answer. Where a difference is wanted, it has to be there.
    pub fn compare_once<T: PartialEq + Debug>(
        &mut self,
        name: &str,
        ours: T,
        original: T,
        wanted: Option<(&'static str, T)>,
    ) {
        let wants = wanted.as_ref().map_or(&original, |(_, it)| it);
        let differs = ours != *wants;
        self.count(1, differs.into());
        match &wanted {
            _ if differs => println!("{name}: {ours:?} differs from {wants:?}"),
            Some((wanted, _)) => self.count_wanted(wanted, 1),
            None => println!("{name}: agree"),
        }
    }

    /// Prints the sums, and returns whether each case sees what it should, and no run differs in a
    /// way that isn't wanted.
    pub fn end(&self) -> bool {
        for (name, number) in &self.wanted {
            println!("differ as wanted: {name}: {number} runs");
        }
        let wanted: u64 = self.wanted.values().sum();
        let (runs, differ) = (self.runs, self.differ);
        println!("diff: {runs} runs, {differ} differ, and {wanted} as wanted");
        self.differ == 0 && !self.is_blind
    }
}

impl Case {
    /// The seeds of a case at a length: those of its share of these numbers, and of one at least.
    fn seeds(&self, numbers: Range<u64>, n: u32) -> impl Iterator<Item = u64> {
        let count = ((numbers.end - numbers.start) / self.share).max(1);
        let first = numbers.start;
        (0..count).map(move |it| seed_of(first.wrapping_add(it), n))
    }
}

/// Another seed for each number and length.
fn seed_of(number: u64, n: u32) -> u64 {
    number
        .wrapping_mul(0x2545_F491_4F6C_DD1D)
        .wrapping_add(n.into())
}
