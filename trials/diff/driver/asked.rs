//! What the program is asked for: `diff_driver SEEDS`, `diff_driver forever`, or one run by
//! `diff_driver CASE LENGTH SEED`.
use crate::compare::{Case, Tally};
use crate::forever;
use std::process::ExitCode;

fn exit_code(is_right: bool) -> ExitCode {
    match is_right {
        true => ExitCode::SUCCESS,
        false => ExitCode::FAILURE,
    }
}

/// Every case with so many seeds for each of its lengths, behind what is compared once.
fn compare_all(cases: &[Case], once: fn(&mut Tally), seeds: u64) -> ExitCode {
    let mut tally = Tally::default();
    once(&mut tally);
    for case in cases {
        tally.control(case);
        tally.compare(case, seeds);
    }
    exit_code(tally.end())
}

fn compare_forever(cases: &[Case]) -> ExitCode {
    let mut tally = Tally::default();
    forever::run(&mut tally, cases);
    exit_code(tally.end())
}

/// One run, by the name of its case, its length and its seed.
fn replay(cases: &[Case], name: &str, n: u32, seed: u64) -> ExitCode {
    let is_asked = |it: &&Case| it.name == name && it.lengths.contains(&n);
    let Some(case) = cases.iter().find(is_asked) else {
        eprintln!("no case has this name and this length; these are there:");
        for it in cases {
            eprintln!("{}: {:?}", it.name, it.lengths);
        }
        return ExitCode::from(2);
    };
    exit_code(Tally::default().replay(case, n, seed))
}

/// Runs these cases as the words of the call ask for.
pub fn run(cases: &[Case], once: fn(&mut Tally)) -> ExitCode {
    let words: Vec<String> = std::env::args().skip(1).collect();
    let words: Vec<&str> = words.iter().map(String::as_str).collect();
    match words[..] {
        ["forever"] => return compare_forever(cases),
        [seeds] => {
            if let Ok(seeds) = seeds.parse() {
                return compare_all(cases, once, seeds);
            }
        }
        [name, n, seed] => {
            if let (Ok(n), Ok(seed)) = (n.parse(), seed.parse()) {
                return replay(cases, name, n, seed);
            }
        }
        _ => {}
    }
    eprintln!("diff_driver SEEDS | forever | CASE LENGTH SEED");
    ExitCode::from(2)
}
