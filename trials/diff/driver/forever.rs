//! Runs without end, up to the first difference that isn't wanted or until standard input ends.
use crate::compare::{Case, Tally};
use std::io::{self, Read};
use std::sync::atomic::{AtomicBool, Ordering};
use std::thread;
use std::time::{Duration, Instant, SystemTime, UNIX_EPOCH};

static STOPPED: AtomicBool = AtomicBool::new(false);

/// How many numbers of seeds a case gets before the next has its turn.
const TURN: u64 = 100;
const BETWEEN_LINES: Duration = Duration::from_secs(10);

/// The first number of the seeds: another one at each start.
fn first_number() -> u64 {
    let now = SystemTime::now().duration_since(UNIX_EPOCH);
    now.map_or(0, |it| it.as_nanos() as u64)
}

fn stop_where_input_ends() {
    thread::spawn(|| {
        // Whatever comes, an end or an error, nothing more is to be done.
        let _ = io::stdin().read_to_end(&mut Vec::new());
        STOPPED.store(true, Ordering::Relaxed);
    });
}

/// Runs the cases in turn, and prints how many runs there were now and then.
pub fn run(tally: &mut Tally, cases: &[Case]) {
    stop_where_input_ends();
    let mut number = first_number();
    let mut printed = Instant::now();
    loop {
        for case in cases {
            if STOPPED.load(Ordering::Relaxed) {
                return;
            }
            if let Some((n, seed)) = tally.first_difference(case, number..number + TURN) {
                println!("{}: differs at length {n} with seed {seed}", case.name);
                println!("once more: trials/diff/run FOLDER '{}' {n} {seed}", case.name);
                return;
            }
            if printed.elapsed() >= BETWEEN_LINES {
                println!("so far: {} runs", tally.runs());
                printed = Instant::now();
            }
        }
        number += TURN;
    }
}
