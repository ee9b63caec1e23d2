//! usage: long [MINUTES [SEED]]
//! Random histories of calls, plain and timed, and of lines, one of each for a
//! seed, until the time is over; the first seed is the time unless it is given.

use agreement::histories::{self, BORDER, FULL, SHORT};
use agreement::{lines, program, timed_histories};
use std::env;
use std::process::exit;
use std::time::{Duration, Instant, SystemTime};

/// Calls, and lines, of one history.
const LENGTH: u64 = 30_000;

fn seed_by_time() -> u64 {
    let time = SystemTime::now().duration_since(SystemTime::UNIX_EPOCH).unwrap();
    time.as_secs() * 1000 + u64::from(time.subsec_millis())
}

/// The minutes and the first seed, where the arguments are in order.
fn arguments() -> Option<(u32, u64)> {
    let given: Vec<String> = env::args().skip(1).collect();
    let minutes = given.first().map_or(Some(10), |text| text.parse().ok())?;
    let seed = given.get(1).map_or_else(|| Some(seed_by_time()), |text| text.parse().ok())?;
    (given.len() <= 2).then_some((minutes, seed))
}

fn main() {
    let (minutes, first) = arguments().unwrap_or_else(|| {
        eprintln!("usage: tests/long [MINUTES [SEED]], whole numbers");
        exit(2)
    });
    let limit = Duration::from_secs(60 * u64::from(minutes));
    let start = Instant::now();
    let (mut seed, mut calls, mut answered) = (first, 0, 0);
    while seed == first || start.elapsed() < limit {
        let (name, targets) = [("short", SHORT), ("border", BORDER), ("full", FULL)][(seed % 3) as usize];
        println!("seed {seed}, {name}");
        calls += histories::history(seed, LENGTH, targets).calls();
        calls += timed_histories::history(seed, LENGTH, targets).calls();
        answered += program::agrees(seed, &lines::history(seed, LENGTH, targets)).lines;
        seed += 1;
    }
    println!("seeds {first} to {}: {calls} calls and {answered} lines agree", seed - 1);
}
