//! Long random histories on both, with refused calls and conversions among them.

use agreement::histories::{history, Met, BORDER, FULL, SHORT};
use agreement::{say, Both, Call, Store};
use reference::random::SplitMix64;

/// Histories of `calls` calls each; every one of these causes was met.
fn histories(seeds: std::ops::Range<u64>, calls: u64, targets: &[usize], causes: &[usize]) {
    let mut met = Met::default();
    for seed in seeds {
        met.add(history(seed, calls, targets));
    }
    say(&format!("{} calls", met.calls()));
    met.assert_met(causes);
}

#[test]
fn short_lists() {
    histories(0..10, 10_000, SHORT, &[0, 3, 4, 7, 16]);
}

#[test]
fn from_one_range_to_many() {
    histories(100..110, 10_000, BORDER, &[0, 2, 3, 4, 6, 7, 16]);
}

#[test]
fn full_and_back() {
    histories(200..204, 25_000, FULL, &[0, 2, 5, 6, 7, 16]);
}

/// Document 01: N 1,024, insert at rank 1,024 gives 5, at rank 1,025 gives 4.
#[test]
fn marks_of_a_full_sheet() {
    let mut random = SplitMix64::new(1);
    let mut both = Both::new(1, Store::unused());
    both.call(Call::Clear);
    while both.store.n() < 1024 {
        let mut tape = vec![0; 2048];
        random.fill(&mut tape);
        let rank = random.below(both.store.n() + 1);
        both.call(Call::Insert { rank, entry: random.entry(), tape });
    }
    for (rank, number) in [(1024, 5), (1025, 4)] {
        let answer = both.call(Call::Insert { rank, entry: 1, tape: vec![0; 2048] });
        assert_eq!(answer, [number, 0, 0, 0]);
    }
}
