//! Random histories on the federation's store (02, F-14), plain and timed. After every call
//! the store is the sheet that the rules over whole lists give (`common::Model`), slot by
//! slot, and check accepts it. Histories of short lists begin with the cleared store; those
//! of long ones with a sheet built by random draws.

use crate::common::pairs::Pair;
use crate::common::timed_pairs::TimedPair;
use crate::common::*;
use reference::calls::{Answer, Cause};
use reference::capacity::{Number, FEDERATION};
use reference::random::SplitMix64;
use reference::shares::{Store, StoreOf};
use reference::timed_shares::StoreOf as TimedStoreOf;

/// A history by way of these lengths, from the cleared store.
fn from_nothing(seed: u64, goals: &[usize]) {
    let mut pair = Pair::<u32>::new(seed);
    goals.iter().for_each(|&goal| pair.go_to(goal));
    if goals.last() == Some(&0) {
        assert!(pair.store == StoreOf::cleared());
    }
}

/// The same of a timed history.
fn timed_from_nothing(seed: u64, goals: &[usize]) {
    let mut pair = TimedPair::<u32>::new(seed);
    goals.iter().for_each(|&goal| pair.go_to(goal));
    if goals.last() == Some(&0) {
        assert!(pair.store == TimedStoreOf::cleared());
    }
}

#[test]
fn through_64_and_65_and_back_to_nothing() {
    from_nothing(500, &[6, 0, 3, 0, 70, 30, 36, 62, 66, 31, 140, 0]);
    timed_from_nothing(501, &[6, 0, 70, 30, 36, 62, 66, 0]);
}

/// Steps around a length, from a sheet of that length.
fn around(seed: u64, n: usize, by: usize) {
    let mut pair = Pair::<u32>::of_length(seed, n);
    assert_eq!(check(&pair.store), Answer::Checked { n });
    for goal in [n + by, n - by, n + 1, n] {
        pair.go_to(goal.min(FEDERATION.entries));
    }
}

fn timed_around(seed: u64, n: usize, by: usize) {
    let mut pair = TimedPair::<u32>::of_length(seed, n);
    assert_eq!(timed_check(&pair.store), Answer::Checked { n });
    for goal in [n + by, n - by, n + 1, n] {
        pair.go_to(goal.min(FEDERATION.entries));
    }
}

/// Where the clubs' sheets end, and where M passes theirs.
#[test]
fn around_1024_and_2047() {
    for (seed, n) in [(510, 1024), (511, 1025), (512, 2047), (513, 2048)] {
        around(seed, n, 12);
        timed_around(seed, n, 8);
    }
}

#[test]
fn around_4096() {
    around(520, 4096, 20);
    timed_around(521, 4096, 20);
}

/// Lists whose M go to 65,536, where counts of 13 levels begin, and beyond.
#[test]
fn around_32768() {
    around(530, 32_768, 6);
    timed_around(531, 32_768, 4);
}

/// Full and full again: cause 5 at 65,536 each time, and nowhere else.
#[test]
fn around_65536() {
    let full = FEDERATION.entries;
    let mut pair = Pair::<u32>::of_length(540, full - 20);
    for goal in [full, full - 20, full, full - 1] {
        pair.go_to(goal);
        let answer = insert(&mut pair.store.clone(), 5, 5, &[1; 9000]);
        let full_now = answer == Answer::Refused(Cause::Full);
        assert_eq!(
            (full_now, answer.number() == 0),
            (goal == full, goal != full)
        );
    }
    timed_around(541, full, 8);
}

/// The same with the least M that a full list can have and with the greatest, where
/// inserts and deletes set M anew.
#[test]
fn full_lists_of_the_extreme_sizes() {
    let full = FEDERATION.entries;
    for (seed, m) in [(550, full), (551, 2 * full - 1)] {
        let mut pair = Pair::<u32>::of_list(&boats(full as u64), m, SplitMix64::new(seed));
        for goal in [full - 2, full, full - 5, full - 3] {
            pair.go_to(goal);
        }
    }
}

/// Up to more entries than the clubs have, and on to none, one call after the other: each
/// call tests the store that the one before it left. The whole store is compared now and
/// then.
#[test]
fn up_to_4096_and_back() {
    let mut random = SplitMix64::new(560);
    let mut store = StoreOf::<u32>::cleared();
    let mut expected: Vec<u64> = Vec::new();
    for goal in [4100, 0] {
        while expected.len() != goal {
            let n = expected.len();
            let tape = words(&mut random, 4096);
            let answer = if goal > n {
                let (rank, entry) = (random.below(n + 1), random.entry());
                expected.insert(rank, entry);
                insert(&mut store, rank, entry, &tape)
            } else {
                let rank = random.below(n);
                expected.remove(rank);
                delete(&mut store, rank, &tape)
            };
            assert_eq!((answer.number(), answer.values()[0]), (0, expected.len()));
            if expected.len() % 16 == 0 {
                assert!(is_laid_out(&store));
                assert!(list(&store) == expected);
            }
        }
    }
    assert!(store == StoreOf::cleared());
}

/// The contents of a clubs' store, in the federation's.
fn widened(store: &Store) -> StoreOf<u32> {
    let mut wide = StoreOf::<u32>::cleared();
    wide.slots[..store.slots.len()].copy_from_slice(&store.slots);
    let numbers = |wide: &mut [u32], small: &[u16]| {
        let numbers = wide.iter_mut().zip(small);
        numbers.for_each(|(wide, small)| *wide = u32::of(small.value()));
    };
    numbers(&mut wide.counts, &store.counts);
    numbers(&mut wide.tallies, &store.tallies);
    wide
}

/// Up to 1,024 entries the same calls with the same tapes answer the same on both stores
/// and leave the same contents; there only the federation's takes one more.
#[test]
fn as_on_the_clubs_store() {
    let mut random = SplitMix64::new(570);
    let (mut small, mut wide) = (Store::cleared(), StoreOf::<u32>::cleared());
    for goal in [40, 20, 150, 60, 1024] {
        while n(&small) != goal {
            let (n, tape) = (n(&small), words(&mut random, 1024));
            let grow = (n < goal) == (random.below(8) != 0);
            let answers = if n == 0 || grow {
                let (rank, entry) = (random.below(n + 1), random.entry());
                let of_small = insert(&mut small, rank, entry, &tape);
                [of_small, insert(&mut wide, rank, entry, &tape)]
            } else {
                let rank = random.below(n);
                [
                    delete(&mut small, rank, &tape),
                    delete(&mut wide, rank, &tape),
                ]
            };
            assert_eq!((answers[0], answers[0].number()), (answers[1], 0));
            assert!(widened(&small) == wide);
        }
    }
    let tape = words(&mut random, 1024);
    assert_eq!(insert(&mut small, 7, 7, &tape).number(), 5);
    assert_eq!(insert(&mut wide, 7, 7, &tape).values()[0], 1025);
}
