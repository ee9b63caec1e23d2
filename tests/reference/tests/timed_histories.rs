//! Long random timed histories. After every call all four slices are those that
//! the rules over whole lists give (`common::Model`).

mod common;

use common::timed_pairs::TimedPair;
use reference::timed_shares::Store;

#[test]
fn through_64_and_65() {
    let mut pair = TimedPair::<u16>::new(20);
    for _ in 0..10 {
        for goal in [30, 36, 70, 62, 31, 140] {
            pair.go_to(goal);
        }
    }
}

#[test]
fn up_to_1024_and_back() {
    let mut pair = TimedPair::<u16>::new(21);
    for goal in [1024, 0] {
        pair.go_to(goal);
    }
    assert!(pair.store == Store::cleared());
}

#[test]
fn many_seeds_at_many_lengths() {
    for seed in 0..6 {
        let mut pair = TimedPair::<u16>::new(200 + seed);
        for _ in 0..6 {
            let goal = pair.random.below(300);
            pair.go_to(goal);
        }
    }
}
