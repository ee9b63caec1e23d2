//! Long random histories. After every call the store is the sheet that the
//! rules over whole lists give (`common::Model`), slot by slot.

mod common;

use common::pairs::Pair;
use common::*;
use reference::calls::{Answer, Cause};
use reference::random::SplitMix64;
use reference::shares::Store;

#[test]
fn through_nothing() {
    let mut pair = Pair::<u16>::new(10);
    for _ in 0..60 {
        pair.go_to(6);
        pair.go_to(0);
        assert!(pair.store == Store::cleared());
    }
}

#[test]
fn through_64_and_65() {
    let mut pair = Pair::<u16>::new(11);
    pair.go_to(30);
    for _ in 0..10 {
        pair.go_to(36);
        pair.go_to(70);
        pair.go_to(62);
        pair.go_to(31);
    }
}

#[test]
fn up_to_1024_and_back() {
    let mut pair = Pair::<u16>::new(12);
    pair.go_to(1024);
    for _ in 0..20 {
        assert_eq!(insert(&mut pair.store, 5, 5, &[0; 64]).number(), 5);
        pair.go_to(1000);
        pair.go_to(1024);
    }
    pair.go_to(0);
    assert!(pair.store == Store::cleared());
}

#[test]
fn many_seeds_at_many_lengths() {
    for seed in 0..12 {
        let mut pair = Pair::<u16>::new(100 + seed);
        for _ in 0..6 {
            let goal = pair.random.below(300);
            pair.go_to(goal);
        }
        clear(&mut pair.store);
        pair.model.clear();
        pair.go_to(20);
    }
}

/// The tape cut at every place, for every rank: refused and unchanged before
/// the last word read, accepted with the same sheet from there on.
#[test]
fn tapes_that_end_at_every_place() {
    let mut random = SplitMix64::new(13);
    for n in [1, 2, 5, 33, 34, 40, 66, 130, 520] {
        let sheet = sheet_of(n, &mut random);
        for rank in (0..=n).step_by(1 + n / 40) {
            let mut words = words(&mut random, 400);
            if rank % 3 == 0 {
                // Face 0 of the size step, so that the sheet is rebuilt.
                words[0] = 0;
            }
            cut_everywhere(&sheet, &words, |store, tape| insert(store, rank, 5, tape));
            if rank < n {
                cut_everywhere(&sheet, &words, |store, tape| delete(store, rank, tape));
            }
        }
    }
}

fn cut_everywhere(sheet: &Store, words: &[u32], call: impl Fn(&mut Store, &[u32]) -> Answer) {
    let mut changed = sheet.clone();
    let answer = call(&mut changed, words);
    let read = match answer {
        Answer::Changed { words, .. } => words,
        _ => panic!("refused: {answer:?}"),
    };
    let mut store = sheet.clone();
    for end in 0..read {
        let refused = call(&mut store, &words[..end]);
        assert_eq!(refused, Answer::Refused(Cause::TapeEnds));
        assert!(store == *sheet);
    }
    assert_eq!(call(&mut store, &words[..read]), answer);
    assert!(store == changed);
}
