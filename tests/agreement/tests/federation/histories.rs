//! Random histories of calls, refused ones among them, from the empty sheet and from sheets of
//! many lengths; calls that set M anew; and the clubs' histories on this store.

use crate::{called, sheet, sheet_of, tape, Store, Timed, FULL};
use agreement::histories::{history_from, Met, BORDER, SHORT};
use agreement::{say, timed, timed_histories, Both, Call};
use reference::capacity::Number;
use reference::random::SplitMix64;

/// A plain and a timed history of so many calls each, from these stores.
fn both_kinds(met: &mut [Met; 2], store: Timed, seed: u64, calls: u64, targets: &[usize]) {
    met[0].add(history_from(store.plain(), seed, calls, targets));
    met[1].add(timed_histories::history_from(store, seed, calls, targets));
}

/// Each of these causes was met, by the timed histories cause 10 too.
fn assert_met(met: [Met; 2], causes: &[usize]) {
    say(&format!("{} calls", met[0].calls() + met[1].calls()));
    met[0].assert_met(causes);
    met[1].assert_met(causes);
    met[1].assert_met(&[10]);
}

#[test]
fn short_lists() {
    let mut met = Default::default();
    for seed in 8000..8003 {
        both_kinds(&mut met, Timed::unused(), seed, 700, SHORT);
    }
    assert_met(met, &[0, 2, 3, 4, 7, 16]);
}

#[test]
fn from_one_range_to_many() {
    let mut met = Default::default();
    for seed in 8010..8013 {
        both_kinds(&mut met, Timed::unused(), seed, 800, BORDER);
    }
    assert_met(met, &[0, 2, 3, 4, 6, 7, 16]);
}

/// Around the lengths where the clubs' sheets end, where M passes theirs and where the trees
/// get more levels.
#[test]
fn around_long_lists() {
    let mut random = SplitMix64::new(8020);
    let mut met = Default::default();
    for (seed, n) in (8021..).zip([1024, 2047, 4096, 8192, 16_384, 32_768]) {
        both_kinds(&mut met, sheet(n, &mut random), seed, 300, &[n - 6, n, n + 1, n + 6]);
    }
    assert_met(met, &[0, 3, 4, 6, 7, 16]);
}

/// From the longest lists, of the least M, of one between and of the greatest.
#[test]
fn full_and_back() {
    let mut random = SplitMix64::new(8030);
    let mut met = Default::default();
    for (seed, m) in (8031..).zip([FULL, 90_000, 2 * FULL - 1]) {
        both_kinds(&mut met, sheet_of(FULL, m, &mut random), seed, 400, &[FULL - 6, FULL - 1, FULL, FULL]);
    }
    assert_met(met, &[0, 3, 4, 5, 6, 7, 16]);
}

/// A change that brings a list of n entries nearer to the target, or to it.
fn change(random: &mut SplitMix64, n: usize, target: usize) -> Call {
    let tape = tape(random);
    if n < target {
        Call::Insert { rank: random.below(n + 1), entry: random.entry(), tape }
    } else {
        Call::Delete { rank: random.below(n), tape }
    }
}

/// One call after the other, from nothing to 4,100 entries and back to nothing, where what a
/// smaller sheet does not use is zero again.
#[test]
fn up_to_4100_and_back() {
    let mut random = SplitMix64::new(8040);
    let mut both = Both::new(8040, Store::unused());
    both.call(Call::Clear);
    for target in [4100, 0] {
        while both.store.n() != target {
            let call = change(&mut random, both.store.n(), target);
            assert_eq!(both.call(call)[0], 0);
        }
    }
    assert!(both.store == Store::cleared());
    say(&format!("{} calls", both.made()));
}

/// Inserts and deletes by which M is kept or set anew, as the first word of the tape decides,
/// on sheets of the least and of the greatest M and of one between them.
#[test]
fn sizes_set_anew() {
    let mut random = SplitMix64::new(8050);
    let (mut kept, mut anew) = (0, 0);
    for n in [1, 2, 64, 65, 1024, 1025, 2047, 2048, 4096, 8000, 16_384, 32_768, 65_535, FULL] {
        for m in [n, n + random.below(n), (2 * n - 2).max(n), 2 * n - 1] {
            let sheet = sheet_of(n, m, &mut random);
            for first in [0, 1, random.next_u32()] {
                let mut words = tape(&mut random);
                words[0] = first;
                let (rank, entry) = (random.below(n), random.entry() | 1);
                let insert = called(&sheet.plain(), Call::Insert { rank, entry, tape: words.clone() });
                let timed_insert = called(&sheet, timed::Call::Insert { entry, tape: words.clone() });
                let delete = called(&sheet.plain(), Call::Delete { rank, tape: words.clone() });
                let timed_delete = called(&sheet, timed::Call::Delete { rank, tape: words });
                let longer = if n == FULL { [5, 0] } else { [0, n as u64 + 1] };
                assert_eq!([&insert.0[..2], &timed_insert.0[..2]], [longer; 2], "N {n} M {m}");
                assert_eq!([&delete.0[..2], &timed_delete.0[..2]], [[0, n as u64 - 1]; 2], "N {n} M {m}");
                assert!(delete.1 == timed_delete.1.plain(), "N {n} M {m}");
                for store in [insert.1, timed_insert.1.plain(), delete.1] {
                    assert_eq!(called(&store, Call::Check).0, [0, store.n() as u64, 0, 0], "N {n} M {m}");
                    *if store.counts[0].value() == m { &mut kept } else { &mut anew } += 1;
                }
            }
        }
    }
    assert!(kept > 100 && anew > 100, "M kept {kept} times, set anew {anew} times");
}

/// The contents of a clubs' store, in the federation's.
fn widened(store: &agreement::Store) -> Store {
    let mut wide = Store::cleared();
    wide.slots[..store.slots.len()].copy_from_slice(&store.slots);
    for (wide, small) in wide.counts.iter_mut().zip(&store.counts) {
        *wide = u32::from(*small);
    }
    for (wide, small) in wide.tallies.iter_mut().zip(&store.tallies) {
        *wide = u32::from(*small);
    }
    wide
}

/// Up to 1,024 entries the same calls with the same tapes answer the same on both stores and
/// leave the same contents; there only the federation's takes one more.
#[test]
fn as_on_the_clubs_store() {
    let mut random = SplitMix64::new(8060);
    let mut small = Both::new(8060, agreement::Store::cleared());
    let mut wide = Both::new(8060, Store::cleared());
    for target in [70, 30, 300, 200, 1024] {
        while small.store.n() != target {
            let call = change(&mut random, small.store.n(), target);
            assert_eq!(small.call(call.clone()), wide.call(call));
            assert!(widened(&small.store) == wide.store);
        }
    }
    let call = change(&mut random, 1024, 1025);
    assert_eq!(small.call(call.clone()), [5, 0, 0, 0]);
    assert_eq!(wide.call(call)[..2], [0, 1025]);
}
