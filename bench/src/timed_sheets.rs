//! The rows of timed sheets: check, insert and find of the proved library and of
//! the C side. There is no side in Rust for them. Before the measuring both are
//! compared with `tests/reference` on sheets and on damaged stores.

use crate::sides::{returned, Proved, Reference, Returned, Store, C};
use crate::{accepted, median, row, scan_time, time_of, Arguments, Taken, Within, ALL_WITHIN, ROUNDS, STORES};
use reference::places::{RETIRED, TIED};
use reference::random::SplitMix64;
use reference::timed;
use std::hint::black_box;

/// Stores of each length that are compared.
const TRIALS: usize = 400;

#[derive(Clone, Debug, PartialEq, Eq)]
pub struct TimedStore {
    pub plain: Store,
    pub balance: Vec<u64>,
}

impl TimedStore {
    fn empty() -> Self {
        TimedStore { plain: Store::empty(), balance: vec![0; timed::BALANCE] }
    }

    /// The entry of this rank.
    fn entry(&self, rank: usize) -> u64 {
        let mut entries = self.plain.slots.iter().copied().filter(|&slot| slot != 0);
        entries.nth(rank).expect("the rank is below N")
    }
}

/// The calls that are measured, and delete, each with all of its checks.
pub trait TimedSide {
    fn check(store: &TimedStore) -> Returned;
    fn find(store: &TimedStore, entry: u64) -> Returned;
    fn insert(store: &mut TimedStore, entry: u64, tape: &[u32]) -> Returned;
    fn delete(store: &mut TimedStore, rank: usize, tape: &[u32]) -> Returned;
}

/// A side that is called through the functions of `include/timed.h`, or others
/// that take and return the same. Each pointer comes from a live slice of the
/// length beside it, and no two slices overlap.
macro_rules! timed_side_in_c {
    ($side:ident, $check:ident, $find:ident, $insert:ident, $delete:ident) => {
        extern "C" {
            fn $check(
                slots: *const u64,
                slots_len: usize,
                counts: *const u16,
                counts_len: usize,
                tallies: *const u16,
                tallies_len: usize,
                balance: *const u64,
                balance_len: usize,
                answer: *mut u64,
                answer_len: usize,
            ) -> usize;
            fn $find(
                slots: *const u64,
                slots_len: usize,
                counts: *const u16,
                counts_len: usize,
                tallies: *const u16,
                tallies_len: usize,
                balance: *const u64,
                balance_len: usize,
                entry: u64,
                answer: *mut u64,
                answer_len: usize,
            ) -> usize;
            fn $insert(
                slots: *mut u64,
                slots_len: usize,
                counts: *mut u16,
                counts_len: usize,
                tallies: *mut u16,
                tallies_len: usize,
                balance: *mut u64,
                balance_len: usize,
                entry: u64,
                tape: *const u32,
                tape_len: usize,
                answer: *mut u64,
                answer_len: usize,
            ) -> usize;
            fn $delete(
                slots: *mut u64,
                slots_len: usize,
                counts: *mut u16,
                counts_len: usize,
                tallies: *mut u16,
                tallies_len: usize,
                balance: *mut u64,
                balance_len: usize,
                rank: usize,
                tape: *const u32,
                tape_len: usize,
                answer: *mut u64,
                answer_len: usize,
            ) -> usize;
        }

        impl TimedSide for $side {
            #[inline(never)]
            fn check(store: &TimedStore) -> Returned {
                let TimedStore { plain: Store { slots: s, counts: c, tallies: t }, balance: b } = store;
                let (s, s_len, c, c_len, t, t_len) = (s.as_ptr(), s.len(), c.as_ptr(), c.len(), t.as_ptr(), t.len());
                let mut a = [0; 2];
                let number = unsafe { $check(s, s_len, c, c_len, t, t_len, b.as_ptr(), b.len(), a.as_mut_ptr(), 2) };
                [number as u64, a[0], a[1], 0]
            }

            #[inline(never)]
            fn find(store: &TimedStore, entry: u64) -> Returned {
                let TimedStore { plain: Store { slots: s, counts: c, tallies: t }, balance: b } = store;
                let (s, s_len, c, c_len, t, t_len) = (s.as_ptr(), s.len(), c.as_ptr(), c.len(), t.as_ptr(), t.len());
                let mut a = [0; 2];
                let number = unsafe { $find(s, s_len, c, c_len, t, t_len, b.as_ptr(), b.len(), entry, a.as_mut_ptr(), 2) };
                [number as u64, a[0], a[1], 0]
            }

            #[inline(never)]
            fn insert(store: &mut TimedStore, entry: u64, tape: &[u32]) -> Returned {
                let TimedStore { plain: Store { slots: s, counts: c, tallies: t }, balance: b } = store;
                let (s, s_len, c, c_len, t, t_len) = (s.as_mut_ptr(), s.len(), c.as_mut_ptr(), c.len(), t.as_mut_ptr(), t.len());
                let (b, b_len, w, w_len, mut a) = (b.as_mut_ptr(), b.len(), tape.as_ptr(), tape.len(), [0; 2]);
                let number = unsafe { $insert(s, s_len, c, c_len, t, t_len, b, b_len, entry, w, w_len, a.as_mut_ptr(), 2) };
                [number as u64, a[0], a[1], 0]
            }

            #[inline(never)]
            fn delete(store: &mut TimedStore, rank: usize, tape: &[u32]) -> Returned {
                let TimedStore { plain: Store { slots: s, counts: c, tallies: t }, balance: b } = store;
                let (s, s_len, c, c_len, t, t_len) = (s.as_mut_ptr(), s.len(), c.as_mut_ptr(), c.len(), t.as_mut_ptr(), t.len());
                let (b, b_len, w, w_len, mut a) = (b.as_mut_ptr(), b.len(), tape.as_ptr(), tape.len(), [0; 2]);
                let number = unsafe { $delete(s, s_len, c, c_len, t, t_len, b, b_len, rank, w, w_len, a.as_mut_ptr(), 2) };
                [number as u64, a[0], a[1], 0]
            }
        }
    };
}

timed_side_in_c!(Proved, timed_check, timed_find, timed_insert, timed_delete);
timed_side_in_c!(C, c_timed_check, c_timed_find, c_timed_insert, c_timed_delete);

impl TimedSide for Reference {
    fn check(store: &TimedStore) -> Returned {
        returned(timed::check(&store.plain.slots, &store.plain.counts, &store.plain.tallies, &store.balance))
    }

    fn find(store: &TimedStore, entry: u64) -> Returned {
        returned(timed::find(&store.plain.slots, &store.plain.counts, &store.plain.tallies, &store.balance, entry))
    }

    fn insert(store: &mut TimedStore, entry: u64, tape: &[u32]) -> Returned {
        let TimedStore { plain: Store { slots, counts, tallies }, balance } = store;
        returned(timed::insert(slots, counts, tallies, balance, entry, tape))
    }

    fn delete(store: &mut TimedStore, rank: usize, tape: &[u32]) -> Returned {
        let TimedStore { plain: Store { slots, counts, tallies }, balance } = store;
        returned(timed::delete(slots, counts, tallies, balance, rank, tape))
    }
}

/// What the calls give on copies of their own: answers and stores.
fn given<S: TimedSide>(store: &TimedStore, entry: u64, a: &Arguments, n: usize) -> (Vec<Returned>, [TimedStore; 2]) {
    let mut stores = [store.clone(), store.clone()];
    let answers = vec![
        S::check(store),
        S::find(store, entry),
        S::insert(&mut stores[0], entry, &a.words),
        S::delete(&mut stores[1], a.rank(n + 1), &a.words),
    ];
    (answers, stores)
}

/// One damage to a store, which may leave it a timed sheet.
fn damage(store: &mut TimedStore, random: &mut SplitMix64) {
    let TimedStore { plain: Store { slots, counts, tallies }, balance } = store;
    let (slot, word) = (random.below(slots.len()), random.below(balance.len()));
    match random.below(12) {
        0 => balance[word] ^= 1 << random.below(64),
        1 => balance[word] ^= TIED,
        2 => balance[word] ^= RETIRED,
        3 => balance[word] = 0,
        4 => slots[slot] = 0,
        5 => slots[slot] = random.entry(),
        6 => slots[slot] ^= TIED,
        7 => slots[slot] ^= RETIRED,
        8 => counts[word] ^= 1,
        9 => tallies[word] ^= 1,
        10 => drop(tallies.pop()),
        _ => drop(balance.pop()),
    }
}

/// The measured sides give what the reference gives, on these sheets of n entries
/// and damaged.
fn compare(n: usize, stores: &[TimedStore], random: &mut SplitMix64) {
    for trial in 0..TRIALS {
        let mut store = stores[trial % stores.len()].clone();
        let a = Arguments::new(random);
        let there = store.entry(a.rank(n));
        let entry = [a.entry, there, there ^ TIED, there ^ RETIRED, there + 1, 0, TIED, RETIRED][random.below(8)];
        if trial % 2 == 0 {
            damage(&mut store, random);
        }
        let expected = given::<Reference>(&store, entry, &a, n);
        assert!(given::<Proved>(&store, entry, &a, n) == expected, "the proved library differs from the reference at N = {n}, trial {trial}");
        assert!(given::<C>(&store, entry, &a, n) == expected, "the C side differs from the reference at N = {n}, trial {trial}");
    }
}

/// The nanoseconds of each kind of call, in one measurement.
#[derive(Default)]
struct Times {
    check: f64,
    insert: f64,
    find: f64,
}

/// The entries that are asked for, for each round and each store; in every second
/// round they are there.
fn asked(n: usize, stores: &[TimedStore], arguments: &[Arguments]) -> Vec<Vec<u64>> {
    let entry = |there, store: &TimedStore, a: &Arguments| if there { store.entry(a.rank(n)) } else { a.entry };
    let rounds = arguments.chunks_exact(2 * stores.len()).enumerate();
    rounds.map(|(k, round)| stores.iter().zip(round).map(|(store, a)| entry(k % 2 == 0, store, a)).collect()).collect()
}

/// One measurement on stores of n entries. Every insert is followed by a delete,
/// which is not measured.
fn measure<S: TimedSide>(n: usize, stores: &mut [TimedStore], arguments: &[Arguments]) -> Times {
    let calls = stores.len() * ROUNDS;
    let mut times = Times::default();
    for round in arguments.chunks_exact(2 * stores.len()) {
        let (inserts, deletes) = round.split_at(stores.len());
        times.insert += time_of(calls, || {
            for (store, a) in stores.iter_mut().zip(inserts) {
                accepted(S::insert(store, a.entry, &a.words));
            }
        });
        for (store, a) in stores.iter_mut().zip(deletes) {
            accepted(S::delete(store, a.rank(n + 1), &a.words));
        }
    }
    let asked = asked(n, stores, arguments);
    times.check = time_of(calls, || {
        for _ in &asked {
            for store in &*stores {
                accepted(S::check(black_box(store)));
            }
        }
    });
    times.find = time_of(calls, || {
        for entries in &asked {
            for (store, &entry) in stores.iter().zip(entries) {
                accepted(S::find(black_box(store), entry));
            }
        }
    });
    times
}

/// The stores that are measured, of n entries each.
pub fn sheets(n: usize, random: &mut SplitMix64) -> Vec<TimedStore> {
    let mut stores = vec![TimedStore::empty(); STORES];
    for store in &mut stores {
        for a in Arguments::list(random, n) {
            accepted(Proved::insert(store, a.entry, &a.words));
        }
    }
    stores
}

/// The rows of timed sheets of n entries, and what a find of the proved library
/// costs above a check, in nanoseconds.
pub fn rows(n: usize, times: usize, random: &mut SplitMix64) -> (Within, f64) {
    let stores = sheets(n, random);
    compare(n, &stores, random);
    let plain: Vec<Store> = stores.iter().map(|store| store.plain.clone()).collect();
    let mut sides = [stores.clone(), stores];
    let measures: [fn(usize, &mut [TimedStore], &[Arguments]) -> Times; 2] = [measure::<Proved>, measure::<C>];
    let mut taken = [Vec::new(), Vec::new()];
    let mut scans = Vec::new();
    for turn in 0..times {
        let arguments = Arguments::list(random, 2 * STORES * ROUNDS);
        for side in (0..2).map(|side| (side + turn) % 2) {
            taken[side].push(measures[side](n, &mut sides[side], &arguments));
        }
        assert!(sides[0] == sides[1], "both sides leave the same stores");
        scans.push(scan_time(&plain));
    }
    let kinds: [(&str, fn(&Times) -> f64); 3] = [("timed check", |t| t.check), ("timed insert", |t| t.insert), ("timed find", |t| t.find)];
    let within = kinds.iter().fold(ALL_WITHIN, |within, (kind, time)| {
        let [proved, c] = [0, 1].map(|side: usize| taken[side].iter().map(time).collect());
        within.and(row(kind, &n.to_string(), &Taken { proved, c, plain: None }, median(&scans), None))
    });
    let above: Vec<f64> = taken[0].iter().map(|t| t.find - t.check).collect();
    (within, median(&above))
}
