//! The tables of the federation's store (document 02, F-14), of the proved library: check, insert and
//! delete in bare scans of that store, each beside its goal; and what a change costs beyond a check.
//!
//! A store of so many entries is laid out by `tests/reference`: a sheet that a history leaves has every
//! M from N to 2N − 1 alike, and each balance entry is any of its candidates alike. The stores of a row have
//! M out of equal parts of that interval. In each round every store is checked, then one entry goes out of
//! it and one comes in, at random ranks with random words: the longest list takes no insert before a
//! delete. A change may lay out a part of any size anew, as its draws decide; all that come are in the
//! times. The median is that of the measurements, each of which is the mean of its calls; the mean is that of all
//! calls, in which the rare large parts have their share.
//!
//! Before the measuring the calls are compared with `tests/reference`, on sheets and on damaged stores.

use crate::sides::{returned, Returned};
use crate::{accepted, median, retired_one_in, time_of, RETIRED_IN, ROUNDS, STORES};
use reference::capacity::FEDERATION;
use reference::layout::{Node, Shape, SIZE};
use reference::places::{RETIRED, TIED};
use reference::random::SplitMix64;
use reference::{calls, timed};
use std::hint::black_box;

/// The proved library may take this many times the goal.
const BOUND: f64 = 1.5;
/// What C written for speed needs in bare scans, by the request: 2.3 for a check of 65,536 entries, 1.9 for an
/// insert or a delete with 50,000. The other rows have no goal.
const GOALS: [Goal; 2] = [
    Goal { n: 65_536, check: Some(2.3), change: None },
    Goal { n: 50_000, check: None, change: Some(1.9) },
];
/// The lengths for which the cost of a change beyond its check is shown.
const LENGTHS: [usize; 3] = [1000, 8000, 65_536];
/// More words than any call on 65,536 entries reads, but for rejected ones.
const TAPE: usize = 2304;
/// Stores of each length that are compared.
const TRIALS: usize = 24;

struct Goal {
    n: usize,
    check: Option<f64>,
    change: Option<f64>,
}

/// A store of the federation; plain calls take all but the third slice.
#[derive(Clone, PartialEq, Eq)]
struct Store {
    slots: Vec<u64>,
    counts: Vec<u32>,
    tallies: Vec<u32>,
    balance: Vec<u64>,
}

impl Store {
    /// The sheet of this list and size with random balance entries.
    fn new(list: &[u64], m: usize, random: &mut SplitMix64) -> Store {
        let shape = Shape::of(m);
        let (mut slots, mut counts) = (vec![0; FEDERATION.slots], vec![0u32; FEDERATION.counts]);
        counts[SIZE] = m as u32;
        shape.set_count(&mut counts, Node::ROOT, list.len());
        for node in (0..shape.height).flat_map(Node::all_at) {
            let n = shape.count(&counts, node);
            let candidates = shape.candidate_positions(node.depth, n);
            let left = candidates.start + random.below(candidates.len());
            shape.set_count(&mut counts, node.left(), left);
            shape.set_count(&mut counts, node.right(), n - left);
        }
        shape.lay_out(Node::ROOT, &mut slots, &counts, list);
        let tallies = shape.tallies(&slots);
        let balance = timed::balance_entries(&slots, &counts, &tallies).expect("a sheet");
        Store { slots, counts, tallies, balance }
    }
}

/// Sheets of n entries whose keys rise.
fn sheets(n: usize, random: &mut SplitMix64) -> Vec<Store> {
    let part = n / STORES;
    let mut sheet = |k: usize| {
        let mut list: Vec<u64> = (0..n).map(|_| entry(random)).collect();
        list.sort_unstable_by_key(|&entry| timed::key(entry));
        let m = n + k * part + random.below(part);
        Store::new(&list, m, random)
    };
    (0..STORES).map(&mut sheet).collect()
}

/// A random entry with a key, which in one case of so many is that of a retired boat.
fn entry(random: &mut SplitMix64) -> u64 {
    retired_one_in(RETIRED_IN, random.entry() | 1, random)
}

/// Arguments for a call on a store of any length.
struct Arguments {
    rank: u64,
    entry: u64,
    words: Vec<u32>,
}

impl Arguments {
    fn new(random: &mut SplitMix64) -> Self {
        let mut words = vec![0; TAPE];
        random.fill(&mut words);
        Arguments { rank: random.next_u64() >> 32, entry: entry(random), words }
    }

    /// A rank below this bound.
    fn rank(&self, bound: usize) -> usize {
        (self.rank * bound as u64 >> 32) as usize
    }
}

/// The calls that are measured, of plain or of timed sheets. An insert into a timed sheet goes by its entry.
trait Calls {
    const KIND: &'static str;
    fn check(store: &Store) -> Returned;
    fn insert(store: &mut Store, rank: usize, entry: u64, tape: &[u32]) -> Returned;
    fn delete(store: &mut Store, rank: usize, tape: &[u32]) -> Returned;
}

extern "C" {
    fn federation_check(
        slots: *const u64,
        slots_len: usize,
        counts: *const u32,
        counts_len: usize,
        tallies: *const u32,
        tallies_len: usize,
        answer: *mut u64,
        answer_len: usize,
    ) -> usize;
    fn federation_insert(
        slots: *mut u64,
        slots_len: usize,
        counts: *mut u32,
        counts_len: usize,
        tallies: *mut u32,
        tallies_len: usize,
        rank: usize,
        entry: u64,
        tape: *const u32,
        tape_len: usize,
        answer: *mut u64,
        answer_len: usize,
    ) -> usize;
    fn federation_delete(
        slots: *mut u64,
        slots_len: usize,
        counts: *mut u32,
        counts_len: usize,
        tallies: *mut u32,
        tallies_len: usize,
        rank: usize,
        tape: *const u32,
        tape_len: usize,
        answer: *mut u64,
        answer_len: usize,
    ) -> usize;
    fn federation_timed_check(
        slots: *const u64,
        slots_len: usize,
        counts: *const u32,
        counts_len: usize,
        tallies: *const u32,
        tallies_len: usize,
        balance: *const u64,
        balance_len: usize,
        answer: *mut u64,
        answer_len: usize,
    ) -> usize;
    fn federation_timed_insert(
        slots: *mut u64,
        slots_len: usize,
        counts: *mut u32,
        counts_len: usize,
        tallies: *mut u32,
        tallies_len: usize,
        balance: *mut u64,
        balance_len: usize,
        entry: u64,
        tape: *const u32,
        tape_len: usize,
        answer: *mut u64,
        answer_len: usize,
    ) -> usize;
    fn federation_timed_delete(
        slots: *mut u64,
        slots_len: usize,
        counts: *mut u32,
        counts_len: usize,
        tallies: *mut u32,
        tallies_len: usize,
        balance: *mut u64,
        balance_len: usize,
        rank: usize,
        tape: *const u32,
        tape_len: usize,
        answer: *mut u64,
        answer_len: usize,
    ) -> usize;
}

/// The proved library's calls on plain and on timed sheets. Each pointer comes from a live slice of the length
/// beside it, and no two slices overlap.
struct PlainCalls;
struct TimedCalls;

impl Calls for PlainCalls {
    const KIND: &'static str = "plain";

    #[inline(never)]
    fn check(store: &Store) -> Returned {
        let Store { slots: s, counts: c, tallies: t, .. } = store;
        let mut a = [0; 2];
        let number = unsafe { federation_check(s.as_ptr(), s.len(), c.as_ptr(), c.len(), t.as_ptr(), t.len(), a.as_mut_ptr(), 2) };
        [number as u64, a[0], a[1], 0]
    }

    #[inline(never)]
    fn insert(store: &mut Store, rank: usize, entry: u64, tape: &[u32]) -> Returned {
        let Store { slots: s, counts: c, tallies: t, .. } = store;
        let (s, s_len, c, c_len, t, t_len) = (s.as_mut_ptr(), s.len(), c.as_mut_ptr(), c.len(), t.as_mut_ptr(), t.len());
        let mut a = [0; 2];
        let number = unsafe { federation_insert(s, s_len, c, c_len, t, t_len, rank, entry, tape.as_ptr(), tape.len(), a.as_mut_ptr(), 2) };
        [number as u64, a[0], a[1], 0]
    }

    #[inline(never)]
    fn delete(store: &mut Store, rank: usize, tape: &[u32]) -> Returned {
        let Store { slots: s, counts: c, tallies: t, .. } = store;
        let (s, s_len, c, c_len, t, t_len) = (s.as_mut_ptr(), s.len(), c.as_mut_ptr(), c.len(), t.as_mut_ptr(), t.len());
        let mut a = [0; 2];
        let number = unsafe { federation_delete(s, s_len, c, c_len, t, t_len, rank, tape.as_ptr(), tape.len(), a.as_mut_ptr(), 2) };
        [number as u64, a[0], a[1], 0]
    }
}

impl Calls for TimedCalls {
    const KIND: &'static str = "timed";

    #[inline(never)]
    fn check(store: &Store) -> Returned {
        let Store { slots: s, counts: c, tallies: t, balance: b } = store;
        let (s, s_len, c, c_len, t, t_len) = (s.as_ptr(), s.len(), c.as_ptr(), c.len(), t.as_ptr(), t.len());
        let mut a = [0; 2];
        let number = unsafe { federation_timed_check(s, s_len, c, c_len, t, t_len, b.as_ptr(), b.len(), a.as_mut_ptr(), 2) };
        [number as u64, a[0], a[1], 0]
    }

    #[inline(never)]
    fn insert(store: &mut Store, _: usize, entry: u64, tape: &[u32]) -> Returned {
        let Store { slots: s, counts: c, tallies: t, balance: b } = store;
        let (s, s_len, c, c_len, t, t_len) = (s.as_mut_ptr(), s.len(), c.as_mut_ptr(), c.len(), t.as_mut_ptr(), t.len());
        let (b, b_len, w, w_len, mut a) = (b.as_mut_ptr(), b.len(), tape.as_ptr(), tape.len(), [0; 2]);
        let number = unsafe { federation_timed_insert(s, s_len, c, c_len, t, t_len, b, b_len, entry, w, w_len, a.as_mut_ptr(), 2) };
        [number as u64, a[0], a[1], 0]
    }

    #[inline(never)]
    fn delete(store: &mut Store, rank: usize, tape: &[u32]) -> Returned {
        let Store { slots: s, counts: c, tallies: t, balance: b } = store;
        let (s, s_len, c, c_len, t, t_len) = (s.as_mut_ptr(), s.len(), c.as_mut_ptr(), c.len(), t.as_mut_ptr(), t.len());
        let (b, b_len, w, w_len, mut a) = (b.as_mut_ptr(), b.len(), tape.as_ptr(), tape.len(), [0; 2]);
        let number = unsafe { federation_timed_delete(s, s_len, c, c_len, t, t_len, b, b_len, rank, w, w_len, a.as_mut_ptr(), 2) };
        [number as u64, a[0], a[1], 0]
    }
}

/// The second implementation's calls: not measured, the others are compared with them.
struct PlainReference;
struct TimedReference;

impl Calls for PlainReference {
    const KIND: &'static str = PlainCalls::KIND;

    fn check(store: &Store) -> Returned {
        returned(calls::check(&store.slots, &store.counts, &store.tallies))
    }

    fn insert(store: &mut Store, rank: usize, entry: u64, tape: &[u32]) -> Returned {
        returned(calls::insert(&mut store.slots, &mut store.counts, &mut store.tallies, rank, entry, tape))
    }

    fn delete(store: &mut Store, rank: usize, tape: &[u32]) -> Returned {
        returned(calls::delete(&mut store.slots, &mut store.counts, &mut store.tallies, rank, tape))
    }
}

impl Calls for TimedReference {
    const KIND: &'static str = TimedCalls::KIND;

    fn check(store: &Store) -> Returned {
        returned(timed::check(&store.slots, &store.counts, &store.tallies, &store.balance))
    }

    fn insert(store: &mut Store, _: usize, entry: u64, tape: &[u32]) -> Returned {
        let Store { slots, counts, tallies, balance } = store;
        returned(timed::insert(slots, counts, tallies, balance, entry, tape))
    }

    fn delete(store: &mut Store, rank: usize, tape: &[u32]) -> Returned {
        let Store { slots, counts, tallies, balance } = store;
        returned(timed::delete(slots, counts, tallies, balance, rank, tape))
    }
}

/// What the calls give: answers and stores. An insert into the longest list is refused, and so the entry comes in
/// once more after the delete.
fn given<S: Calls>(n: usize, store: &Store, a: &Arguments) -> ([Returned; 4], [Store; 2]) {
    let mut stores = [store.clone(), store.clone()];
    let answers = [
        S::check(store),
        S::insert(&mut stores[0], a.rank(n + 1), a.entry, &a.words),
        S::delete(&mut stores[1], a.rank(n + 1), &a.words),
        S::insert(&mut stores[1], a.rank(n), a.entry, &a.words),
    ];
    (answers, stores)
}

/// One damage to a store, which may leave it a sheet.
fn damage(store: &mut Store, random: &mut SplitMix64) {
    let (slot, number) = (random.below(store.slots.len()), random.below(store.counts.len()));
    match random.below(8) {
        0 => store.slots[slot] = 0,
        1 => store.slots[slot] = random.entry(),
        2 => store.slots[slot] ^= RETIRED,
        3 => store.slots[slot] ^= TIED,
        4 => store.counts[number] ^= 1 << random.below(32),
        5 => store.tallies[number] ^= 1 << random.below(32),
        6 => store.balance[number] ^= 1 << random.below(64),
        _ => drop(store.tallies.pop()),
    }
}

/// The proved library gives what the reference gives, on these sheets of n entries and damaged.
fn compare<S: Calls, R: Calls>(n: usize, stores: &[Store], random: &mut SplitMix64) {
    for trial in 0..TRIALS {
        let mut store = stores[trial % stores.len()].clone();
        if trial % 2 == 1 {
            damage(&mut store, random);
        }
        let a = Arguments::new(random);
        let same = given::<S>(n, &store, &a) == given::<R>(n, &store, &a);
        assert!(same, "the proved library differs from the reference at N = {n}, {} trial {trial}", S::KIND);
    }
}

/// The bytes of a store read once, its slots in blocks of 64, as those of the clubs' store are.
#[inline(never)]
fn scan(store: &Store) -> u64 {
    let join = |any: u64, block: &[u64]| block.iter().fold(any, |any, &slot| any | slot);
    let slots = store.slots.chunks_exact(64).fold(0, join);
    let numbers = store.counts.iter().chain(&store.tallies).fold(0, |any, &number| any | number);
    slots | u64::from(numbers)
}

/// The nanoseconds of each kind of call, in one measurement.
struct Times {
    scan: f64,
    check: f64,
    insert: f64,
    delete: f64,
}

/// One measurement on stores of n entries, which have n entries again at the end.
fn measure<S: Calls>(n: usize, stores: &mut [Store], arguments: &[Arguments]) -> Times {
    let calls = stores.len() * ROUNDS;
    let mut times = Times { scan: 0.0, check: 0.0, insert: 0.0, delete: 0.0 };
    for round in arguments.chunks_exact(2 * stores.len()) {
        let (inserts, deletes) = round.split_at(stores.len());
        times.scan += time_of(calls, || {
            for store in &*stores {
                black_box(scan(black_box(store)));
            }
        });
        times.check += time_of(calls, || {
            for store in &*stores {
                accepted(S::check(black_box(store)));
            }
        });
        times.delete += time_of(calls, || {
            for (store, a) in stores.iter_mut().zip(deletes) {
                accepted(S::delete(store, a.rank(n), &a.words));
            }
        });
        times.insert += time_of(calls, || {
            for (store, a) in stores.iter_mut().zip(inserts) {
                accepted(S::insert(store, a.rank(n), a.entry, &a.words));
            }
        });
    }
    times
}

/// The measurements of stores of n entries, so many.
fn taken<S: Calls, R: Calls>(n: usize, times: usize, random: &mut SplitMix64) -> Vec<Times> {
    let mut stores = sheets(n, random);
    compare::<S, R>(n, &stores, random);
    let mut turn = || {
        let arguments: Vec<Arguments> = (0..2 * STORES * ROUNDS).map(|_| Arguments::new(random)).collect();
        measure::<S>(n, &mut stores, &arguments)
    };
    (0..times).map(|_| turn()).collect()
}

/// The median and the mean of a value of the measurements.
fn middle_and_mean(taken: &[Times], value: impl Fn(&Times) -> f64) -> (f64, f64) {
    let values: Vec<f64> = taken.iter().map(value).collect();
    (median(&values), values.iter().sum::<f64>() / values.len() as f64)
}

/// The rows of one length: whether all that have a goal are within the bound.
fn rows(goals: &Goal, times: usize, random: &mut SplitMix64) -> bool {
    let n = goals.n;
    let taken = taken::<PlainCalls, PlainReference>(n, times, random);
    let (scan, _) = middle_and_mean(&taken, |t| t.scan);
    let kinds: [(&str, fn(&Times) -> f64, Option<f64>); 3] =
        [("check", |t| t.check, goals.check), ("insert", |t| t.insert, goals.change), ("delete", |t| t.delete, goals.change)];
    kinds.iter().fold(true, |all, (kind, time, goal)| {
        let (ns, mean) = middle_and_mean(&taken, time);
        let scans = ns / scan;
        let within = goal.map_or(true, |goal| scans <= BOUND * goal);
        println!(
            "| {kind:6} | {n:>5} | {ns:>8.0} | {mean:>8.0} | {scan:>7.0} | {scans:>5.2} | {:>4} |{}",
            goal.map_or(String::new(), |goal| format!("{goal:.1}")),
            if within { "" } else { " ABOVE THE GOAL" },
        );
        all && within
    })
}

/// The row of what changes cost beyond a check, with n entries.
fn row_beyond<S: Calls, R: Calls>(n: usize, times: usize, random: &mut SplitMix64) {
    let taken = taken::<S, R>(n, times, random);
    let (check, _) = middle_and_mean(&taken, |t| t.check);
    let (insert, insert_mean) = middle_and_mean(&taken, |t| t.insert - t.check);
    let (delete, delete_mean) = middle_and_mean(&taken, |t| t.delete - t.check);
    println!("| {:5} | {n:>5} | {check:>8.0} | {insert:>8.0} | {insert_mean:>8.0} | {delete:>8.0} | {delete_mean:>8.0} |", S::KIND);
}

/// Prints the tables, by a quarter of the measurements of the clubs' rows: whether every row that has a goal is within
/// its bound.
pub fn tables(times: usize, random: &mut SplitMix64) -> bool {
    let times = times.div_ceil(4);
    let calls = STORES * ROUNDS;
    println!("the federation's store, ns per call: medians of {times} measurements of {calls} calls, and means of all calls; proved library");
    println!();
    println!("| call   |     N |   median |     mean |    scan | /scan | goal |");
    println!("|--------|-------|----------|----------|---------|-------|------|");
    let within = GOALS.iter().fold(true, |all, goals| rows(goals, times, random) && all);
    println!();
    println!("ns that a change on the federation's store costs beyond a check: medians and means as above; proved library");
    println!();
    println!("| kind  |     N |    check |   insert |     mean |   delete |     mean |");
    println!("|-------|-------|----------|----------|----------|----------|----------|");
    for n in LENGTHS {
        row_beyond::<PlainCalls, PlainReference>(n, times, random);
    }
    for n in LENGTHS {
        row_beyond::<TimedCalls, TimedReference>(n, times, random);
    }
    within
}
