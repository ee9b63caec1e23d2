//! One table: what each call costs in the proved library, in C and in Rust,
//! beside a bare scan of the store's bytes; then the calls on timed sheets, in
//! the proved library and in C; then a table of boards beside single reads
//! ([`boards`]), one of mending beside checks ([`mends`]), and those of the federation's
//! store ([`federation`]).
//!
//! Every row is measured many times, the sides in turn and on equal stores with
//! equal arguments and tapes. A row shows the median of each side. The ratio is
//! to the faster of the C and the Rust side, taken from times next to each other:
//! the median, and between which values the middle four fifths lie. The goal of
//! a row is a cost in bare scans (docs/PERFORMANCE.md).
//!
//! Entries are random: every second one bears bit 63, so that a tied group has
//! two boats on the average, and one in 50 is that of a retired boat. Some rows are on
//! copies of the stores: "place tied" where all boats bear bit 63, "check none", "insert
//! none" and "delete none" where no boat has retired, "check many" and "place many" where
//! about half of them have.
//!
//! Before the measuring all sides are compared with `tests/reference`
//! ([`compare`]), before each length with each other, and after each turn the
//! stores of all sides are equal.

mod boards;
mod compare;
mod federation;
mod mends;
mod plain;
mod sides;
mod timed_sheets;
mod tree_order;

use reference::layout::Shape;
use reference::places::{RETIRED, TIED};
use reference::random::SplitMix64;
use sides::{Plain, Proved, Returned, Side, Store, C};
use std::hint::black_box;
use std::process::ExitCode;
use std::time::Instant;

/// The proved library may take this many times what the faster of the two other
/// sides takes, and this many times its goal in bare scans.
const BOUND: f64 = 1.25;
const LENGTHS: [usize; 5] = [8, 64, 200, 512, 1000];
/// Stores of one length, each with a history of its own.
const STORES: usize = 4;
/// Calls on each store in one measurement.
const ROUNDS: usize = 16;
/// More words than any call on 1,024 entries reads, but for rejected ones.
const TAPE: usize = 192;
const BUILT: usize = 1000;
/// One entry in so many is that of a retired boat.
const RETIRED_IN: usize = 50;

/// Arguments for a call on a store of any length.
struct Arguments {
    rank: u64,
    entry: u64,
    words: Vec<u32>,
}

impl Arguments {
    fn new(random: &mut SplitMix64) -> Self {
        let mut words = vec![0; TAPE];
        random.fill(&mut words);
        Arguments {
            rank: random.next_u64() >> 32,
            entry: retired_one_in(RETIRED_IN, random.entry() | 1, random),
            words,
        }
    }

    /// A rank below this bound.
    fn rank(&self, bound: usize) -> usize {
        (self.rank * bound as u64 >> 32) as usize
    }

    fn list(random: &mut SplitMix64, count: usize) -> Vec<Arguments> {
        (0..count).map(|_| Arguments::new(random)).collect()
    }
}

/// The entry, which in one case of so many is that of a retired boat.
fn retired_one_in(cases: usize, entry: u64, random: &mut SplitMix64) -> u64 {
    entry & !RETIRED | if random.below(cases) == 0 { RETIRED } else { 0 }
}

fn accepted(returned: Returned) {
    assert_eq!(returned[0], 0, "the call is accepted");
}

/// A sheet of n entries put in at random ranks.
fn build<S: Side>(store: &mut Store, arguments: &[Arguments]) {
    for (n, a) in arguments.iter().enumerate() {
        accepted(S::insert(store, a.rank(n + 1), a.entry, &a.words));
    }
}

/// What the calls of one measurement took, in nanoseconds for one call.
fn time_of(calls: usize, run: impl FnOnce()) -> f64 {
    let start = Instant::now();
    run();
    start.elapsed().as_nanos() as f64 / calls as f64
}

/// The nanoseconds of each call kind, in one measurement.
#[derive(Default)]
struct Times {
    check: f64,
    insert: f64,
    delete: f64,
    read: f64,
    place: f64,
    tied: f64,
    check_none: f64,
    insert_none: f64,
    delete_none: f64,
    check_many: f64,
    place_many: f64,
}

/// A kind of call: its name, its time in a measurement, and its goal at each length, in bare scans of the store, if it has one.
type Kind = (&'static str, fn(&Times) -> f64, Option<[f64; LENGTHS.len()]>);

const KINDS: [Kind; 11] = [
    ("check", |t| t.check, Some([1.2, 1.3, 1.7, 2.5, 3.8])),
    ("insert", |t| t.insert, Some([1.3, 1.9, 2.4, 3.9, 5.5])),
    ("delete", |t| t.delete, Some([1.3, 1.9, 2.4, 3.9, 5.5])),
    ("read 64", |t| t.read, Some([1.4, 1.5, 1.9, 2.9, 4.4])),
    ("place", |t| t.place, Some([1.2, 1.3, 1.7, 2.5, 3.8])),
    ("place tied", |t| t.tied, None),
    ("check none", |t| t.check_none, None),
    ("insert none", |t| t.insert_none, None),
    ("delete none", |t| t.delete_none, None),
    ("check many", |t| t.check_many, None),
    ("place many", |t| t.place_many, None),
];

/// Copies of the stores on which all boats bear bit 63.
fn all_tied(stores: &[Store]) -> Vec<Store> {
    let mut tied = stores.to_vec();
    let slots = tied.iter_mut().flat_map(|store| &mut store.slots);
    slots.filter(|slot| **slot != 0).for_each(|slot| *slot |= TIED);
    tied
}

/// Copies of the stores on which those boats have retired that `retired` tells, asked
/// once for each, in their order.
fn with_retired(stores: &[Store], mut retired: impl FnMut() -> bool) -> Vec<Store> {
    let mut copies = stores.to_vec();
    for Store { slots, counts, tallies } in &mut copies {
        for slot in slots.iter_mut().filter(|slot| **slot != 0) {
            *slot = *slot & !RETIRED | if retired() { RETIRED } else { 0 };
        }
        let shape = Shape::of(usize::from(counts[0]));
        tallies.copy_from_slice(&shape.tallies(slots[..].try_into().expect("the length of a store")));
    }
    copies
}

/// The times of an insert and of a delete on stores of n entries. They come in turn, so
/// that the stores have n entries again at the end; `entry` tells what is put in.
fn change_times<S: Side>(n: usize, stores: &mut [Store], arguments: &[Arguments], entry: fn(u64) -> u64) -> (f64, f64) {
    let calls = stores.len() * ROUNDS;
    let (mut insert, mut delete) = (0.0, 0.0);
    for round in arguments.chunks_exact(2 * stores.len()) {
        let (inserts, deletes) = round.split_at(stores.len());
        insert += time_of(calls, || {
            for (store, a) in stores.iter_mut().zip(inserts) {
                accepted(S::insert(store, a.rank(n + 1), entry(a.entry), &a.words));
            }
        });
        delete += time_of(calls, || {
            for (store, a) in stores.iter_mut().zip(deletes) {
                accepted(S::delete(store, a.rank(n + 1), &a.words));
            }
        });
    }
    (insert, delete)
}

/// One measurement of all calls on stores of n entries.
fn measure<S: Side>(n: usize, stores: &mut [Store], arguments: &[Arguments]) -> Times {
    let calls = stores.len() * ROUNDS;
    let mut times = Times::default();
    (times.insert, times.delete) = change_times::<S>(n, stores, arguments, |entry| entry);
    let count = n.min(64);
    let mut output = [0; 64];
    let rounds = || arguments.chunks_exact(2 * stores.len());
    let checks = |stores: &[Store]| {
        for _ in rounds() {
            for store in stores {
                accepted(S::check(black_box(store)));
            }
        }
    };
    times.check = time_of(calls, || checks(stores));
    let places = |stores: &[Store]| {
        for round in rounds() {
            for (store, a) in stores.iter().zip(round) {
                accepted(S::place(black_box(store), a.rank(n)));
            }
        }
    };
    times.place = time_of(calls, || places(stores));
    let tied = all_tied(stores);
    times.tied = time_of(calls, || places(&tied));
    let mut none = with_retired(stores, || false);
    times.check_none = time_of(calls, || checks(&none));
    (times.insert_none, times.delete_none) = change_times::<S>(n, &mut none, arguments, |entry| entry & !RETIRED);
    // The same boats on all sides, in every measurement.
    let mut random = SplitMix64::new(3);
    let many = with_retired(stores, || random.below(2) == 0);
    times.check_many = time_of(calls, || checks(&many));
    times.place_many = time_of(calls, || places(&many));
    times.read = time_of(calls, || {
        for round in rounds() {
            for (store, a) in stores.iter().zip(round) {
                let first = a.rank(n - count + 1);
                accepted(S::read(black_box(store), first, first + count - 1, &mut output));
                black_box(&output);
            }
        }
    });
    times
}

/// The bytes of a store read once. The slots are joined in blocks of 64, since a
/// short loop takes longer or not as the linker puts it.
#[inline(never)]
fn scan(store: &Store) -> u64 {
    let join = |any: u64, block: &[u64]| block.iter().fold(any, |any, &slot| any | slot);
    let slots = store.slots.chunks_exact(64).fold(0, join);
    let numbers = store.counts.iter().chain(&store.tallies).fold(0, |any, &number| any | number);
    slots | u64::from(numbers)
}

fn scan_time(stores: &[Store]) -> f64 {
    time_of(stores.len() * ROUNDS, || {
        for _ in 0..ROUNDS {
            for store in stores {
                black_box(scan(black_box(store)));
            }
        }
    })
}

/// The value below which this share of the values lies.
fn quantile(values: &[f64], share: f64) -> f64 {
    let mut sorted = values.to_vec();
    sorted.sort_by(f64::total_cmp);
    sorted[((sorted.len() - 1) as f64 * share).round() as usize]
}

fn median(values: &[f64]) -> f64 {
    quantile(values, 0.5)
}

/// The times of one row, of the sides in turn. Timed sheets have no side in Rust.
struct Taken {
    proved: Vec<f64>,
    c: Vec<f64>,
    plain: Option<Vec<f64>>,
}

/// Whether a row is within the bound of the fastest side, and within that of its goal.
struct Within {
    side: bool,
    goal: bool,
}

impl Within {
    fn and(self, other: Within) -> Within {
        Within {
            side: self.side && other.side,
            goal: self.goal && other.goal,
        }
    }
}

const ALL_WITHIN: Within = Within { side: true, goal: true };

/// Prints one row. The rows of tied boats, of none and of many retired ones, of building
/// and of timed sheets have no goal.
fn row(kind: &str, n: &str, taken: &Taken, scan: f64, goal: Option<f64>) -> Within {
    let Taken { proved, c, plain } = taken;
    let fastest = plain.as_ref().filter(|plain| median(plain) < median(c)).unwrap_or(c);
    let ratios: Vec<f64> = proved.iter().zip(fastest).map(|(p, f)| p / f).collect();
    let ratio = median(&ratios);
    let scans = median(proved) / scan;
    let within = Within {
        side: ratio <= BOUND,
        goal: goal.map_or(true, |goal| scans <= BOUND * goal),
    };
    println!(
        "| {kind:12} | {n:>9} | {:>8.0} | {:>8.0} | {:>8} | {ratio:>5.2} | {:>4.2} to {:>4.2} | {scan:>6.0} | {scans:>5.2} | {:>4} |{}{}",
        median(proved),
        median(c),
        plain.as_ref().map_or("none".to_string(), |plain| format!("{:.0}", median(plain))),
        quantile(&ratios, 0.1),
        quantile(&ratios, 0.9),
        goal.map_or(String::new(), |goal| format!("{goal:.1}")),
        if within.side { "" } else { " ABOVE THE BOUND" },
        if within.goal { "" } else { " ABOVE THE GOAL" },
    );
    within
}

/// The stores of one side.
type Stores = Vec<Store>;

/// The rows of the length with this index.
fn rows_at(at: usize, times: usize, random: &mut SplitMix64, all_scans: &mut Vec<f64>) -> Within {
    let n = LENGTHS[at];
    let mut stores: Stores = vec![Store::empty(); STORES];
    for store in &mut stores {
        build::<Proved>(store, &Arguments::list(random, n));
    }
    compare::answers_are_equal(n, &stores, &Arguments::list(random, 2 * STORES * ROUNDS));
    let mut sides = [stores.clone(), stores.clone(), stores];
    let measures: [fn(usize, &mut [Store], &[Arguments]) -> Times; 3] = [measure::<Proved>, measure::<C>, measure::<Plain>];
    let mut taken = [Vec::new(), Vec::new(), Vec::new()];
    let mut scans = Vec::new();
    for turn in 0..times {
        let arguments = Arguments::list(random, 2 * STORES * ROUNDS);
        for side in (0..3).map(|side| (side + turn) % 3) {
            taken[side].push(measures[side](n, &mut sides[side], &arguments));
        }
        assert!(sides[0] == sides[1] && sides[0] == sides[2], "all sides leave the same stores");
        scans.push(scan_time(&sides[0]));
    }
    let scan = median(&scans);
    all_scans.append(&mut scans);
    KINDS.iter().fold(ALL_WITHIN, |within, (kind, time, goals)| {
        let [proved, c, plain] = [0, 1, 2].map(|side: usize| taken[side].iter().map(time).collect::<Vec<f64>>());
        within.and(row(kind, &n.to_string(), &Taken { proved, c, plain: Some(plain) }, scan, goals.map(|goals| goals[at])))
    })
}

/// The row of building a sheet from nothing: nanoseconds for one insert.
fn row_of_building(times: usize, random: &mut SplitMix64) -> Within {
    let builds: [fn(&mut Store, &[Arguments]); 3] = [build::<Proved>, build::<C>, build::<Plain>];
    let mut taken = [Vec::new(), Vec::new(), Vec::new()];
    let mut scans = Vec::new();
    for turn in 0..times.div_ceil(4) {
        let arguments = Arguments::list(random, BUILT);
        let mut stores: Stores = vec![Store::empty(); 3];
        for side in (0..3).map(|side| (side + turn) % 3) {
            taken[side].push(time_of(BUILT, || builds[side](&mut stores[side], &arguments)));
        }
        assert!(stores[0] == stores[1] && stores[0] == stores[2], "all sides leave the same stores");
        scans.push(scan_time(&stores));
    }
    let [proved, c, plain] = taken;
    row("build", "0 to 1000", &Taken { proved, c, plain: Some(plain) }, median(&scans), None)
}

fn said(within: bool) -> &'static str {
    if within {
        "every row is within"
    } else {
        "a row is above"
    }
}

fn main() -> ExitCode {
    let times = std::env::args().nth(1).and_then(|a| a.parse().ok()).unwrap_or(101);
    let mut random = SplitMix64::new(1);
    compare::with_reference();
    println!("ns per call, medians of {times} measurements of {} calls, same seeds and tapes on all sides", STORES * ROUNDS);
    println!();
    println!("| call         |         N |   proved |        C |    plain | ratio | middle 4/5   |   scan | /scan | goal |");
    println!("|--------------|-----------|----------|----------|----------|-------|--------------|--------|-------|------|");
    let mut within = ALL_WITHIN;
    let (mut scans, mut above) = (Vec::new(), Vec::new());
    for at in 0..LENGTHS.len() {
        within = within.and(rows_at(at, times, &mut random, &mut scans));
    }
    within = within.and(row_of_building(times, &mut random));
    for n in LENGTHS {
        let (rows, find) = timed_sheets::rows(n, times, &mut random);
        within = within.and(rows);
        above.push(format!("{find:.0} at N = {n}"));
    }
    println!();
    println!("a timed find of the proved library costs above a timed check, in ns: {}", above.join(", "));
    println!(
        "noise: the same scan took {:.0} ns in the middle, {:.0} to {:.0} ns in the middle four fifths of its measurements",
        median(&scans),
        quantile(&scans, 0.1),
        quantile(&scans, 0.9)
    );
    println!("{} 1.25 times the fastest side", said(within.side));
    println!("{} 1.25 times its goal in scans", said(within.goal));
    println!();
    boards::table(times, &mut random);
    println!();
    mends::table(times, &mut random);
    println!();
    let federation = federation::tables(times, &mut random);
    println!();
    println!("{} 1.5 times its goal in scans on the federation's store", said(federation));
    ExitCode::from(u8::from(!(within.side && within.goal && federation)))
}
