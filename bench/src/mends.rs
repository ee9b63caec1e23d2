//! The table of mending: a check, and the mending of a store whose counts, the size
//! parameter apart, tallies and third slice are spoiled, of the proved library, plain
//! and timed. Each mended store is compared with the sheet that it was.

use crate::sides::{Proved, Returned, Side, Store};
use crate::timed_sheets::{self, TimedSide, TimedStore};
use crate::{accepted, build, median, time_of, Arguments, LENGTHS, ROUNDS, STORES};
use reference::random::SplitMix64;
use std::hint::black_box;

extern "C" {
    fn sheet_mend(
        slots: *const u64,
        slots_len: usize,
        counts: *mut u16,
        counts_len: usize,
        tallies: *mut u16,
        tallies_len: usize,
        answer: *mut u64,
        answer_len: usize,
    ) -> usize;
    fn timed_mend(
        slots: *const u64,
        slots_len: usize,
        counts: *mut u16,
        counts_len: usize,
        tallies: *mut u16,
        tallies_len: usize,
        balance: *mut u64,
        balance_len: usize,
        answer: *mut u64,
        answer_len: usize,
    ) -> usize;
}

/// A store that can be checked, spoiled and mended.
trait Mendable: Clone + PartialEq {
    /// Sheets of n entries.
    fn sheets(n: usize, random: &mut SplitMix64) -> Vec<Self>;
    fn check(&self) -> Returned;
    fn mend(&mut self) -> Returned;
    /// Gives all that is mended other contents.
    fn spoil(&mut self, random: &mut SplitMix64);
}

impl Mendable for Store {
    fn sheets(n: usize, random: &mut SplitMix64) -> Vec<Store> {
        let mut stores = vec![Store::empty(); STORES];
        stores.iter_mut().for_each(|store| build::<Proved>(store, &Arguments::list(random, n)));
        stores
    }

    fn check(&self) -> Returned {
        <Proved as Side>::check(self)
    }

    // Each pointer comes from a live slice of the length beside it, and no two slices
    // overlap.
    #[inline(never)]
    fn mend(&mut self) -> Returned {
        let (s, c, t, mut a) = (&self.slots, &mut self.counts, &mut self.tallies, [0; 2]);
        let number = unsafe { sheet_mend(s.as_ptr(), s.len(), c.as_mut_ptr(), c.len(), t.as_mut_ptr(), t.len(), a.as_mut_ptr(), 2) };
        [number as u64, a[0], a[1], 0]
    }

    fn spoil(&mut self, random: &mut SplitMix64) {
        let numbers = self.counts[1..].iter_mut().chain(&mut self.tallies);
        numbers.for_each(|number| *number = random.next_u64() as u16);
    }
}

impl Mendable for TimedStore {
    fn sheets(n: usize, random: &mut SplitMix64) -> Vec<TimedStore> {
        timed_sheets::sheets(n, random)
    }

    fn check(&self) -> Returned {
        <Proved as TimedSide>::check(self)
    }

    // As above.
    #[inline(never)]
    fn mend(&mut self) -> Returned {
        let TimedStore { plain: Store { slots: s, counts: c, tallies: t }, balance: b } = self;
        let (c, c_len, t, t_len, b, b_len) = (c.as_mut_ptr(), c.len(), t.as_mut_ptr(), t.len(), b.as_mut_ptr(), b.len());
        let mut a = [0; 2];
        let number = unsafe { timed_mend(s.as_ptr(), s.len(), c, c_len, t, t_len, b, b_len, a.as_mut_ptr(), 2) };
        [number as u64, a[0], a[1], 0]
    }

    fn spoil(&mut self, random: &mut SplitMix64) {
        self.plain.spoil(random);
        self.balance.iter_mut().for_each(|word| *word = random.next_u64());
    }
}

/// One measurement: a check of each store, and the mending of a spoiled copy of it.
fn measure<S: Mendable>(stores: &[S], random: &mut SplitMix64) -> (f64, f64) {
    let in_turn = || stores.iter().cycle().take(STORES * ROUNDS);
    let mut copies: Vec<S> = in_turn().cloned().collect();
    copies.iter_mut().for_each(|copy| copy.spoil(random));
    let check = time_of(copies.len(), || in_turn().for_each(|store| accepted(black_box(store).check())));
    let mend = time_of(copies.len(), || copies.iter_mut().for_each(|copy| accepted(black_box(copy).mend())));
    assert!(copies.iter().zip(in_turn()).all(|(copy, store)| copy == store), "a store is mended to the sheet that it was");
    (check, mend)
}

/// The row of sheets of n entries.
fn row<S: Mendable>(kind: &str, n: usize, times: usize, random: &mut SplitMix64) {
    let stores = S::sheets(n, random);
    let taken: Vec<(f64, f64)> = (0..times).map(|_| measure(&stores, random)).collect();
    let middle = |value: fn(&(f64, f64)) -> f64| median(&taken.iter().map(value).collect::<Vec<f64>>());
    let (check, mend, ratio) = (middle(|t| t.0), middle(|t| t.1), middle(|t| t.1 / t.0));
    println!("| {kind:5} | {n:>5} | {check:>8.0} | {mend:>8.0} | {ratio:>5.2} |");
}

/// Prints the table.
pub fn table(times: usize, random: &mut SplitMix64) {
    println!("ns for a check, and for mending a store with other counts, tallies and third slice; proved library");
    println!();
    println!("| kind  |     N |    check |     mend | times |");
    println!("|-------|-------|----------|----------|-------|");
    for n in LENGTHS {
        row::<Store>("plain", n, times, random);
    }
    for n in LENGTHS {
        row::<TimedStore>("timed", n, times, random);
    }
}
