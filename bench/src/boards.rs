//! The table of boards: up to 64 random ranks together, and the same ranks read
//! one by one, of the proved library. Before the measuring boards are compared with
//! single reads and with `tests/reference`, and in each measurement the last board has
//! the entries of single reads.

use crate::sides::{returned, Proved, Returned, Side, Store};
use crate::{accepted, build, median, time_of, Arguments, LENGTHS, STORES};
use reference::calls;
use reference::random::SplitMix64;
use std::hint::black_box;

/// The most ranks of a board.
const MOST: usize = 64;
/// Boards of each length that are compared.
const TRIALS: usize = 400;

extern "C" {
    fn sheet_board(
        slots: *const u64,
        slots_len: usize,
        counts: *const u16,
        counts_len: usize,
        tallies: *const u16,
        tallies_len: usize,
        ranks: *const u64,
        ranks_len: usize,
        output: *mut u64,
        output_len: usize,
        answer: *mut u64,
        answer_len: usize,
    ) -> usize;
}

/// Each pointer comes from a live slice of the length beside it, and no two slices
/// overlap.
#[inline(never)]
fn board(store: &Store, ranks: &[u64], output: &mut [u64]) -> Returned {
    let (s, c, t, mut a) = (&store.slots, &store.counts, &store.tallies, [0; 2]);
    let (s, s_len, c, c_len, t, t_len) = (s.as_ptr(), s.len(), c.as_ptr(), c.len(), t.as_ptr(), t.len());
    let (r, r_len, o, o_len) = (ranks.as_ptr(), ranks.len(), output.as_mut_ptr(), output.len());
    let number = unsafe { sheet_board(s, s_len, c, c_len, t, t_len, r, r_len, o, o_len, a.as_mut_ptr(), 2) };
    [number as u64, a[0], a[1], 0]
}

/// The ranks one by one.
fn reads(store: &Store, ranks: &[u64], output: &mut [u64]) {
    for (rank, entry) in ranks.iter().zip(output.chunks_exact_mut(1)) {
        accepted(Proved::read(black_box(store), *rank as usize, *rank as usize, entry));
    }
}

/// Random ranks below n that do not fall, as many as a board of n entries has here.
fn ranks(n: usize, random: &mut SplitMix64) -> Vec<u64> {
    let mut ranks: Vec<u64> = (0..n.min(MOST)).map(|_| random.below(n) as u64).collect();
    ranks.sort_unstable();
    ranks
}

/// Boards on these stores, single reads and the second implementation agree.
fn boards_are_equal(n: usize, stores: &[Store], random: &mut SplitMix64) {
    for trial in 0..TRIALS {
        let (store, ranks) = (&stores[trial % stores.len()], ranks(n, random));
        let (mut together, mut single, mut other) = ([7; MOST], [7; MOST], [7; MOST]);
        let answer = board(store, &ranks, &mut together);
        let by_reference = calls::board(&store.slots, &store.counts, &store.tallies, &ranks, &mut other);
        reads(store, &ranks, &mut single);
        assert_eq!(answer, returned(by_reference), "a board and the second implementation agree");
        assert!(together == single && together == other, "a board has the entries of single reads");
    }
}

/// One measurement: a board on each store, and then its ranks one by one, in
/// nanoseconds for all ranks of a store.
fn measure(stores: &[Store], boards: &[Vec<u64>]) -> (f64, f64) {
    let (mut together, mut single) = ([0; MOST], [0; MOST]);
    let at_once = time_of(boards.len(), || {
        for (store, ranks) in stores.iter().cycle().zip(boards) {
            accepted(board(black_box(store), ranks, &mut together));
            black_box(&together);
        }
    });
    let one_by_one = time_of(boards.len(), || {
        for (store, ranks) in stores.iter().cycle().zip(boards) {
            reads(store, ranks, &mut single);
            black_box(&single);
        }
    });
    assert_eq!(together, single, "the last board has the entries of single reads");
    (at_once, one_by_one)
}

/// The row of boards on sheets of n entries.
fn row(n: usize, times: usize, random: &mut SplitMix64) {
    let mut stores = vec![Store::empty(); STORES];
    for store in &mut stores {
        build::<Proved>(store, &Arguments::list(random, n));
    }
    boards_are_equal(n, &stores, random);
    let (mut at_once, mut one_by_one) = (Vec::new(), Vec::new());
    for _ in 0..times {
        let boards: Vec<_> = (0..2 * STORES).map(|_| ranks(n, random)).collect();
        let (board, reads) = measure(&stores, &boards);
        at_once.push(board);
        one_by_one.push(reads);
    }
    let ratios: Vec<f64> = one_by_one.iter().zip(&at_once).map(|(reads, board)| reads / board).collect();
    println!("| {n:>5} | {:>5} | {:>8.0} | {:>12.0} | {:>5.1} |", n.min(MOST), median(&at_once), median(&one_by_one), median(&ratios));
}

/// Prints the table.
pub fn table(times: usize, random: &mut SplitMix64) {
    println!("ns for a board of random ranks, and for that many reads of one rank each; proved library");
    println!();
    println!("|     N | ranks |    board | single reads | times |");
    println!("|-------|-------|----------|--------------|-------|");
    for n in LENGTHS {
        row(n, times, random);
    }
}
