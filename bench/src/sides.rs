//! The implementations behind one trait, and the store that each works on.

use crate::plain;
use reference::calls::{self, Answer};
use reference::layout::{COUNTS, SLOTS, TALLIES};

#[derive(Clone, Debug, PartialEq, Eq)]
pub struct Store {
    pub slots: Vec<u64>,
    pub counts: Vec<u16>,
    pub tallies: Vec<u16>,
}

impl Store {
    /// The empty sheet.
    pub fn empty() -> Self {
        Store {
            slots: vec![0; SLOTS],
            counts: vec![0; COUNTS],
            tallies: vec![0; TALLIES],
        }
    }
}

/// The number of the cause or 0, and the values: three of place, two of every
/// other call and a zero behind them.
pub type Returned = [u64; 4];

/// The five calls that are measured, each with all of its checks.
pub trait Side {
    fn check(store: &Store) -> Returned;
    fn place(store: &Store, rank: usize) -> Returned;
    fn read(store: &Store, first: usize, last: usize, output: &mut [u64]) -> Returned;
    fn insert(store: &mut Store, rank: usize, entry: u64, tape: &[u32]) -> Returned;
    fn delete(store: &mut Store, rank: usize, tape: &[u32]) -> Returned;
}

/// A side that is called through the functions of `include/sheet.h`, or others
/// that take and return the same. Each pointer comes from a live slice of the
/// length beside it, and no two slices overlap.
macro_rules! side_in_c {
    ($side:ident, $check:ident, $place:ident, $read:ident, $insert:ident, $delete:ident) => {
        extern "C" {
            fn $check(
                slots: *const u64,
                slots_len: usize,
                counts: *const u16,
                counts_len: usize,
                tallies: *const u16,
                tallies_len: usize,
                answer: *mut u64,
                answer_len: usize,
            ) -> usize;
            fn $place(
                slots: *const u64,
                slots_len: usize,
                counts: *const u16,
                counts_len: usize,
                tallies: *const u16,
                tallies_len: usize,
                rank: usize,
                answer: *mut u64,
                answer_len: usize,
            ) -> usize;
            fn $read(
                slots: *const u64,
                slots_len: usize,
                counts: *const u16,
                counts_len: usize,
                tallies: *const u16,
                tallies_len: usize,
                first: usize,
                last: usize,
                output: *mut u64,
                output_len: usize,
                answer: *mut u64,
                answer_len: usize,
            ) -> usize;
            fn $insert(
                slots: *mut u64,
                slots_len: usize,
                counts: *mut u16,
                counts_len: usize,
                tallies: *mut u16,
                tallies_len: usize,
                rank: usize,
                entry: u64,
                tape: *const u32,
                tape_len: usize,
                answer: *mut u64,
                answer_len: usize,
            ) -> usize;
            fn $delete(
                slots: *mut u64,
                slots_len: usize,
                counts: *mut u16,
                counts_len: usize,
                tallies: *mut u16,
                tallies_len: usize,
                rank: usize,
                tape: *const u32,
                tape_len: usize,
                answer: *mut u64,
                answer_len: usize,
            ) -> usize;
        }

        impl Side for $side {
            #[inline(never)]
            fn check(store: &Store) -> Returned {
                let (s, c, t, mut a) = (&store.slots, &store.counts, &store.tallies, [0; 2]);
                let number = unsafe { $check(s.as_ptr(), s.len(), c.as_ptr(), c.len(), t.as_ptr(), t.len(), a.as_mut_ptr(), 2) };
                [number as u64, a[0], a[1], 0]
            }

            #[inline(never)]
            fn place(store: &Store, rank: usize) -> Returned {
                let (s, c, t, mut a) = (&store.slots, &store.counts, &store.tallies, [0; 3]);
                let number = unsafe { $place(s.as_ptr(), s.len(), c.as_ptr(), c.len(), t.as_ptr(), t.len(), rank, a.as_mut_ptr(), 3) };
                [number as u64, a[0], a[1], a[2]]
            }

            #[inline(never)]
            fn read(store: &Store, first: usize, last: usize, output: &mut [u64]) -> Returned {
                let (s, c, t, mut a) = (&store.slots, &store.counts, &store.tallies, [0; 2]);
                let (s, s_len, c, c_len, t, t_len) = (s.as_ptr(), s.len(), c.as_ptr(), c.len(), t.as_ptr(), t.len());
                let (o, o_len) = (output.as_mut_ptr(), output.len());
                let number = unsafe { $read(s, s_len, c, c_len, t, t_len, first, last, o, o_len, a.as_mut_ptr(), 2) };
                [number as u64, a[0], a[1], 0]
            }

            #[inline(never)]
            fn insert(store: &mut Store, rank: usize, entry: u64, tape: &[u32]) -> Returned {
                let (s, c, t, mut a) = (&mut store.slots, &mut store.counts, &mut store.tallies, [0; 2]);
                let (s, s_len, c, c_len, t, t_len) = (s.as_mut_ptr(), s.len(), c.as_mut_ptr(), c.len(), t.as_mut_ptr(), t.len());
                let number = unsafe { $insert(s, s_len, c, c_len, t, t_len, rank, entry, tape.as_ptr(), tape.len(), a.as_mut_ptr(), 2) };
                [number as u64, a[0], a[1], 0]
            }

            #[inline(never)]
            fn delete(store: &mut Store, rank: usize, tape: &[u32]) -> Returned {
                let (s, c, t, mut a) = (&mut store.slots, &mut store.counts, &mut store.tallies, [0; 2]);
                let (s, s_len, c, c_len, t, t_len) = (s.as_mut_ptr(), s.len(), c.as_mut_ptr(), c.len(), t.as_mut_ptr(), t.len());
                let number = unsafe { $delete(s, s_len, c, c_len, t, t_len, rank, tape.as_ptr(), tape.len(), a.as_mut_ptr(), 2) };
                [number as u64, a[0], a[1], 0]
            }
        }
    };
}

/// The proved library.
pub struct Proved;

side_in_c!(Proved, sheet_check, sheet_place, sheet_read, sheet_insert, sheet_delete);

/// The calls in C, `c_side.c`.
pub struct C;

side_in_c!(C, c_check, c_place, c_read, c_insert, c_delete);

/// The second implementation, `tests/reference`: not measured, the others are
/// compared with it.
pub struct Reference;

pub fn returned(answer: Answer) -> Returned {
    let [first, second, third] = answer.values().map(|value| value as u64);
    [answer.number().into(), first, second, third]
}

impl Side for Reference {
    #[inline(never)]
    fn check(store: &Store) -> Returned {
        returned(calls::check(&store.slots, &store.counts, &store.tallies))
    }

    #[inline(never)]
    fn place(store: &Store, rank: usize) -> Returned {
        returned(calls::place(&store.slots, &store.counts, &store.tallies, rank))
    }

    #[inline(never)]
    fn read(store: &Store, first: usize, last: usize, output: &mut [u64]) -> Returned {
        returned(calls::read(&store.slots, &store.counts, &store.tallies, first, last, output))
    }

    #[inline(never)]
    fn insert(store: &mut Store, rank: usize, entry: u64, tape: &[u32]) -> Returned {
        returned(calls::insert(&mut store.slots, &mut store.counts, &mut store.tallies, rank, entry, tape))
    }

    #[inline(never)]
    fn delete(store: &mut Store, rank: usize, tape: &[u32]) -> Returned {
        returned(calls::delete(&mut store.slots, &mut store.counts, &mut store.tallies, rank, tape))
    }
}

/// The calls in plain Rust, [`plain`].
pub struct Plain;

impl Side for Plain {
    #[inline(never)]
    fn check(store: &Store) -> Returned {
        plain::check(&store.slots, &store.counts, &store.tallies)
    }

    #[inline(never)]
    fn place(store: &Store, rank: usize) -> Returned {
        plain::place(&store.slots, &store.counts, &store.tallies, rank)
    }

    #[inline(never)]
    fn read(store: &Store, first: usize, last: usize, output: &mut [u64]) -> Returned {
        plain::read(&store.slots, &store.counts, &store.tallies, first, last, output)
    }

    #[inline(never)]
    fn insert(store: &mut Store, rank: usize, entry: u64, tape: &[u32]) -> Returned {
        plain::insert(&mut store.slots, &mut store.counts, &mut store.tallies, rank, entry, tape)
    }

    #[inline(never)]
    fn delete(store: &mut Store, rank: usize, tape: &[u32]) -> Returned {
        plain::delete(&mut store.slots, &mut store.counts, &mut store.tallies, rank, tape)
    }
}
