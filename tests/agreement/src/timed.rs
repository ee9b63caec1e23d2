//! Timed sheets on both: the calls, the store with its third slice, and the proved
//! library's C functions (`include/timed.h`, `include/federation.h`).

use crate::{returned, Lent, Returned, UNWRITTEN};
use reference::capacity::Number;
use reference::random::SplitMix64;
use reference::timed;

#[derive(Clone, Debug)]
pub enum Call {
    Clear,
    Insert { entry: u64, tape: Vec<u32> },
    Delete { rank: usize, tape: Vec<u32> },
    Find { entry: u64 },
    Read { first: usize, last: usize, output: Vec<u64> },
    Board { ranks: Vec<u64>, output: Vec<u64> },
    Place { rank: usize },
    Check,
    Mend,
}

/// A store, told by the width of its counts.
#[derive(Clone, PartialEq, Eq)]
pub struct StoreOf<T> {
    pub slots: Vec<u64>,
    pub counts: Vec<T>,
    pub tallies: Vec<T>,
    pub balance: Vec<u64>,
}

/// A store of the clubs.
pub type Store = StoreOf<u16>;

impl<T: Number> StoreOf<T> {
    /// A store of the right lengths that is no sheet.
    pub fn unused() -> Self {
        StoreOf::with_slice(crate::StoreOf::unused(), vec![8; T::CAPACITY.counts])
    }

    /// The empty sheet.
    pub fn cleared() -> Self {
        StoreOf::with_slice(crate::StoreOf::cleared(), vec![0; T::CAPACITY.counts])
    }

    /// A store without the third slice, and this one.
    pub fn with_slice(plain: crate::StoreOf<T>, balance: Vec<u64>) -> Self {
        let crate::StoreOf { slots, counts, tallies } = plain;
        StoreOf { slots, counts, tallies, balance }
    }

    pub fn n(&self) -> usize {
        self.counts[1].value()
    }

    /// The entries of a sheet, in their order.
    pub fn entries(&self) -> impl Iterator<Item = u64> + '_ {
        self.slots.iter().copied().filter(|entry| *entry != 0)
    }

    /// A sheet with the third slice that belongs to it, whether the entries rise or
    /// not.
    pub fn of_sheet(sheet: crate::StoreOf<T>) -> Self {
        let balance = timed::balance_entries(&sheet.slots, &sheet.counts, &sheet.tallies).unwrap();
        StoreOf::with_slice(sheet, balance)
    }

    /// The store without the third slice.
    pub fn plain(&self) -> crate::StoreOf<T> {
        crate::StoreOf {
            slots: self.slots.clone(),
            counts: self.counts.clone(),
            tallies: self.tallies.clone(),
        }
    }

    /// The same of a list, a size and random balance entries.
    pub fn of_size(list: &[u64], m: usize, random: &mut SplitMix64) -> Self {
        StoreOf::of_sheet(crate::StoreOf::of_size(list, m, random))
    }
}

impl<T: Linked> Lent for StoreOf<T> {
    type Call = Call;

    fn by_reference(&mut self, call: &Call) -> (Returned, Vec<u64>) {
        let StoreOf { slots, counts, tallies, balance } = self;
        let mut out = Vec::new();
        let answer = match call {
            Call::Clear => timed::clear(slots, counts, tallies, balance),
            Call::Insert { entry, tape } => timed::insert(slots, counts, tallies, balance, *entry, tape),
            Call::Delete { rank, tape } => timed::delete(slots, counts, tallies, balance, *rank, tape),
            Call::Find { entry } => timed::find(slots, counts, tallies, balance, *entry),
            Call::Read { first, last, output } => {
                out = output.clone();
                timed::read(slots, counts, tallies, balance, *first, *last, &mut out)
            }
            Call::Board { ranks, output } => {
                out = output.clone();
                timed::board(slots, counts, tallies, balance, ranks, &mut out)
            }
            Call::Place { rank } => timed::place(slots, counts, tallies, balance, *rank),
            Call::Check => timed::check(slots, counts, tallies, balance),
            Call::Mend => timed::mend(slots, counts, tallies, balance),
        };
        (returned(answer), out)
    }

    fn proved_with(&mut self, call: &Call, room: usize) -> (u64, Vec<u64>, Vec<u64>) {
        T::call_with(call, self, room)
    }

    fn values(call: &Call) -> usize {
        match call {
            Call::Place { .. } => 3,
            _ => 2,
        }
    }

    fn tape(call: &mut Call) -> Option<&mut Vec<u32>> {
        match call {
            Call::Insert { tape, .. } | Call::Delete { tape, .. } => Some(tape),
            _ => None,
        }
    }
}

/// A width of counts, and the calls of the library on timed stores that have it.
pub trait Linked: Number {
    /// The proved call with an answer slice of this length: what it returns, the
    /// answer slice, and the output.
    fn call_with(call: &Call, store: &mut StoreOf<Self>, room: usize) -> (u64, Vec<u64>, Vec<u64>);
}

/// The functions of a header for timed stores with counts of this width.
macro_rules! linked {
    ($number:ty,
     $clear:ident, $insert:ident, $delete:ident, $find:ident, $read:ident, $board:ident, $place:ident, $check:ident, $mend:ident) => {
        extern "C" {
            fn $clear(
                slots: *mut u64,
                slots_len: usize,
                counts: *mut $number,
                counts_len: usize,
                tallies: *mut $number,
                tallies_len: usize,
                balance: *mut u64,
                balance_len: usize,
                answer: *mut u64,
                answer_len: usize,
            ) -> usize;
            fn $insert(
                slots: *mut u64,
                slots_len: usize,
                counts: *mut $number,
                counts_len: usize,
                tallies: *mut $number,
                tallies_len: usize,
                balance: *mut u64,
                balance_len: usize,
                entry: u64,
                tape: *const u32,
                tape_len: usize,
                answer: *mut u64,
                answer_len: usize,
            ) -> usize;
            fn $delete(
                slots: *mut u64,
                slots_len: usize,
                counts: *mut $number,
                counts_len: usize,
                tallies: *mut $number,
                tallies_len: usize,
                balance: *mut u64,
                balance_len: usize,
                rank: usize,
                tape: *const u32,
                tape_len: usize,
                answer: *mut u64,
                answer_len: usize,
            ) -> usize;
            fn $find(
                slots: *const u64,
                slots_len: usize,
                counts: *const $number,
                counts_len: usize,
                tallies: *const $number,
                tallies_len: usize,
                balance: *const u64,
                balance_len: usize,
                entry: u64,
                answer: *mut u64,
                answer_len: usize,
            ) -> usize;
            fn $read(
                slots: *const u64,
                slots_len: usize,
                counts: *const $number,
                counts_len: usize,
                tallies: *const $number,
                tallies_len: usize,
                balance: *const u64,
                balance_len: usize,
                first: usize,
                last: usize,
                output: *mut u64,
                output_len: usize,
                answer: *mut u64,
                answer_len: usize,
            ) -> usize;
            fn $board(
                slots: *const u64,
                slots_len: usize,
                counts: *const $number,
                counts_len: usize,
                tallies: *const $number,
                tallies_len: usize,
                balance: *const u64,
                balance_len: usize,
                ranks: *const u64,
                ranks_len: usize,
                output: *mut u64,
                output_len: usize,
                answer: *mut u64,
                answer_len: usize,
            ) -> usize;
            fn $place(
                slots: *const u64,
                slots_len: usize,
                counts: *const $number,
                counts_len: usize,
                tallies: *const $number,
                tallies_len: usize,
                balance: *const u64,
                balance_len: usize,
                rank: usize,
                answer: *mut u64,
                answer_len: usize,
            ) -> usize;
            fn $check(
                slots: *const u64,
                slots_len: usize,
                counts: *const $number,
                counts_len: usize,
                tallies: *const $number,
                tallies_len: usize,
                balance: *const u64,
                balance_len: usize,
                answer: *mut u64,
                answer_len: usize,
            ) -> usize;
            fn $mend(
                slots: *const u64,
                slots_len: usize,
                counts: *mut $number,
                counts_len: usize,
                tallies: *mut $number,
                tallies_len: usize,
                balance: *mut u64,
                balance_len: usize,
                answer: *mut u64,
                answer_len: usize,
            ) -> usize;
        }

        impl Linked for $number {
            fn call_with(call: &Call, store: &mut StoreOf<$number>, room: usize) -> (u64, Vec<u64>, Vec<u64>) {
                let mut answer = vec![UNWRITTEN; room];
                let (a, a_len) = (answer.as_mut_ptr(), room);
                let (s, s_len) = (store.slots.as_mut_ptr(), store.slots.len());
                let (c, c_len) = (store.counts.as_mut_ptr(), store.counts.len());
                let (t, t_len) = (store.tallies.as_mut_ptr(), store.tallies.len());
                let (b, b_len) = (store.balance.as_mut_ptr(), store.balance.len());
                let mut out = Vec::new();
                // Each pointer comes from a live vector of the length beside it, and no two vectors overlap.
                let number = unsafe {
                    match call {
                        Call::Clear => $clear(s, s_len, c, c_len, t, t_len, b, b_len, a, a_len),
                        Call::Insert { entry, tape } => $insert(s, s_len, c, c_len, t, t_len, b, b_len, *entry, tape.as_ptr(), tape.len(), a, a_len),
                        Call::Delete { rank, tape } => $delete(s, s_len, c, c_len, t, t_len, b, b_len, *rank, tape.as_ptr(), tape.len(), a, a_len),
                        Call::Find { entry } => $find(s, s_len, c, c_len, t, t_len, b, b_len, *entry, a, a_len),
                        Call::Read { first, last, output } => {
                            out = output.clone();
                            $read(s, s_len, c, c_len, t, t_len, b, b_len, *first, *last, out.as_mut_ptr(), out.len(), a, a_len)
                        }
                        Call::Board { ranks, output } => {
                            out = output.clone();
                            let (r, r_len, o, o_len) = (ranks.as_ptr(), ranks.len(), out.as_mut_ptr(), out.len());
                            $board(s, s_len, c, c_len, t, t_len, b, b_len, r, r_len, o, o_len, a, a_len)
                        }
                        Call::Place { rank } => $place(s, s_len, c, c_len, t, t_len, b, b_len, *rank, a, a_len),
                        Call::Check => $check(s, s_len, c, c_len, t, t_len, b, b_len, a, a_len),
                        Call::Mend => $mend(s, s_len, c, c_len, t, t_len, b, b_len, a, a_len),
                    }
                };
                (number as u64, answer, out)
            }
        }
    };
}

linked!(
    u16,
    timed_clear,
    timed_insert,
    timed_delete,
    timed_find,
    timed_read,
    timed_board,
    timed_place,
    timed_check,
    timed_mend
);

linked!(
    u32,
    federation_timed_clear,
    federation_timed_insert,
    federation_timed_delete,
    federation_timed_find,
    federation_timed_read,
    federation_timed_board,
    federation_timed_place,
    federation_timed_check,
    federation_timed_mend
);
