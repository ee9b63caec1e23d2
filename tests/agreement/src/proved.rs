//! The proved library, through its C functions (`include/sheet.h`,
//! `include/federation.h`, `include/frames.h`).

use crate::{Call, Store, StoreOf, UNWRITTEN};
use reference::capacity::Number;

/// A width of counts, and the calls of the library on stores that have it.
pub trait Linked: Number {
    /// The call with an answer slice of this length: what it returns, the answer
    /// slice, and the output.
    fn call_with(call: &Call, store: &mut StoreOf<Self>, room: usize) -> (u64, Vec<u64>, Vec<u64>);

    /// The counts as the conversions of F-5 take them, which take those of the clubs alone.
    fn converted(counts: &mut [Self]) -> &mut [u16];
}

/// The functions of a header for stores with counts of this width.
macro_rules! linked {
    ($number:ty, $converted:expr,
     $clear:ident, $insert:ident, $delete:ident, $read:ident, $board:ident, $place:ident, $check:ident, $mend:ident) => {
        extern "C" {
            fn $clear(
                slots: *mut u64,
                slots_len: usize,
                counts: *mut $number,
                counts_len: usize,
                tallies: *mut $number,
                tallies_len: usize,
                answer: *mut u64,
                answer_len: usize,
            ) -> usize;
            fn $insert(
                slots: *mut u64,
                slots_len: usize,
                counts: *mut $number,
                counts_len: usize,
                tallies: *mut $number,
                tallies_len: usize,
                rank: usize,
                entry: u64,
                tape: *const u32,
                tape_len: usize,
                answer: *mut u64,
                answer_len: usize,
            ) -> usize;
            fn $delete(
                slots: *mut u64,
                slots_len: usize,
                counts: *mut $number,
                counts_len: usize,
                tallies: *mut $number,
                tallies_len: usize,
                rank: usize,
                tape: *const u32,
                tape_len: usize,
                answer: *mut u64,
                answer_len: usize,
            ) -> usize;
            fn $read(
                slots: *const u64,
                slots_len: usize,
                counts: *const $number,
                counts_len: usize,
                tallies: *const $number,
                tallies_len: usize,
                first: usize,
                last: usize,
                output: *mut u64,
                output_len: usize,
                answer: *mut u64,
                answer_len: usize,
            ) -> usize;
            fn $board(
                slots: *const u64,
                slots_len: usize,
                counts: *const $number,
                counts_len: usize,
                tallies: *const $number,
                tallies_len: usize,
                ranks: *const u64,
                ranks_len: usize,
                output: *mut u64,
                output_len: usize,
                answer: *mut u64,
                answer_len: usize,
            ) -> usize;
            fn $place(
                slots: *const u64,
                slots_len: usize,
                counts: *const $number,
                counts_len: usize,
                tallies: *const $number,
                tallies_len: usize,
                rank: usize,
                answer: *mut u64,
                answer_len: usize,
            ) -> usize;
            fn $check(
                slots: *const u64,
                slots_len: usize,
                counts: *const $number,
                counts_len: usize,
                tallies: *const $number,
                tallies_len: usize,
                answer: *mut u64,
                answer_len: usize,
            ) -> usize;
            fn $mend(
                slots: *const u64,
                slots_len: usize,
                counts: *mut $number,
                counts_len: usize,
                tallies: *mut $number,
                tallies_len: usize,
                answer: *mut u64,
                answer_len: usize,
            ) -> usize;
        }

        impl Linked for $number {
            fn call_with(call: &Call, store: &mut StoreOf<$number>, room: usize) -> (u64, Vec<u64>, Vec<u64>) {
                let mut answer = vec![UNWRITTEN; room];
                let (a, a_len) = (answer.as_mut_ptr(), room);
                let (s, s_len) = (store.slots.as_mut_ptr(), store.slots.len());
                let (c, c_len) = (store.counts.as_mut_ptr(), store.counts.len());
                let (t, t_len) = (store.tallies.as_mut_ptr(), store.tallies.len());
                let mut out = Vec::new();
                // Each pointer comes from a live vector of the length beside it, and no two vectors overlap.
                let number = unsafe {
                    match call {
                        Call::Clear => $clear(s, s_len, c, c_len, t, t_len, a, a_len),
                        Call::Insert { rank, entry, tape } => {
                            let (w, w_len) = (tape.as_ptr(), tape.len());
                            $insert(s, s_len, c, c_len, t, t_len, *rank, *entry, w, w_len, a, a_len)
                        }
                        Call::Delete { rank, tape } => $delete(s, s_len, c, c_len, t, t_len, *rank, tape.as_ptr(), tape.len(), a, a_len),
                        Call::Read { first, last, output } => {
                            out = output.clone();
                            $read(s, s_len, c, c_len, t, t_len, *first, *last, out.as_mut_ptr(), out.len(), a, a_len)
                        }
                        Call::Board { ranks, output } => {
                            out = output.clone();
                            let (r, r_len, o, o_len) = (ranks.as_ptr(), ranks.len(), out.as_mut_ptr(), out.len());
                            $board(s, s_len, c, c_len, t, t_len, r, r_len, o, o_len, a, a_len)
                        }
                        Call::Place { rank } => $place(s, s_len, c, c_len, t, t_len, *rank, a, a_len),
                        Call::Check => $check(s, s_len, c, c_len, t, t_len, a, a_len),
                        Call::Mend => $mend(s, s_len, c, c_len, t, t_len, a, a_len),
                        Call::ToTreeOrder => sheet_to_tree_order(<$number>::converted(&mut store.counts).as_mut_ptr(), c_len, a, a_len),
                        Call::ToNumberOrder => sheet_to_number_order(<$number>::converted(&mut store.counts).as_mut_ptr(), c_len, a, a_len),
                    }
                };
                (number as u64, answer, out)
            }

            fn converted(counts: &mut [$number]) -> &mut [u16] {
                $converted(counts)
            }
        }
    };
}

linked!(
    u16,
    |counts| counts,
    sheet_clear,
    sheet_insert,
    sheet_delete,
    sheet_read,
    sheet_board,
    sheet_place,
    sheet_check,
    sheet_mend
);

linked!(
    u32,
    |_| unreachable!("no conversion takes the federation's counts"),
    federation_clear,
    federation_insert,
    federation_delete,
    federation_read,
    federation_board,
    federation_place,
    federation_check,
    federation_mend
);

extern "C" {
    fn sheet_to_tree_order(counts: *mut u16, counts_len: usize, answer: *mut u64, answer_len: usize) -> usize;
    fn sheet_to_number_order(counts: *mut u16, counts_len: usize, answer: *mut u64, answer_len: usize) -> usize;
    fn frame_kind(line: *const u8, line_len: usize) -> u8;
    fn frame_step(
        line: *const u8,
        line_len: usize,
        slots: *mut u64,
        slots_len: usize,
        counts: *mut u16,
        counts_len: usize,
        tallies: *mut u16,
        tallies_len: usize,
        tape: *mut u32,
        tape_len: usize,
        waiting: *mut u64,
        waiting_len: usize,
        output: *mut u8,
        output_len: usize,
    ) -> usize;
}

/// The kind of a line without its LF.
pub fn frame_kind_of(line: &[u8]) -> u8 {
    // The pointer and the length are those of the slice.
    unsafe { frame_kind(line.as_ptr(), line.len()) }
}

/// One step on a line without its LF: the number of bytes of its answer.
pub fn step(line: &[u8], store: &mut Store, tape: &mut [u32], waiting: &mut [u64], output: &mut [u8]) -> usize {
    let Store { slots, counts, tallies } = store;
    // Each pointer and the length beside it are those of a slice, and no two slices overlap.
    unsafe {
        frame_step(
            line.as_ptr(),
            line.len(),
            slots.as_mut_ptr(),
            slots.len(),
            counts.as_mut_ptr(),
            counts.len(),
            tallies.as_mut_ptr(),
            tallies.len(),
            tape.as_mut_ptr(),
            tape.len(),
            waiting.as_mut_ptr(),
            waiting.len(),
            output.as_mut_ptr(),
            output.len(),
        )
    }
}
