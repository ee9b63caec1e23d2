//! Timed sheets (02, F-1, F-3, F-9, F-11, F-13, F-14): a sheet whose entries rise
//! strictly, with a third slice that holds the balance entries as they stand. Rules,
//! layout and coins are those of a plain sheet: each call here rests on that of
//! [`calls`]. The width of the counts and tallies tells the store, as there.

use crate::board::board_of;
use crate::calls::{self, list, Answer, Cause};
use crate::capacity::{Number, CLUBS};
use crate::coins::{Source, Tape};
use crate::layout::{Node, Sheet};
use crate::mend::Mended;
use crate::places::{RETIRED, TIED};
use std::cmp::Ordering;

/// The words of a third slice of the clubs.
pub const BALANCE: usize = CLUBS.counts;

/// A third slice of the clubs.
pub type Balance = [u64; BALANCE];

/// 02, F-3: "Timed sheets compare entries without the bit", bit 63. 02, F-11, of
/// bit 62: "like bit 63 it is ignored by timed comparison and by what F-3 says of
/// zero."
pub const fn key(entry: u64) -> u64 {
    entry & !TIED & !RETIRED
}

/// Clear can meet only cause 1, and makes any contents the empty timed sheet.
pub fn clear<T: Number>(
    slots: &mut [u64],
    counts: &mut [T],
    tallies: &mut [T],
    balance: &mut [u64],
) -> Answer {
    lengths(slots, counts, tallies, balance)
        .map(|()| {
            balance.fill(0);
            calls::clear(slots, counts, tallies)
        })
        .into()
}

/// Inserts an entry, with coins from the start of `tape`. Its rank follows from
/// its key: the number of entries below.
pub fn insert<T: Number>(
    slots: &mut [u64],
    counts: &mut [T],
    tallies: &mut [T],
    balance: &mut [u64],
    entry: u64,
    tape: &[u32],
) -> Answer {
    let mut tape = Tape::new(tape);
    let result = insert_from(slots, counts, tallies, balance, entry, &mut tape);
    calls::changed(result, &tape)
}

/// Deletes the entry at a rank, with coins from the start of `tape`.
pub fn delete<T: Number>(
    slots: &mut [u64],
    counts: &mut [T],
    tallies: &mut [T],
    balance: &mut [u64],
    rank: usize,
    tape: &[u32],
) -> Answer {
    let mut tape = Tape::new(tape);
    let result = delete_from(slots, counts, tallies, balance, rank, &mut tape);
    calls::changed(result, &tape)
}

/// 02, F-1: "to find the rank of an entry or learn that it is absent."
pub fn find<T: Number>(
    slots: &[u64],
    counts: &[T],
    tallies: &[T],
    balance: &[u64],
    entry: u64,
) -> Answer {
    let found = |timed: Timed<T>| match timed.search(given(entry)?) {
        Ok(rank) => Ok(Answer::Found { rank }),
        Err(rank) => Ok(Answer::Absent { rank }),
    };
    open(slots, counts, tallies, balance).and_then(found).into()
}

/// Reads ranks `first` to `last` inclusive into the front of `output`.
pub fn read<T: Number>(
    slots: &[u64],
    counts: &[T],
    tallies: &[T],
    balance: &[u64],
    first: usize,
    last: usize,
    output: &mut [u64],
) -> Answer {
    open(slots, counts, tallies, balance)
        .and_then(|t| calls::read_sheet(&t.sheet, t.slots, t.counts, first, last, output))
        .into()
}

/// The notice board: reads `ranks` into the front of `output`.
pub fn board<T: Number>(
    slots: &[u64],
    counts: &[T],
    tallies: &[T],
    balance: &[u64],
    ranks: &[u64],
    output: &mut [u64],
) -> Answer {
    open(slots, counts, tallies, balance)
        .and_then(|t| board_of(&list(&t.sheet, t.slots, t.counts), ranks, output))
        .into()
}

/// Place of a rank, by its tied group.
pub fn place<T: Number>(
    slots: &[u64],
    counts: &[T],
    tallies: &[T],
    balance: &[u64],
    rank: usize,
) -> Answer {
    open(slots, counts, tallies, balance)
        .and_then(|t| calls::place_on_sheet(&t.sheet, t.slots, t.counts, t.tallies, rank))
        .into()
}

/// Whether the store is a timed sheet, and its length.
pub fn check<T: Number>(slots: &[u64], counts: &[T], tallies: &[T], balance: &[u64]) -> Answer {
    open(slots, counts, tallies, balance)
        .map(|timed| Answer::Checked { n: timed.sheet.n })
        .into()
}

/// Puts in the counts, the tallies and the third slice of the timed sheet that has
/// these slots and this M.
pub fn mend<T: Number>(
    slots: &[u64],
    counts: &mut [T],
    tallies: &mut [T],
    balance: &mut [u64],
) -> Answer {
    mended(slots, counts, tallies, balance)
        .map(|(mended, third_slice)| {
            balance.copy_from_slice(&third_slice);
            mended.put_in(counts, tallies)
        })
        .into()
}

/// What mending puts in, or the cause 1 or 18.
fn mended<T: Number>(
    slots: &[u64],
    counts: &[T],
    tallies: &[T],
    balance: &[u64],
) -> Result<(Mended<T>, Vec<u64>), Cause> {
    lengths(slots, counts, tallies, balance)?;
    let mended = Mended::of(slots, counts)?;
    let third_slice = third_slice_in(slots, &mended.counts);
    open(slots, &mended.counts, &mended.tallies, &third_slice).map_err(|_| Cause::NotMendable)?;
    Ok((mended, third_slice))
}

/// Insert with coins from any source: the new N, or the cause of a refusal.
pub fn insert_from<T: Number, S: Source>(
    slots: &mut [u64],
    counts: &mut [T],
    tallies: &mut [T],
    balance: &mut [u64],
    entry: u64,
    source: &mut S,
) -> Result<usize, Cause> {
    let timed = open(slots, counts, tallies, balance)?;
    let rank = match timed.search(given(entry)?) {
        Ok(_) => return Err(Cause::Present),
        Err(rank) => rank,
    };
    let (sheet, lent) = (timed.sheet, (&mut *slots, &mut *counts, tallies));
    let n = calls::insert_into(&sheet, lent, rank, entry, source)?;
    balance.copy_from_slice(&third_slice_in(slots, counts));
    Ok(n)
}

/// Delete with coins from any source: the new N, or the cause of a refusal.
pub fn delete_from<T: Number, S: Source>(
    slots: &mut [u64],
    counts: &mut [T],
    tallies: &mut [T],
    balance: &mut [u64],
    rank: usize,
    source: &mut S,
) -> Result<usize, Cause> {
    let sheet = open(slots, counts, tallies, balance)?.sheet;
    let lent = (&mut *slots, &mut *counts, tallies);
    let n = calls::delete_out_of(&sheet, lent, rank, source)?;
    balance.copy_from_slice(&third_slice_in(slots, counts));
    Ok(n)
}

/// The third slice that belongs to these slots, counts and tallies, or the cause 1
/// or 2 where they are no sheet.
pub fn balance_entries<T: Number>(
    slots: &[u64],
    counts: &[T],
    tallies: &[T],
) -> Result<Vec<u64>, Cause> {
    calls::opened(slots, counts, tallies)?;
    Ok(third_slice_in(slots, counts))
}

/// Cause 1, unless all four slices have the lengths of the store. The third one has as
/// many words as there are counts.
fn lengths<T: Number>(
    slots: &[u64],
    counts: &[T],
    tallies: &[T],
    balance: &[u64],
) -> Result<(), Cause> {
    calls::lengths(slots, counts, tallies)?;
    let right = balance.len() == T::CAPACITY.counts;
    right.then_some(()).ok_or(Cause::Lengths)
}

/// A store that is a timed sheet.
struct Timed<'a, T> {
    sheet: Sheet,
    slots: &'a [u64],
    counts: &'a [T],
    tallies: &'a [T],
    balance: &'a [u64],
}

/// The timed sheet in the store, or the cause 1, 2 or 11.
fn open<'a, T: Number>(
    slots: &'a [u64],
    counts: &'a [T],
    tallies: &'a [T],
    balance: &'a [u64],
) -> Result<Timed<'a, T>, Cause> {
    lengths(slots, counts, tallies, balance)?;
    let sheet = calls::opened(slots, counts, tallies)?;
    let list = list(&sheet, slots, counts);
    let none_is_zero = list.iter().all(|&entry| key(entry) != 0);
    let rises = list.windows(2).all(|pair| key(pair[0]) < key(pair[1]));
    if !none_is_zero || !rises || balance != third_slice(&sheet, counts, &list) {
        return Err(Cause::NotTimed);
    }
    Ok(Timed {
        sheet,
        slots,
        counts,
        tallies,
        balance,
    })
}

/// The third slice of the sheet that has these slots and counts.
fn third_slice_in<T: Number>(slots: &[u64], counts: &[T]) -> Vec<u64> {
    let sheet = Sheet::told_by(counts);
    third_slice(&sheet, counts, &list(&sheet, slots, counts))
}

/// 02, F-1: the third slice "holds at the number of each range above the leaves
/// its balance entry, and zero elsewhere". 01: "It is the first entry of the
/// right half; the entries before it form the left half."
fn third_slice<T: Number>(sheet: &Sheet, counts: &[T], list: &[u64]) -> Vec<u64> {
    let shape = &sheet.shape;
    let mut balance = vec![0; T::CAPACITY.counts];
    for depth in 0..shape.height {
        let mut before = 0;
        for node in Node::all_at(depth) {
            balance[node.number] = list[before + shape.count(counts, node.left())];
            before += shape.count(counts, node);
        }
    }
    balance
}

/// The entry, or cause 3. 02, F-3: "there an entry must be other than zero
/// without it: cause 3 where it is given, 11 where it stands on the sheet." By
/// F-11 without bit 62 as well.
fn given(entry: u64) -> Result<u64, Cause> {
    match key(entry) {
        0 => Err(Cause::EntryZero),
        _ => Ok(entry),
    }
}

impl<T: Number> Timed<'_, T> {
    /// The rank of the entry with this key, or, as an error, the rank at which it
    /// would stand: the number of entries below it.
    fn search(&self, entry: u64) -> Result<usize, usize> {
        let (leaf, mut rank) = self.leaf_of(entry);
        for slot in self.sheet.shape.entry_slots(leaf, self.counts) {
            match key(self.slots[slot]).cmp(&key(entry)) {
                Ordering::Less => rank += 1,
                Ordering::Equal => return Ok(rank),
                Ordering::Greater => break,
            }
        }
        Err(rank)
    }

    /// The leaf that the entry belongs to, and the number of entries before that
    /// leaf. 02, F-1: "the search goes down by it", the third slice: what is
    /// below the balance entry of a range belongs to its left half, the balance
    /// entry itself and what is above it to its right half.
    fn leaf_of(&self, entry: u64) -> (Node, usize) {
        let shape = &self.sheet.shape;
        let (mut node, mut before) = (Node::ROOT, 0);
        while node.depth < shape.height {
            let left = node.left();
            if key(entry) < key(self.balance[node.number]) {
                node = left;
            } else {
                before += shape.count(self.counts, left);
                node = node.right();
            }
        }
        (node, before)
    }
}
