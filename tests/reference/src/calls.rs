//! The eight calls on lent slices (01, "Causes and numbers"; 02, F-3, F-9, F-11, F-13,
//! F-14). The width of the counts and tallies tells whether the store is the clubs' or
//! the federation's.

use crate::board::board_of;
use crate::capacity::Number;
use crate::coins::{Source, Tape};
use crate::layout::{sheet_in, Node, Shape, Sheet, ROOT};
use crate::mend::Mended;
use crate::places::{standing, Standing};
use crate::rules::{plan, Change, Plan};

/// Why a call or a line was refused. The first cause in this order decides.
#[derive(Clone, Copy, Debug, PartialEq, Eq)]
pub enum Cause {
    /// Slots not 4,224, counts not 256 or tallies not 256; of a timed sheet also
    /// a third slice not of 256. 02, F-14: "Causes 1 and 5 read the larger numbers on
    /// such a store", 208,896 slots and 8,192 of the others.
    Lengths = 1,
    /// Not a sheet by the rules, wrong tallies among them.
    NotASheet = 2,
    /// 02, F-1: "the sheet does not rise or the third slice is wrong, placed
    /// straight after 2". By F-3 and F-11 also an entry on the sheet that is zero
    /// without bits 63 and 62.
    NotTimed = 11,
    /// 02, F-13: "exactly when no sheet (for a timed store, no timed sheet) has these
    /// slots and this M, in place of 2 and 11."
    NotMendable = 18,
    /// Entry zero; on a timed sheet zero without bits 63 and 62.
    EntryZero = 3,
    /// 02, F-1: "the entry is already there", "after 3".
    Present = 10,
    /// 02, F-9: "the ranks fall or are more than 64, after 2 and before 4." A board
    /// takes no entry, so that 3 and 10 cannot refuse it.
    Board = 16,
    /// Rank > N (insert), ≥ N (others), or first > last.
    Rank = 4,
    /// Insert with N = 1,024; into the federation's sheet with N = 65,536.
    Full = 5,
    /// Output shorter than last − first + 1, or than the ranks of a board are many.
    Output = 6,
    /// The tape ends before a draw is decided.
    TapeEnds = 7,
    /// The line is no frame.
    NoFrame = 8,
    /// The tape line would pass 1,024 waiting words.
    TapeFull = 9,
}

impl Cause {
    pub const fn number(self) -> u8 {
        self as u8
    }
}

/// What a call returns.
#[derive(Clone, Copy, Debug, PartialEq, Eq)]
pub enum Answer {
    /// Clear.
    Cleared,
    /// Insert and delete: the new N, and the words read.
    Changed { n: usize, words: usize },
    /// Read and board: the number of entries.
    Read { entries: usize },
    /// Place of a rank: the place, the sum of places and the number of boats of
    /// its tied group; 0, 0 and 1 of a retired boat.
    Placed { place: usize, sum: usize, t: usize },
    /// Check: N.
    Checked { n: usize },
    /// Mend: N.
    Mended { n: usize },
    /// A conversion of the order of the counts: M.
    Converted { m: usize },
    /// Find, where the entry is there: its rank.
    Found { rank: usize },
    /// Find, where it is not: the rank at which it would stand.
    Absent { rank: usize },
    /// Refused; all slices are as they were.
    Refused(Cause),
}

impl Answer {
    /// The cause number, or 0 where accepted.
    pub const fn number(self) -> u8 {
        match self {
            Answer::Refused(cause) => cause.number(),
            _ => 0,
        }
    }

    /// The values returned beside the number; zeros where there are none. Only
    /// place has a third one.
    pub const fn values(self) -> [usize; 3] {
        match self {
            Answer::Cleared | Answer::Refused(_) => [0, 0, 0],
            Answer::Changed { n, words } => [n, words, 0],
            Answer::Read { entries } => [entries, 0, 0],
            Answer::Placed { place, sum, t } => [place, sum, t],
            Answer::Checked { n } | Answer::Mended { n } => [n, 0, 0],
            Answer::Converted { m } => [m, 0, 0],
            Answer::Found { rank } => [1, rank, 0],
            Answer::Absent { rank } => [0, rank, 0],
        }
    }
}

impl From<Result<Answer, Cause>> for Answer {
    fn from(result: Result<Answer, Cause>) -> Answer {
        result.unwrap_or_else(Answer::Refused)
    }
}

/// "Clear can meet only 1, and makes any contents the empty sheet."
pub fn clear<T: Number>(slots: &mut [u64], counts: &mut [T], tallies: &mut [T]) -> Answer {
    lengths(slots, counts, tallies)
        .map(|()| {
            slots.fill(0);
            counts.fill(T::default());
            tallies.fill(T::default());
            Answer::Cleared
        })
        .into()
}

/// Inserts an entry at a rank, with coins from the start of `tape`.
pub fn insert<T: Number>(
    slots: &mut [u64],
    counts: &mut [T],
    tallies: &mut [T],
    rank: usize,
    entry: u64,
    tape: &[u32],
) -> Answer {
    let mut tape = Tape::new(tape);
    let result = insert_from(slots, counts, tallies, rank, entry, &mut tape);
    changed(result, &tape)
}

/// Deletes the entry at a rank, with coins from the start of `tape`.
pub fn delete<T: Number>(
    slots: &mut [u64],
    counts: &mut [T],
    tallies: &mut [T],
    rank: usize,
    tape: &[u32],
) -> Answer {
    let mut tape = Tape::new(tape);
    let result = delete_from(slots, counts, tallies, rank, &mut tape);
    changed(result, &tape)
}

/// The answer of an insert or a delete that read from this tape.
pub(crate) fn changed(result: Result<usize, Cause>, tape: &Tape) -> Answer {
    result
        .map(|n| Answer::Changed {
            n,
            words: tape.place(),
        })
        .into()
}

/// Reads ranks `first` to `last` inclusive into the front of `output`.
pub fn read<T: Number>(
    slots: &[u64],
    counts: &[T],
    tallies: &[T],
    first: usize,
    last: usize,
    output: &mut [u64],
) -> Answer {
    opened(slots, counts, tallies)
        .and_then(|sheet| read_sheet(&sheet, slots, counts, first, last, output))
        .into()
}

/// A read of a sheet.
pub(crate) fn read_sheet<T: Number>(
    sheet: &Sheet,
    slots: &[u64],
    counts: &[T],
    first: usize,
    last: usize,
    output: &mut [u64],
) -> Result<Answer, Cause> {
    if first > last || last >= sheet.n {
        return Err(Cause::Rank);
    }
    let entries = last - first + 1;
    let front = output.get_mut(..entries).ok_or(Cause::Output)?;
    let places = sheet.shape.entry_slots(Node::ROOT, counts).skip(first);
    for (entry, slot) in front.iter_mut().zip(places) {
        *entry = slots[slot];
    }
    Ok(Answer::Read { entries })
}

/// The notice board: reads `ranks` into the front of `output` (02, F-9).
pub fn board<T: Number>(
    slots: &[u64],
    counts: &[T],
    tallies: &[T],
    ranks: &[u64],
    output: &mut [u64],
) -> Answer {
    opened(slots, counts, tallies)
        .and_then(|sheet| board_of(&list(&sheet, slots, counts), ranks, output))
        .into()
}

/// Place of a rank, by its tied group (02, F-3, F-11).
pub fn place<T: Number>(slots: &[u64], counts: &[T], tallies: &[T], rank: usize) -> Answer {
    opened(slots, counts, tallies)
        .and_then(|sheet| place_on_sheet(&sheet, slots, counts, tallies, rank))
        .into()
}

/// The place of a rank of a sheet.
pub(crate) fn place_on_sheet<T: Number>(
    sheet: &Sheet,
    slots: &[u64],
    counts: &[T],
    tallies: &[T],
    rank: usize,
) -> Result<Answer, Cause> {
    if rank >= sheet.n {
        return Err(Cause::Rank);
    }
    let list = list(sheet, slots, counts);
    let scoring_before = |rank| {
        let shape = &sheet.shape;
        shape.scoring_before(slots, counts, tallies, rank)
    };
    let Standing { place, sum, t } = standing(&list, rank, scoring_before);
    Ok(Answer::Placed { place, sum, t })
}

/// Whether the store is a sheet, and its length.
pub fn check<T: Number>(slots: &[u64], counts: &[T], tallies: &[T]) -> Answer {
    opened(slots, counts, tallies)
        .map(|sheet| Answer::Checked { n: sheet.n })
        .into()
}

/// Puts in the counts and the tallies of the sheet that has these slots and this M
/// (02, F-13).
pub fn mend<T: Number>(slots: &[u64], counts: &mut [T], tallies: &mut [T]) -> Answer {
    lengths(slots, counts, tallies)
        .and_then(|()| Mended::of(slots, counts))
        .map(|mended| mended.put_in(counts, tallies))
        .into()
}

/// Insert with coins from any source: the new N, or the cause of a refusal.
pub fn insert_from<T: Number, S: Source>(
    slots: &mut [u64],
    counts: &mut [T],
    tallies: &mut [T],
    rank: usize,
    entry: u64,
    source: &mut S,
) -> Result<usize, Cause> {
    let sheet = opened(slots, counts, tallies)?;
    if entry == 0 {
        return Err(Cause::EntryZero);
    }
    insert_into(&sheet, (slots, counts, tallies), rank, entry, source)
}

/// An insert of an entry that may stand on this sheet.
pub(crate) fn insert_into<T: Number, S: Source>(
    sheet: &Sheet,
    lent: LentMut<T>,
    rank: usize,
    entry: u64,
    source: &mut S,
) -> Result<usize, Cause> {
    if rank > sheet.n {
        return Err(Cause::Rank);
    }
    if sheet.n == T::CAPACITY.entries {
        return Err(Cause::Full);
    }
    change(sheet, lent, Change::Insert { rank }, entry, source)
}

/// Delete with coins from any source: the new N, or the cause of a refusal.
pub fn delete_from<T: Number, S: Source>(
    slots: &mut [u64],
    counts: &mut [T],
    tallies: &mut [T],
    rank: usize,
    source: &mut S,
) -> Result<usize, Cause> {
    let sheet = opened(slots, counts, tallies)?;
    delete_out_of(&sheet, (slots, counts, tallies), rank, source)
}

/// A delete on a sheet.
pub(crate) fn delete_out_of<T: Number, S: Source>(
    sheet: &Sheet,
    lent: LentMut<T>,
    rank: usize,
    source: &mut S,
) -> Result<usize, Cause> {
    if rank >= sheet.n {
        return Err(Cause::Rank);
    }
    change(sheet, lent, Change::Delete { rank }, 0, source)
}

/// A change that the sheet takes: the new N, or cause 7. `entry` is the one that an
/// insert brings.
fn change<T: Number, S: Source>(
    sheet: &Sheet,
    lent: LentMut<T>,
    change: Change,
    entry: u64,
    source: &mut S,
) -> Result<usize, Cause> {
    let plan = plan(&sheet.shape, lent.1, change, source).map_err(|_| Cause::TapeEnds)?;
    carry_out(&sheet.shape, &plan, entry, lent);
    Ok(plan.n())
}

/// Writes a plan into the store: the range it names is taken up, changed, and
/// laid out anew. The tallies follow.
fn carry_out<T: Number>(
    old: &Shape,
    plan: &Plan<T>,
    entry: u64,
    (slots, counts, tallies): LentMut<T>,
) {
    let node = plan.node;
    let mut list = old.gather(node, slots, counts);
    match plan.change {
        Change::Insert { rank } => list.insert(rank, entry),
        Change::Delete { rank } => {
            list.remove(rank);
        }
    }
    slots[old.slots_under(node)].fill(0);
    counts.copy_from_slice(&plan.counts);
    let new = if plan.m() == old.m {
        *old
    } else {
        Shape::of(plan.m())
    };
    new.lay_out(node, slots, counts, &list);
    tallies.copy_from_slice(&new.tallies(slots));
}

/// The lent slices at their right lengths.
pub(crate) type LentMut<'a, T> = (&'a mut [u64], &'a mut [T], &'a mut [T]);

/// Cause 1, unless the slices have the lengths of the store that the width of the
/// counts tells. 02, F-11: "a wrong length cause 1".
pub(crate) fn lengths<T: Number>(slots: &[u64], counts: &[T], tallies: &[T]) -> Result<(), Cause> {
    let numbers = [counts.len(), tallies.len()];
    let right = slots.len() == T::CAPACITY.slots && numbers == [T::CAPACITY.counts; 2];
    right.then_some(()).ok_or(Cause::Lengths)
}

/// The sheet in the store, or cause 1 or 2.
pub(crate) fn opened<T: Number>(
    slots: &[u64],
    counts: &[T],
    tallies: &[T],
) -> Result<Sheet, Cause> {
    lengths(slots, counts, tallies)?;
    sheet_in(slots, counts, tallies).ok_or(Cause::NotASheet)
}

/// The entries of a sheet in their order.
pub(crate) fn list<T: Number>(sheet: &Sheet, slots: &[u64], counts: &[T]) -> Vec<u64> {
    sheet.shape.gather(Node::ROOT, slots, counts)
}

/// The length that the counts of a sheet tell: the root stands at 1 in any tree.
pub(crate) fn length<T: Number>(counts: &[T]) -> usize {
    counts.get(ROOT).map_or(0, |&count| count.value())
}
