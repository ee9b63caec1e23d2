//! Mending a spoiled sheet (02, F-13): what mending plain and timed stores has in
//! common.

use crate::calls::{length, Answer, Cause};
use crate::capacity::Number;
use crate::layout::{sheet_in, Shape, SIZE};

/// The counts and the tallies of the sheet that has the slots and the M of a store.
pub(crate) struct Mended<T> {
    pub counts: Vec<T>,
    pub tallies: Vec<T>,
}

impl<T: Number> Mended<T> {
    /// Those for these slots and M, which is all that is read of the counts; or cause
    /// 18. Each count of a sheet with these slots is the number of the entries in the
    /// slots of its range: there is one store to look at, which is a sheet or not.
    pub fn of(slots: &[u64], counts: &[T]) -> Result<Mended<T>, Cause> {
        let m = counts[SIZE].value();
        if m > T::CAPACITY.largest_m() {
            return Err(Cause::NotMendable);
        }
        let shape = Shape::of(m);
        let (counts, tallies) = (shape.counts(slots), shape.tallies(slots));
        sheet_in(slots, &counts, &tallies).ok_or(Cause::NotMendable)?;
        Ok(Mended { counts, tallies })
    }

    /// 02, F-13: "its counts, tallies and, for a timed sheet, its third slice are put
    /// in, and N is returned." The third slice is put in by the call.
    pub fn put_in(&self, counts: &mut [T], tallies: &mut [T]) -> Answer {
        counts.copy_from_slice(&self.counts);
        tallies.copy_from_slice(&self.tallies);
        Answer::Mended {
            n: length(&self.counts),
        }
    }
}
