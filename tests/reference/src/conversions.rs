//! The two conversions of counts between number order, in which range k has
//! count k, and tree order, that of [`order`](crate::order) (02, F-5).
//!
//! They take any contents with an M that a sheet of the clubs can have; 02, F-14, names
//! them among the calls that take no other store. "Converting the old order to the new
//! and back loses nothing."

use crate::calls::{Answer, Cause};
use crate::layout::{Counts, ROOT, SIZE};
use crate::order::ranges;
use crate::sizes::{Size, MAX_SIZE};

/// Moves the count of each range from its number to its place.
pub fn to_tree_order(counts: &mut [u16]) -> Answer {
    convert(counts, |after, before, range, place| {
        after[place] = before[range];
    })
    .into()
}

/// Moves the count of each range from its place to its number.
pub fn to_number_order(counts: &mut [u16]) -> Answer {
    convert(counts, |after, before, range, place| {
        after[range] = before[place];
    })
    .into()
}

/// Moves the counts of the ranges of M's tree; the others stay. Cause 1 for
/// another length than 256, cause 2 where M is above 2,047.
fn convert(
    counts: &mut [u16],
    move_count: impl Fn(&mut Counts, &Counts, usize, usize),
) -> Result<Answer, Cause> {
    let counts: &mut Counts = counts.try_into().map_err(|_| Cause::Lengths)?;
    let m = usize::from(counts[SIZE]);
    if m > MAX_SIZE {
        return Err(Cause::NotASheet);
    }
    let before = *counts;
    let levels = Size::new(m).height() + 1;
    for (range, place) in ranges(ROOT, levels).into_iter().zip(1..) {
        move_count(counts, &before, range, place);
    }
    Ok(Answer::Converted { m })
}
