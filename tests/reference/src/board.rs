//! The notice board (02, F-9): what the boards of plain and of timed sheets have in
//! common.

use crate::calls::{Answer, Cause};

/// 02, F-9: "up to 64 ranks together".
pub const MAX_RANKS: usize = 64;

/// A board of a sheet with this list: each rank is read by itself. 02, F-9: "If any
/// rank is refused nothing is printed and the output remains untouched."
pub(crate) fn board_of(list: &[u64], ranks: &[u64], output: &mut [u64]) -> Result<Answer, Cause> {
    let falls = ranks.windows(2).any(|pair| pair[1] < pair[0]);
    if falls || ranks.len() > MAX_RANKS {
        return Err(Cause::Board);
    }
    let entries = ranks
        .iter()
        .map(|&rank| entry_at(list, rank))
        .collect::<Result<Vec<u64>, Cause>>()?;
    let front = output.get_mut(..entries.len()).ok_or(Cause::Output)?;
    front.copy_from_slice(&entries);
    Ok(Answer::Read {
        entries: entries.len(),
    })
}

/// The entry at a rank, or cause 4.
fn entry_at(list: &[u64], rank: u64) -> Result<u64, Cause> {
    let rank = usize::try_from(rank).map_err(|_| Cause::Rank)?;
    list.get(rank).copied().ok_or(Cause::Rank)
}
