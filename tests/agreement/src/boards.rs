//! Random notice boards, accepted and refused.

use reference::board::MAX_RANKS;
use reference::random::SplitMix64;

/// Ranks that do not fall, for a sheet of n entries: as a rule some, at times none, 64
/// or 65; among few of the sheet's ranks, so that many are repeated, or among all. On
/// the empty sheet they are 0.
fn rising_ranks(random: &mut SplitMix64, n: usize) -> Vec<u64> {
    let number = match random.below(12) {
        0 => 0,
        1 | 2 => MAX_RANKS,
        3 => MAX_RANKS + 1,
        _ => 1 + random.below(20),
    };
    let all = n.max(1);
    let width = [1, 5, all][random.below(3)].min(all);
    let first = random.below(all - width + 1);
    let mut ranks: Vec<u64> = (0..number).map(|_| (first + random.below(width)) as u64).collect();
    ranks.sort_unstable();
    ranks
}

/// Such ranks, at times with the last one past the end, or with two of them changed
/// about, so that they fall if these are not equal.
fn ranks(random: &mut SplitMix64, n: usize) -> Vec<u64> {
    let mut ranks = rising_ranks(random, n);
    let beyond = [n as u64, n as u64 + 1, 1 << 32, u64::MAX][random.below(4)];
    if let (0 | 1, Some(last)) = (random.below(10), ranks.last_mut()) {
        *last = beyond;
    }
    if !ranks.is_empty() && random.below(6) == 0 {
        let (one, other) = (random.below(ranks.len()), random.below(ranks.len()));
        ranks.swap(one, other);
    }
    ranks
}

/// The ranks of a board and an output of fives, at times too short.
pub fn board(random: &mut SplitMix64, n: usize) -> (Vec<u64>, Vec<u64>) {
    let ranks = ranks(random, n);
    let room = match random.below(8) {
        0 => random.below(ranks.len() + 1),
        _ => ranks.len() + random.below(3),
    };
    (ranks, vec![5; room])
}
