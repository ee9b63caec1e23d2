//! What the tests of corrections in either order (02, F-10) try on timed sheets, where
//! an entry is inserted by its key. The lists are [`tens`](crate::corrections::tens).

use crate::corrections::tens;
use crate::places::{RETIRED, TIED};
use crate::timed::key;
use crate::timed_shares::Call;

pub const fn insert(entry: u64) -> Call {
    Call::Insert { entry }
}

pub const fn delete(rank: usize) -> Call {
    Call::Delete { rank }
}

/// Two boats that stand at the ranks i ≤ j of a list of tens, the first before the
/// second, with every choice of their bits 63 and 62.
pub fn boats_at([i, j]: [usize; 2]) -> [[u64; 2]; 16] {
    let (a, b) = (10 * i as u64 + 5, 10 * j as u64 + 6);
    std::array::from_fn(|bits| [a | (bits as u64) << 62, b | (bits as u64 / 4) << 62])
}

pub const fn orders([a, b]: [u64; 2]) -> [[Call; 2]; 2] {
    [[insert(a), insert(b)], [insert(b), insert(a)]]
}

/// The list to which both lead.
pub fn with_both(list: &[u64], boats: [u64; 2]) -> Vec<u64> {
    let mut list = [list, &boats].concat();
    list.sort_by_key(|&entry| key(entry));
    list
}

/// The rank at which an entry stands, or would stand, on a list.
pub fn rank_of(entry: u64, list: &[u64]) -> usize {
    list.iter().filter(|&&e| key(e) < key(entry)).count()
}

pub fn inserts(list: &[u64]) -> Vec<Call> {
    list.iter().map(|&entry| insert(entry)).collect()
}

/// Histories with lists of 0, 1, 5 and 8 tens; clear and refused calls stand in some.
pub fn histories() -> Vec<Vec<Call>> {
    let refused = [
        insert(TIED),
        delete(8),
        Call::Find { entry: 0 },
        Call::Place { rank: 8 },
    ];
    let backward: Vec<Call> = inserts(&tens(5)).into_iter().rev().collect();
    vec![
        vec![],
        [&refused[..], &[insert(30), insert(30 | TIED), delete(0)]].concat(),
        vec![insert(10 | RETIRED), insert(10), delete(1)],
        [&inserts(&tens(3))[..], &[Call::Clear], &backward].concat(),
        [&inserts(&tens(8))[..], &refused].concat(),
    ]
}

/// Calls behind the two inserts: accepted ones and refused ones, by the list.
pub const BEHIND: [Call; 7] = [
    delete(3),
    insert(17 | TIED),
    insert(17),
    Call::Find { entry: 17 },
    delete(0),
    insert(RETIRED),
    insert(3),
];
