//! Corrections in either order (02, F-10): what its tests try and compare, with the
//! calls of any implementation. [`timed_corrections`](crate::timed_corrections) has what
//! is other for timed sheets.

use crate::places::{RETIRED, TIED};
use crate::random::SplitMix64;
use crate::shares::{Call, Table};
use std::fmt::Debug;

pub const fn insert(rank: usize, entry: u64) -> Call {
    Call::Insert { rank, entry }
}

pub const fn delete(rank: usize) -> Call {
    Call::Delete { rank }
}

/// The first boat and the second: with bits 63 and 62 and without, and equal ones.
pub const BOATS: [[u64; 2]; 4] = [
    [8, 9],
    [7, 7],
    [6 | TIED, 6 | RETIRED],
    [TIED | RETIRED, u64::MAX],
];

/// "inserting one boat at j and then another at i", and "inserting the second at i
/// and then the first at j + 1".
pub const fn orders([i, j]: [usize; 2], [a, b]: [u64; 2]) -> [[Call; 2]; 2] {
    [
        [insert(j, a), insert(i, b)],
        [insert(i, b), insert(j + 1, a)],
    ]
}

/// The list to which both lead.
pub fn with_both(list: &[u64], [i, j]: [usize; 2], [a, b]: [u64; 2]) -> Vec<u64> {
    [&list[..i], &[b], &list[i..j], &[a], &list[j..]].concat()
}

/// All i ≤ j among these ranks, which rise.
pub fn pairs(ranks: &[usize]) -> Vec<[usize; 2]> {
    let up_to = |&j: &usize| {
        let lower = ranks.iter().filter(move |&&i| i <= j);
        lower.map(move |&i| [i, j])
    };
    ranks.iter().flat_map(up_to).collect()
}

/// All i ≤ j ≤ `n`.
pub fn all_pairs(n: usize) -> Vec<[usize; 2]> {
    pairs(&(0..=n).collect::<Vec<_>>())
}

/// The boats 10, 20 and so on, with and without bits 63 and 62.
pub fn tens(n: usize) -> Vec<u64> {
    (1..=n as u64).map(|k| 10 * k | k << 62).collect()
}

/// The inserts that make a list from nothing, each entry at the end.
pub fn inserts(list: &[u64]) -> Vec<Call> {
    let ranks = list.iter().enumerate();
    ranks.map(|(rank, &entry)| insert(rank, entry)).collect()
}

/// Histories with lists of 0, 1, 5 and 8 boats; clear and refused calls stand in some.
pub fn histories() -> Vec<Vec<Call>> {
    let refused = [
        insert(9, 5),
        insert(0, 0),
        delete(8),
        Call::Place { rank: 8 },
    ];
    let at_the_front: Vec<Call> = tens(5).into_iter().map(|entry| insert(0, entry)).collect();
    vec![
        vec![],
        [&refused[..], &[insert(0, 3), delete(0)]].concat(),
        vec![
            insert(0, 3),
            delete(0),
            insert(2, 5),
            insert(0, 4 | RETIRED),
        ],
        [&inserts(&[6; 3])[..], &[Call::Clear], &at_the_front].concat(),
        [&inserts(&tens(8))[..], &refused].concat(),
    ]
}

/// Calls behind the two inserts: accepted ones and refused ones, by the list.
pub const BEHIND: [Call; 7] = [
    delete(3),
    insert(9, 1),
    insert(2, 5),
    Call::Check,
    delete(0),
    insert(0, 0),
    insert(4, 7),
];

/// The tables of an implementation, for one kind of sheet.
pub struct Tables<Key, Call> {
    /// The table after one more call.
    pub after_call: fn(&Table<Key>, Call) -> Table<Key>,
    /// The list of a sheet.
    pub entries: fn(&Key) -> Vec<u64>,
}

impl<Key: Clone + PartialEq, Call: Copy + Debug> Tables<Key, Call> {
    /// The table after these calls.
    pub fn after(&self, table: &Table<Key>, calls: &[Call]) -> Table<Key> {
        let calls = calls.iter();
        calls.fold(table.clone(), |table, &call| {
            (self.after_call)(&table, call)
        })
    }

    /// The list that all sheets of a table have.
    pub fn list(&self, table: &Table<Key>) -> Vec<u64> {
        let mut lists = table.keys().map(self.entries);
        let list = lists.next().expect("a table has a sheet");
        assert!(lists.all(|other| other == list), "all have one list");
        list
    }

    /// Two inserts in either order lead from a table to one and the same, which is
    /// returned. It has this list, of two boats more: no insert was refused.
    pub fn either_order(
        &self,
        before: &Table<Key>,
        orders: [[Call; 2]; 2],
        list: &[u64],
    ) -> Table<Key> {
        let [one, other] = orders.map(|calls| self.after(before, &calls));
        assert_eq!(self.list(&one), list, "{orders:X?}");
        assert!(one == other, "{orders:X?}");
        one
    }

    /// The table after an insert, which leads to this list, of one boat more, and a
    /// delete that gives the first list back: neither was refused.
    pub fn taken_back(
        &self,
        before: &Table<Key>,
        [insert, delete]: [Call; 2],
        list: &[u64],
    ) -> Table<Key> {
        let between = self.after(before, &[insert]);
        assert_eq!(self.list(&between), list, "{insert:X?}");
        let behind = self.after(&between, &[delete]);
        assert_eq!(self.list(&behind), self.list(before), "{insert:X?}");
        behind
    }
}

/// Ranks `first` ≤ `mid` < `last` < `n`: all of short lists, some of longer ones.
pub fn splits(n: usize, random: &mut SplitMix64) -> Vec<[usize; 3]> {
    if n <= 6 {
        let pairs = (0..n).flat_map(|last| (0..last).map(move |mid| (mid, last)));
        let all = pairs.flat_map(|(mid, last)| (0..=mid).map(move |first| [first, mid, last]));
        return all.collect();
    }
    let some = |_| {
        let last = 1 + random.below(n - 1);
        let mid = random.below(last);
        [random.below(mid + 1), mid, last]
    };
    (0..20).map(some).collect()
}

/// What stands everywhere in an output before a read: no entry of these lists.
const UNREAD: u64 = u64::MAX;

/// "Adjacent readings joined are the reading of the whole": ranks `first` to `mid` and
/// on to `last` of a sheet with this list, and outputs of every length up to two places
/// too many. `read` returns the number of the cause, or 0, and the number of entries.
pub fn joined(
    list: &[u64],
    split: [usize; 3],
    mut read: impl FnMut(usize, usize, &mut [u64]) -> [u64; 2],
) {
    let [first, _, last] = split;
    for room in 0..=last - first + 3 {
        joined_in(room, list, split, &mut read);
    }
}

/// The whole is read into an output of `room` places, and its parts into another one:
/// the first part into as many places as it needs, or all there are, the second into
/// the rest. The whole is refused exactly when one of them is, by cause 6; and a read
/// that is refused leaves its places as they were.
fn joined_in(
    room: usize,
    list: &[u64],
    [first, mid, last]: [usize; 3],
    mut read: impl FnMut(usize, usize, &mut [u64]) -> [u64; 2],
) {
    let (k, entries) = (mid - first + 1, last - first + 1);
    let (mut whole, mut parts) = (vec![UNREAD; room], vec![UNREAD; room]);
    let of_whole = read(first, last, &mut whole);
    let (front, rest) = parts.split_at_mut(k.min(room));
    let of_parts = [read(first, mid, front), read(mid + 1, last, rest)];
    let (short, no_front) = (room < entries, room < k);
    let answer = |short, entries| if short { [6, 0] } else { [0, entries as u64] };
    assert_eq!(of_whole, answer(short, entries));
    assert_eq!(of_parts, [answer(no_front, k), answer(short, entries - k)]);
    let unread = |places: &[u64]| places.iter().all(|&place| place == UNREAD);
    if short {
        assert!(unread(&whole) && unread(rest));
        assert!(!no_front || unread(front));
    } else {
        assert_eq!(whole[..entries], list[first..=last]);
        assert!(unread(&whole[entries..]));
        assert_eq!(parts, whole);
    }
}
