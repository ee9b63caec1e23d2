//! Exact shares of the proved library's own timed stores, tallies and third slice
//! included: two histories with the same list have the same table, with other
//! lists other ones.

use agreement::shares::{by_calls, by_courses};
use agreement::timed::Store;
use reference::places::{RETIRED, TIED};
use reference::shares::table_of;
use reference::timed_shares::{self, shares_by_calls, shares_by_courses, TimedKey};

const fn insert(entry: u64) -> timed_shares::Call {
    timed_shares::Call::Insert { entry }
}

const fn delete(rank: usize) -> timed_shares::Call {
    timed_shares::Call::Delete { rank }
}

const fn find(entry: u64) -> timed_shares::Call {
    timed_shares::Call::Find { entry }
}

/// A board whose output has two places.
const fn board(ranks: &'static [u64]) -> timed_shares::Call {
    timed_shares::Call::Board { ranks, output: 2 }
}

/// Histories that end with the list 1, 2, 3.
fn with_the_same_list() -> Vec<Vec<timed_shares::Call>> {
    vec![
        vec![insert(1), insert(2), insert(3)],
        vec![insert(3), insert(2), insert(1)],
        vec![insert(1), insert(9), insert(3), insert(2), delete(3)],
        vec![insert(9), insert(8), delete(1), delete(0), insert(2), insert(1), insert(3)],
        vec![insert(7), timed_shares::Call::Clear, insert(2), insert(3), timed_shares::Call::Check, insert(1)],
        vec![insert(3), board(&[0, 0]), insert(1), board(&[1, 0]), board(&[0, 2]), insert(2), board(&[0, 2])],
        vec![insert(1), find(1), insert(1), insert(0), insert(3), delete(5), find(2), find(0), insert(3), insert(2)],
    ]
}

#[test]
fn the_same_list_has_the_same_table() {
    let histories = with_the_same_list();
    let expected = by_courses::<Store>(&histories[0]);
    assert_eq!(expected.len(), 3, "M is 3, 4 or 5");
    for history in histories {
        assert!(by_courses::<Store>(&history) == expected);
        assert!(by_calls::<Store>(&history) == expected);
        assert!(shares_by_courses(&history) == expected);
    }
}

#[test]
fn other_lists_have_other_tables() {
    let histories = [
        vec![],
        vec![insert(1)],
        vec![insert(1), insert(2)],
        vec![insert(2), insert(3)],
        vec![insert(1), insert(2), insert(3)],
        vec![insert(1), insert(2), insert(4)],
    ];
    let tables = histories.map(|history| by_courses::<Store>(&history));
    for (i, table) in tables.iter().enumerate() {
        for other in &tables[i + 1..] {
            assert!(table != other);
        }
    }
}

/// Lists of 34: M up to 67, so that there are balance entries.
#[test]
fn lists_with_balance_entries() {
    let entries = 101..=134;
    let forward: Vec<_> = entries.clone().map(insert).collect();
    let mut backward: Vec<_> = entries.rev().map(insert).collect();
    backward.extend([delete(16), insert(9), insert(117), insert(117), delete(0), find(117)]);
    let table = by_calls::<Store>(&forward);
    assert_eq!(table.len(), 31 + 3 * 12, "one sheet for each M up to 64, else 3 × 2²");
    let with_tree = |sheet: &&TimedKey| sheet.store().balance[1] != 0;
    assert_eq!(table.keys().filter(with_tree).count(), 3 * 12);
    assert!(by_calls::<Store>(&backward) == table);
    assert!(shares_by_calls(&forward) == table);
    let mut other = forward;
    other[20] = insert(200);
    assert!(by_calls::<Store>(&other) != table);
}

/// Document 02, F-3: "Layout and shares do not look at the bit." Nor do they at bit
/// 62, but for the tallies. The table of the same calls without the bits is the same
/// but for the bits in slots and third slice, and its tallies are the counts but for
/// number 0.
#[test]
fn shares_do_not_look_at_the_bits() {
    let both = TIED | RETIRED;
    let history = |bits: u64| {
        let entries = (101..=134u64).rev().map(|entry| entry | entry << 62);
        let inserts = entries.map(|entry| insert(entry & bits));
        inserts.chain([insert(9 | both & bits), insert(9), delete(5)]).collect::<Vec<_>>()
    };
    let (with, without) = (by_calls::<Store>(&history(u64::MAX)), by_calls::<Store>(&history(!both)));
    assert!(with == shares_by_calls(&history(u64::MAX)));
    assert!(with != without);
    let bare = with.into_iter().map(|(sheet, share)| {
        let mut store = sheet.store();
        store.plain.slots.iter_mut().for_each(|slot| *slot &= !both);
        store.plain.tallies = store.plain.counts.clone();
        store.plain.tallies[0] = 0;
        store.balance.iter_mut().for_each(|word| *word &= !both);
        (store.sheet(), share)
    });
    assert!(table_of(bare) == without);
}

/// A boat that retires, by delete and insert, leaves no trace of when.
#[test]
fn retired_boats_leave_no_trace() {
    let gone = |entry: u64| if entry % 5 == 0 { entry | RETIRED } else { entry };
    let at_once: Vec<_> = (101..=134).map(|entry| insert(gone(entry))).collect();
    let mut later: Vec<_> = (101..=134).map(|entry| insert(if entry == 120 { entry } else { gone(entry) })).collect();
    later.extend([insert(120 | RETIRED), delete(19), find(120), insert(120 | RETIRED), find(120)]);
    let table = by_calls::<Store>(&at_once);
    assert!(by_calls::<Store>(&later) == table);
    assert!(shares_by_calls(&at_once) == table);
}
