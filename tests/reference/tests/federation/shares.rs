//! Exact shares on the federation's store, plain and timed. 02, F-14: "The clause about equal
//! shares holds for federation histories among themselves, plain ones and timed ones each
//! apart." Each sheet has the share that the clubs' sheet of the same list, M and balance
//! ranks has.

use crate::common::*;
use reference::capacity::Number;
use reference::places::{RETIRED, TIED};
use reference::shares::{self, Call, Share, StoreOf, Table};
use reference::timed_shares::{self, Call as TimedCall, StoreOf as TimedStoreOf};
use std::collections::BTreeMap;

const fn insert(rank: usize, entry: u64) -> Call {
    Call::Insert { rank, entry }
}

const fn delete(rank: usize) -> Call {
    Call::Delete { rank }
}

const fn timed_insert(entry: u64) -> TimedCall {
    TimedCall::Insert { entry }
}

const fn timed_delete(rank: usize) -> TimedCall {
    TimedCall::Delete { rank }
}

/// What a sheet is by the rules: its list, M, and the ranks of the balance entries by the
/// numbers of their ranges.
type Sheet = (Vec<u64>, usize, Vec<usize>);

fn sheet_in<T: Number>(store: &StoreOf<T>) -> Sheet {
    let (m, h) = (m(store), height(m(store)));
    let ranks = (0..h).flat_map(|depth| {
        let mut before = 0;
        (1 << depth..2 << depth).map(move |range| {
            let rank = before + count(store, 2 * range);
            before += count(store, range);
            rank
        })
    });
    (entries(store), m, ranks.collect())
}

/// A table by what its sheets are. Each store of it is that of its sheet.
fn by_sheets<T: Number>(table: &Table<shares::KeyOf<T>>) -> BTreeMap<Sheet, Share> {
    let sheets = table.iter().map(|(key, &share)| {
        let store = key.store();
        assert!(is_laid_out(&store));
        (sheet_in(&store), share)
    });
    let by_sheets: BTreeMap<Sheet, Share> = sheets.collect();
    assert_eq!(by_sheets.len(), table.len(), "one store for each sheet");
    by_sheets
}

/// The same of timed sheets, whose third slice is that of the sheet too.
fn by_timed_sheets<T: Number>(table: &Table<timed_shares::KeyOf<T>>) -> BTreeMap<Sheet, Share> {
    let sheets = table.iter().map(|(key, &share)| {
        let store = key.store();
        assert!(is_laid_out(&store.plain));
        assert!(with_third_slice(store.plain.clone()) == store);
        (sheet_in(&store.plain), share)
    });
    let by_sheets: BTreeMap<Sheet, Share> = sheets.collect();
    assert_eq!(by_sheets.len(), table.len(), "one store for each sheet");
    by_sheets
}

/// The list at the end of a history: 01, "an accepted insert puts its entry in at its rank,
/// an accepted delete takes out the entry at its rank, clear empties it, every other call
/// keeps it."
fn list_after(history: &[Call]) -> Vec<u64> {
    let mut list = Vec::new();
    for &call in history {
        match call {
            Call::Insert { rank, entry } if rank <= list.len() && entry != 0 => {
                list.insert(rank, entry);
            }
            Call::Delete { rank } if rank < list.len() => {
                list.remove(rank);
            }
            Call::Clear => list.clear(),
            _ => {}
        }
    }
    list
}

/// The same of a timed history, whose entries rise without bits 63 and 62.
fn timed_list_after(history: &[TimedCall]) -> Vec<u64> {
    let mut list: BTreeMap<u64, u64> = BTreeMap::new();
    for &call in history {
        match call {
            TimedCall::Insert { entry } if entry << 2 != 0 => {
                list.entry(entry << 2).or_insert(entry);
            }
            TimedCall::Delete { rank } if rank < list.len() => {
                let key = *list.keys().nth(rank).unwrap();
                list.remove(&key);
            }
            TimedCall::Clear => list.clear(),
            _ => {}
        }
    }
    list.into_values().collect()
}

/// All histories of so many calls among these.
fn all_histories<C: Copy>(calls: &[C], length: usize) -> Vec<Vec<C>> {
    if length == 0 {
        return vec![Vec::new()];
    }
    let shorter = all_histories(calls, length - 1);
    let longer = shorter.iter().flat_map(|history| {
        calls
            .iter()
            .map(move |&call| [&history[..], &[call]].concat())
    });
    longer.collect()
}

/// Tables are equal exactly when the lists are: the same for each history of a list, and
/// tables of different lists have no sheet in common.
fn equal_exactly_with_the_lists<Key: Ord + Clone>(
    tables: impl IntoIterator<Item = (Vec<u64>, Table<Key>)>,
) {
    let mut of_lists: BTreeMap<Vec<u64>, Table<Key>> = BTreeMap::new();
    for (list, table) in tables {
        let sum: Share = table.values().copied().sum();
        assert_eq!(sum, Share::ONE);
        let of_list = of_lists.entry(list).or_insert_with(|| table.clone());
        assert!(*of_list == table);
    }
    assert!(of_lists.len() > 7);
    let sheets: usize = of_lists.values().map(Table::len).sum();
    let all: Table<Key> = of_lists.into_values().flatten().collect();
    assert_eq!(all.len(), sheets, "no sheet belongs to two lists");
}

/// Short histories of every kind: those of three calls among some, refused ones too, and
/// some of more calls whose lists have up to five entries.
fn histories() -> Vec<Vec<Call>> {
    let calls = [
        insert(0, 1),
        insert(1, 2 | RETIRED),
        insert(2, 2 | TIED),
        delete(0),
        delete(1),
        Call::Clear,
    ];
    let front: Vec<Call> = (1..=4).rev().map(|entry| insert(0, entry)).collect();
    let end: Vec<Call> = (1..=4)
        .map(|entry| insert(entry as usize - 1, entry))
        .collect();
    let inside = vec![insert(0, 1), insert(1, 4), insert(1, 2), insert(2, 3)];
    let longer = [&end[..], &[insert(2, 9), delete(2)]].concat();
    let shorter = [&front[..], &[delete(3), insert(3, 4)]].concat();
    let anew = [&inside[..], &[Call::Clear], &end].concat();
    let with_others = [
        &[insert(9, 9), Call::Place { rank: 0 }, Call::Check][..],
        &front,
        &[insert(0, 0), delete(4), Call::Place { rank: 2 }],
    ]
    .concat();
    let five = [&front[..], &[insert(4, 5)]].concat();
    let also_five = [&[insert(0, 5)][..], &front].concat();
    let mut histories = all_histories(&calls, 3);
    histories.extend([front, end, inside, longer, shorter, anew, with_others]);
    histories.extend([five, also_five]);
    histories
}

/// The table of a history by its courses; call by call it is the same. Its sheets have the
/// list of the history, and each the share of the clubs' sheet.
fn table_after(history: &[Call]) -> Table<shares::KeyOf<u32>> {
    let table = StoreOf::<u32>::shares_by_courses(history);
    assert!(StoreOf::<u32>::shares_by_calls(history) == table);
    let sheets = by_sheets(&table);
    assert!(sheets.keys().all(|sheet| sheet.0 == list_after(history)));
    assert!(sheets == by_sheets(&shares::shares_by_courses(history)));
    table
}

#[test]
fn tables_are_equal_exactly_when_the_lists_are() {
    let histories = histories().into_iter();
    equal_exactly_with_the_lists(histories.map(|it| (list_after(&it), table_after(&it))));
}

/// The same kinds of timed histories.
fn timed_histories() -> Vec<Vec<TimedCall>> {
    let calls = [
        timed_insert(1),
        timed_insert(2 | RETIRED),
        timed_insert(2 | TIED),
        timed_delete(0),
        timed_delete(1),
        TimedCall::Clear,
    ];
    let rising: Vec<TimedCall> = (1..=4).map(timed_insert).collect();
    let falling: Vec<TimedCall> = rising.iter().rev().copied().collect();
    let longer = [&rising[..], &[timed_insert(9), timed_delete(4)]].concat();
    let shorter = [&falling[..], &[timed_delete(1), timed_insert(2)]].concat();
    let with_others = [
        &[
            timed_insert(TIED),
            TimedCall::Find { entry: 3 },
            TimedCall::Check,
        ][..],
        &falling,
        &[
            timed_insert(3),
            timed_delete(4),
            TimedCall::Place { rank: 2 },
        ],
    ]
    .concat();
    let five = [&rising[..], &[timed_insert(5)]].concat();
    let also_five = [&[timed_insert(5)][..], &falling].concat();
    let mut histories = all_histories(&calls, 3);
    histories.extend([rising, falling, longer, shorter, with_others]);
    histories.extend([five, also_five]);
    histories
}

/// The same of a timed history.
fn timed_table_after(history: &[TimedCall]) -> Table<timed_shares::KeyOf<u32>> {
    let table = TimedStoreOf::<u32>::shares_by_courses(history);
    assert!(TimedStoreOf::<u32>::shares_by_calls(history) == table);
    let sheets = by_timed_sheets(&table);
    assert!(sheets
        .keys()
        .all(|sheet| sheet.0 == timed_list_after(history)));
    assert!(sheets == by_timed_sheets(&timed_shares::shares_by_courses(history)));
    table
}

#[test]
fn timed_tables_are_equal_exactly_when_the_lists_are() {
    let histories = timed_histories().into_iter();
    let tables = histories.map(|it| (timed_list_after(&it), timed_table_after(&it)));
    equal_exactly_with_the_lists(tables);
}

/// 02, F-12: "For N = 33 there are 44 sheets: M from 33 to 64 has one each with share 1/33,
/// and M = 65 has twelve with share 1/396 each."
fn of_33(table: &BTreeMap<Sheet, Share>) {
    assert_eq!(table.len(), 44);
    for ((list, m, ranks), share) in table {
        assert_eq!(
            (list.len(), ranks.len()),
            (33, if *m == 65 { 7 } else { 0 })
        );
        assert_eq!(*share, Share::new(1, if *m == 65 { 396 } else { 33 }));
    }
}

/// 33 boats, whose M reach 65: there are balance entries.
fn boats_with_trees() -> Vec<u64> {
    (1..=33).map(|k| 10 * k | (k % 4) << 62).collect()
}

/// After the same 32 inserts, the last boat alone, or with another one that comes before her
/// and goes after her.
#[test]
fn where_there_are_trees() {
    let boats = boats_with_trees();
    let history: Vec<Call> = boats.iter().rev().map(|&entry| insert(0, entry)).collect();
    let (first, last) = history.split_at(32);
    let before = StoreOf::<u32>::shares_by_calls(first);
    let after = |calls: &[Call]| {
        let start = before.clone();
        calls
            .iter()
            .fold(start, |table, &call| shares::after_call(&table, call))
    };
    let table = after(last);
    assert!(after(&[insert(16, 7), last[0], insert(40, 7), delete(17)]) == table);
    let wide = by_sheets(&table);
    of_33(&wide);
    assert!(wide == by_sheets(&shares::shares_by_calls(&history)));
}

#[test]
fn where_there_are_timed_trees() {
    let boats = boats_with_trees();
    let history: Vec<TimedCall> = boats
        .iter()
        .rev()
        .map(|&entry| timed_insert(entry))
        .collect();
    let (first, last) = history.split_at(32);
    let before = TimedStoreOf::<u32>::shares_by_calls(first);
    let after = |calls: &[TimedCall]| {
        let start = before.clone();
        calls
            .iter()
            .fold(start, |table, &call| timed_shares::after_call(&table, call))
    };
    let table = after(last);
    let there = timed_insert(boats[5] ^ TIED);
    assert!(after(&[timed_insert(175), last[0], there, timed_delete(17)]) == table);
    let wide = by_timed_sheets(&table);
    of_33(&wide);
    assert!(wide == by_timed_sheets(&timed_shares::shares_by_calls(&history)));
}
