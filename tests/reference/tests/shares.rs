//! Exact shares: histories with the same list have the same table, and each
//! sheet's share is 1/N times the product of 1/c over its ranges above the
//! leaves.

mod common;

use common::*;
use reference::coins::{Source, Undecided};
use reference::shares::*;
use std::ops::RangeInclusive;

const fn insert(rank: usize, entry: u64) -> Call {
    Call::Insert { rank, entry }
}

const fn delete(rank: usize) -> Call {
    Call::Delete { rank }
}

/// A board whose output has a place for each rank.
const fn board(ranks: &'static [u64]) -> Call {
    let output = ranks.len();
    Call::Board { ranks, output }
}

/// The table that the list alone decides: M even among N to 2N − 1, and each
/// balance entry even among its candidates.
fn table_of_list(list: &[u64]) -> Table {
    let n = list.len();
    if n == 0 {
        return Table::from([(Store::cleared().sheet(), Share::ONE)]);
    }
    table_of(every_course(|course| {
        let m = n + course.draw(n as u64).unwrap() as usize;
        sheet_by(list, m, course)
    }))
}

/// The sheet of a list and M with balance entries drawn from `course`.
fn sheet_by(list: &[u64], m: usize, course: &mut Course) -> SheetKey {
    lay_out(list, m, |_, _, c| course.draw(c as u64).unwrap() as usize).sheet()
}

/// The numbers as entries, every third of them of a retired boat.
fn some_retired(numbers: RangeInclusive<u64>) -> Vec<u64> {
    numbers.map(|k| k | u64::from(k % 3 == 0) << 62).collect()
}

fn sum(table: &Table) -> Share {
    table.values().copied().sum()
}

/// The inserts that make a list from nothing, each entry at the end.
fn at_the_end(list: &[u64]) -> Vec<Call> {
    let ranks = list.iter().enumerate();
    ranks.map(|(rank, &entry)| insert(rank, entry)).collect()
}

/// The same, from the last entry to the first, each at rank 0.
fn at_the_front(list: &[u64]) -> Vec<Call> {
    list.iter().rev().map(|&entry| insert(0, entry)).collect()
}

#[test]
fn short_histories_with_the_same_list() {
    let histories: [&[Call]; 7] = [
        &[insert(0, 1), insert(1, 2), insert(2, 3)],
        &[insert(0, 3), insert(0, 2), insert(0, 1)],
        &[insert(0, 2), insert(0, 1), insert(2, 3)],
        &[
            insert(0, 1),
            insert(1, 2),
            insert(2, 3),
            insert(1, 9),
            delete(1),
        ],
        &[
            insert(0, 9),
            insert(0, 8),
            delete(1),
            delete(0),
            insert(0, 2),
            insert(0, 1),
            insert(2, 3),
        ],
        &[
            insert(0, 7),
            Call::Clear,
            insert(0, 1),
            insert(1, 3),
            insert(1, 2),
            Call::Check,
        ],
        // Refused calls belong to a history and draw nothing.
        &[
            delete(0),
            insert(0, 1),
            insert(2, 9),
            insert(1, 0),
            insert(1, 2),
            Call::Read {
                first: 0,
                last: 1,
                output: 1,
            },
            Call::Place { rank: 2 },
            board(&[1, 0]),
            board(&[0, 2]),
            insert(2, 3),
            board(&[0, 2, 2]),
            Call::Read {
                first: 0,
                last: 2,
                output: 3,
            },
        ],
    ];
    let expected = table_of_list(&[1, 2, 3]);
    assert_eq!(expected.len(), 3);
    assert_eq!(sum(&expected), Share::ONE);
    for history in histories {
        assert_eq!(shares_by_courses(history), expected);
        assert_eq!(shares_by_calls(history), expected);
    }
}

#[test]
fn different_lists_have_different_tables() {
    let lists: [&[u64]; 7] = [&[], &[1], &[2], &[1, 2], &[2, 1], &[1, 1], &[1, 1, 2]];
    let tables: Vec<Table> = lists
        .iter()
        .map(|list| shares_by_courses(&at_the_end(list)))
        .collect();
    for (i, table) in tables.iter().enumerate() {
        assert_eq!(*table, table_of_list(lists[i]));
        assert_eq!(sum(table), Share::ONE);
        for other in &tables[..i] {
            assert_ne!(table, other);
            // No sheet belongs to two lists.
            assert!(table.keys().all(|sheet| !other.contains_key(sheet)));
        }
    }
}

#[test]
fn equal_entries() {
    let histories: [&[Call]; 4] = [
        &[insert(0, 5), insert(0, 5), insert(0, 5), insert(0, 5)],
        &[
            insert(0, 5),
            insert(1, 5),
            insert(1, 5),
            insert(2, 5),
            insert(2, 5),
            delete(0),
        ],
        &[
            insert(0, 5),
            insert(1, 5),
            insert(1, 5),
            insert(2, 5),
            insert(2, 5),
            delete(4),
        ],
        &[
            insert(0, 6),
            insert(1, 5),
            insert(1, 5),
            insert(2, 5),
            insert(2, 5),
            delete(0),
        ],
    ];
    for history in histories {
        assert_eq!(shares_by_courses(history), table_of_list(&[5; 4]));
    }
}

/// Six inserts and six deletes, all courses from the cleared store.
#[test]
fn a_longer_history_by_all_courses() {
    let mut history = at_the_front(&[1, 2, 3, 4, 5, 6]);
    assert_eq!(
        shares_by_courses(&history),
        table_of_list(&[1, 2, 3, 4, 5, 6])
    );
    history.extend([delete(2), delete(4)]);
    assert_eq!(shares_by_courses(&history), table_of_list(&[1, 2, 4, 5]));
    history = at_the_end(&[9, 8, 7]);
    history.extend([delete(0), delete(0), delete(0)]);
    assert_eq!(shares_by_courses(&history), table_of_list(&[]));
}

/// Lists whose M reach 65 and more, from N = 33 on.
#[test]
fn past_65() {
    let list = some_retired(101..=136);
    let mut at_end = shares_by_calls(&at_the_end(&list[..32]));
    let mut at_front = shares_by_calls(&at_the_front(&list[4..]));
    for done in 33..=36 {
        at_end = after_call(&at_end, insert(done - 1, list[done - 1]));
        assert_eq!(at_end, table_of_list(&list[..done]), "N {done}");
        at_front = after_call(&at_front, insert(0, list[36 - done]));
        assert_eq!(at_front, table_of_list(&list[36 - done..]), "N {done}");
    }
    assert_eq!(at_end, at_front);
    assert_eq!(sum(&at_end), Share::ONE);
    // M = 36 to 64 one sheet each; M = 65 to 71 with 3 × 2² sheets each.
    assert_eq!(at_end.len(), 29 + 7 * 12);
}

/// Inserts and deletes at every rank where some M exceed 64.
#[test]
fn every_rank_near_34() {
    let list = some_retired(201..=234);
    let table = table_of_list(&list);
    for rank in 0..=list.len() {
        let entry = 7 | (rank as u64 % 2) << 62;
        let mut longer = list.clone();
        longer.insert(rank, entry);
        let after_insert = after_call(&table, insert(rank, entry));
        assert_eq!(after_insert, table_of_list(&longer), "insert at {rank}");
        // Back to the same list and the same table.
        assert_eq!(
            after_call(&after_insert, delete(rank)),
            table,
            "delete at {rank}"
        );
    }
    for rank in 0..list.len() {
        let mut shorter = list.clone();
        shorter.remove(rank);
        let after_delete = after_call(&table, delete(rank));
        assert_eq!(after_delete, table_of_list(&shorter), "delete at {rank}");
    }
}

/// A run of inserts and deletes in and out at N 31 to 35.
#[test]
fn to_and_fro_near_33() {
    let list: Vec<u64> = (1..=33).collect();
    let mut history = at_the_end(&list);
    history.extend([insert(10, 99), insert(0, 98), delete(11), delete(0)]);
    history.extend([delete(32), delete(16), insert(16, 17), insert(32, 33)]);
    history.extend([delete(20), delete(20), insert(20, 22), insert(20, 21)]);
    assert_eq!(shares_by_calls(&history), table_of_list(&list));
}

/// The faces of the size step given, so that M is kept; the others from a
/// course.
struct KeepSize<'a> {
    size_step: Option<u64>,
    course: &'a mut Course,
}

impl Source for KeepSize<'_> {
    fn draw(&mut self, m: u64) -> Result<u64, Undecided> {
        match self.size_step.take() {
            Some(face) => Ok(face),
            None => self.course.draw(m),
        }
    }
}

/// The table of a list with a given M, each balance entry even among its
/// candidates.
fn table_of_size(list: &[u64], m: usize) -> Table {
    table_of(every_course(|course| sheet_by(list, m, course)))
}

/// The table after a call that keeps M.
fn after_call_of_size(table: &Table, call: Call) -> Table {
    let size_step = match call {
        Call::Insert { .. } => Some(1),
        _ => None,
    };
    table_of(table.iter().flat_map(|(sheet, &share)| {
        let ends = every_course(|course| {
            let mut store = sheet.store();
            let mut source = KeepSize { size_step, course };
            assert_eq!(store.call(call, &mut source), 0);
            store.sheet()
        });
        ends.into_iter()
            .map(move |(end, course)| (end, share * course))
    }))
}

/// The walk down keeps balance entries even, for sizes with more candidates.
#[test]
fn the_walk_keeps_balance_entries_even() {
    for (m, n, step) in [(65, 40, 1), (85, 50, 3), (111, 90, 7), (113, 80, 41)] {
        let list = some_retired(1..=n);
        let table = table_of_size(&list, m);
        for rank in (0..=list.len()).step_by(step) {
            let mut longer = list.clone();
            longer.insert(rank, 999);
            let after_insert = after_call_of_size(&table, insert(rank, 999));
            assert_eq!(after_insert, table_of_size(&longer, m), "M {m} rank {rank}");
            let mut shorter = list.clone();
            if rank < list.len() {
                shorter.remove(rank);
                let after_delete = after_call_of_size(&table, delete(rank));
                assert_eq!(
                    after_delete,
                    table_of_size(&shorter, m),
                    "M {m} rank {rank}"
                );
            }
        }
    }
}
