//! Exact shares of timed histories, the third slice included: histories with the
//! same list have the same table, that of the list alone.

mod common;

use common::*;
use reference::coins::Source;
use reference::shares::{every_course, table_of, Share};
use reference::timed_shares::*;

const fn insert(entry: u64) -> Call {
    Call::Insert { entry }
}

const fn delete(rank: usize) -> Call {
    Call::Delete { rank }
}

/// A board whose output has a place for each rank.
const fn board(ranks: &'static [u64]) -> Call {
    let output = ranks.len();
    Call::Board { ranks, output }
}

/// The table that the list alone decides: M even among N to 2N − 1, and each
/// balance entry even among its candidates.
fn table_of_list(list: &[u64]) -> Table {
    let n = list.len();
    if n == 0 {
        return cleared();
    }
    table_of(every_course(|course| {
        let m = n + course.draw(n as u64).unwrap() as usize;
        lay_out_timed(list, m, |_, _, c| course.draw(c as u64).unwrap() as usize).sheet()
    }))
}

#[test]
fn short_histories_with_the_same_list() {
    let histories: [&[Call]; 5] = [
        &[insert(1), insert(2), insert(3)],
        &[insert(3), insert(1), insert(2)],
        &[insert(2), insert(9), insert(1), delete(2), insert(3)],
        &[insert(7), Call::Clear, insert(3), insert(2), insert(1)],
        // Refused calls, and those that change nothing, belong to a history.
        &[
            delete(0),
            insert(2),
            insert(0),
            insert(2),
            Call::Find { entry: 2 },
            Call::Find { entry: 0 },
            insert(1),
            Call::Read {
                first: 0,
                last: 1,
                output: 1,
            },
            Call::Place { rank: 2 },
            board(&[1, 0]),
            board(&[0, 2]),
            Call::Check,
            insert(3),
            insert(1),
            board(&[0, 2, 2]),
        ],
    ];
    let expected = table_of_list(&[1, 2, 3]);
    assert_eq!(expected.len(), 3);
    for history in histories {
        assert_eq!(shares_by_courses(history), expected);
        assert_eq!(shares_by_calls(history), expected);
    }
}

#[test]
fn different_lists_have_different_tables() {
    let lists: [&[u64]; 6] = [&[], &[1], &[2], &[1, 2], &[1, 3], &[1, 2, 3]];
    let tables = lists.map(|list| {
        let history: Vec<Call> = list.iter().map(|&entry| insert(entry)).collect();
        shares_by_courses(&history)
    });
    for (i, table) in tables.iter().enumerate() {
        assert_eq!(*table, table_of_list(lists[i]));
        for other in &tables[..i] {
            assert!(table.keys().all(|sheet| !other.contains_key(sheet)));
        }
    }
}

/// Lists whose M reach 65 and more: from the front, from the end, and with
/// entries that come and go.
#[test]
fn past_65() {
    let list: Vec<u64> = (101..=134).collect();
    let forward: Vec<Call> = list.iter().map(|&entry| insert(entry)).collect();
    let backward: Vec<Call> = forward.iter().rev().copied().collect();
    let mut to_and_fro = forward.clone();
    to_and_fro.extend([insert(9), delete(0), delete(16), delete(32)]);
    to_and_fro.extend([
        insert(134),
        insert(117),
        insert(117),
        insert(500),
        delete(34),
    ]);
    let expected = table_of_list(&list);
    // M = 34 to 64 one sheet each; M = 65 to 67 with 3 × 2² sheets each.
    assert_eq!(expected.len(), 31 + 3 * 12);
    assert_eq!(expected.values().copied().sum::<Share>(), Share::ONE);
    let with_tree = |sheet: &&TimedKey| sheet.store().balance[1] != 0;
    assert_eq!(expected.keys().filter(with_tree).count(), 3 * 12);
    for history in [forward, backward, to_and_fro] {
        assert!(shares_by_calls(&history) == expected);
    }
}

/// Inserts and deletes at one rank in three where some M exceed 64; some boats have
/// retired.
#[test]
fn ranks_near_34() {
    let boats = (1..=34).map(|k| 10 * k | u64::from(k % 3 == 0) << 62);
    let list: Vec<u64> = boats.collect();
    let table = table_of_list(&list);
    for rank in (0..=list.len()).step_by(3) {
        let entry = 10 * rank as u64 + 5 | (rank as u64 % 2) << 62;
        let mut longer = list.clone();
        longer.insert(rank, entry);
        let after_insert = after_call(&table, insert(entry));
        assert!(after_insert == table_of_list(&longer), "insert at {rank}");
        let after_delete = after_call(&after_insert, delete(rank));
        assert!(after_delete == table, "delete at {rank}");
    }
}
