//! Exact shares of the proved library's own stores: two histories with the same list have the same table, with
//! other lists other ones, plain and timed each apart. The tables are those of the rules.

use crate::{Store, Timed};
use agreement::shares::{after_call, by_calls, by_courses, Tabled};
use reference::coins::Source;
use reference::places::{RETIRED, TIED};
use reference::shares::{self, every_course, table_of, StoreOf, Table};
use reference::timed_shares;

const fn insert(rank: usize, entry: u64) -> shares::Call {
    shares::Call::Insert { rank, entry }
}

const fn delete(rank: usize) -> shares::Call {
    shares::Call::Delete { rank }
}

const fn timed_insert(entry: u64) -> timed_shares::Call {
    timed_shares::Call::Insert { entry }
}

const fn timed_delete(rank: usize) -> timed_shares::Call {
    timed_shares::Call::Delete { rank }
}

/// Histories that end with the list 1, 2, 3, the second one of which has retired.
fn with_the_same_list() -> Vec<Vec<shares::Call>> {
    use shares::Call::{Board, Check, Clear, Place};
    let gone = 2 | RETIRED;
    vec![
        vec![insert(0, 1), insert(1, gone), insert(2, 3)],
        vec![insert(0, 3), insert(0, gone), insert(0, 1)],
        vec![insert(0, 1), insert(1, gone), insert(2, 3), insert(1, 9), delete(1)],
        vec![insert(0, 9), insert(0, 8), delete(1), delete(0), insert(0, gone), insert(0, 1), insert(2, 3)],
        vec![insert(0, 7), Clear, insert(0, 1), insert(1, 3), Check, insert(1, 2), delete(1), insert(1, gone)],
        vec![insert(0, 1), Board { ranks: &[0], output: 1 }, insert(9, 4), insert(1, 0), insert(1, gone), Place { rank: 7 }, insert(2, 3)],
    ]
}

fn timed_with_the_same_list() -> Vec<Vec<timed_shares::Call>> {
    use timed_shares::Call::{Check, Clear, Find};
    let gone = 2 | RETIRED;
    vec![
        vec![timed_insert(1), timed_insert(gone), timed_insert(3)],
        vec![timed_insert(3), timed_insert(gone), timed_insert(1)],
        vec![timed_insert(1), timed_insert(9), timed_insert(3), timed_insert(gone), timed_delete(3)],
        vec![timed_insert(7), Clear, timed_insert(2), timed_insert(3), Check, timed_insert(1), timed_delete(1), timed_insert(gone)],
        vec![timed_insert(1), Find { entry: 1 }, timed_insert(1), timed_insert(0), timed_insert(3), Find { entry: 2 }, timed_insert(gone)],
    ]
}

/// Every one of the histories has this table, by all its courses and call by call.
fn have_the_table<S: Tabled>(histories: &[Vec<S::Bare>], table: &Table<S::Key>) {
    assert_eq!(table.len(), 3, "M is 3, 4 or 5");
    for history in histories {
        assert!(by_courses::<S>(history) == *table);
        assert!(by_calls::<S>(history) == *table);
    }
}

#[test]
fn the_same_list_has_the_same_table() {
    let histories = with_the_same_list();
    have_the_table::<Store>(&histories, &StoreOf::shares_by_courses(&histories[0]));
    let histories = timed_with_the_same_list();
    have_the_table::<Timed>(&histories, &timed_shares::StoreOf::shares_by_courses(&histories[0]));
}

/// Other entries, another order, other bits, and one entry more.
#[test]
fn other_lists_have_other_tables() {
    let [one, two, three] = [insert(0, 1), insert(1, 2), insert(2, 3)];
    let histories = [
        vec![],
        vec![one],
        vec![one, two],
        vec![insert(0, 2), insert(1, 1)],
        vec![one, two, three],
        vec![one, two, insert(2, 2)],
        vec![one, insert(1, 2 | RETIRED), three],
        vec![one, insert(1, 2 | TIED), three],
    ];
    let tables = histories.map(|history| by_calls::<Store>(&history));
    let timed = [vec![], vec![1], vec![1, 2], vec![2, 3], vec![1, 2, 3], vec![1, 2, 3 | TIED], vec![1, 2 | RETIRED, 3]];
    let timed = timed.map(|list| by_calls::<Timed>(&list.into_iter().map(timed_insert).collect::<Vec<_>>()));
    assert!((1..tables.len()).all(|i| !tables[..i].contains(&tables[i])));
    assert!((1..timed.len()).all(|i| !timed[..i].contains(&timed[i])));
}

/// The table of a list by document 01: M is any of N to 2N − 1 alike, and then each balance entry any candidate
/// alike.
fn table_by_rule<K: Ord>(list: &[u64], key: impl Fn(Store) -> K) -> Table<K> {
    let n = list.len();
    table_of(every_course(|course| {
        let m = n + course.draw(n as u64).unwrap() as usize;
        key(Store::by(list, m, |_, c| course.draw(c as u64).unwrap() as usize))
    }))
}

/// Lists of 33 and 34, whose M goes up to 67, so that there are balance entries: the longer one, and the entry of
/// rank 16 taken out.
fn with_balance_entries() -> [Vec<u64>; 2] {
    let longer: Vec<u64> = (101..=134).map(|k| k | k % 5 / 4 * RETIRED).collect();
    let shorter = [&longer[..16], &longer[17..]].concat();
    [longer, shorter]
}

/// A call leads from the table of the one list to that of the other.
#[test]
fn lists_with_balance_entries() {
    let [longer, shorter] = with_balance_entries();
    let tables = [&longer, &shorter].map(|list| table_by_rule(list, |store| store.key()));
    assert_eq!(tables[0].len(), 31 + 3 * 12, "one sheet for each M up to 64, else 3 × 2²");
    assert!(after_call::<Store>(&tables[0], delete(16)) == tables[1]);
    assert!(after_call::<Store>(&tables[1], insert(16, longer[16])) == tables[0]);
}

#[test]
fn timed_lists_with_balance_entries() {
    let [longer, shorter] = with_balance_entries();
    let tables = [&longer, &shorter].map(|list| table_by_rule(list, |store| Timed::of_sheet(store).key()));
    assert_eq!(tables[0].len(), 31 + 3 * 12);
    assert!(after_call::<Timed>(&tables[0], timed_delete(16)) == tables[1]);
    assert!(after_call::<Timed>(&tables[1], timed_insert(longer[16])) == tables[0]);
}

/// The tables of the rule are those of histories.
#[test]
fn the_rule_gives_the_tables_of_histories() {
    for n in 1..6 {
        let history: Vec<_> = (0..n).map(|rank| insert(rank, 101 + rank as u64)).collect();
        let list: Vec<u64> = (101..).take(n).collect();
        assert!(by_calls::<Store>(&history) == table_by_rule(&list, |store| store.key()), "N {n}");
    }
}
