//! Exact shares of the proved library's own stores, tallies included: every course
//! of a short history is tried, by words that decide its faces.

use agreement::shares::{by_calls, by_courses};
use agreement::Store;
use reference::coins::{Source, Undecided};
use reference::places::{RETIRED, TIED};
use reference::shares::{self, every_course, shares_by_courses, table_of, Course, Table};

/// The table of the stores that the proved calls leave.
fn proved_table(history: &[shares::Call]) -> Table {
    by_courses::<Store>(history)
}

const fn insert(rank: usize, entry: u64) -> shares::Call {
    shares::Call::Insert { rank, entry }
}

const fn delete(rank: usize) -> shares::Call {
    shares::Call::Delete { rank }
}

/// A board whose output has two places.
const fn board(ranks: &'static [u64]) -> shares::Call {
    shares::Call::Board { ranks, output: 2 }
}

/// Histories that end with the list 1, 2, 3.
fn with_the_same_list() -> Vec<Vec<shares::Call>> {
    vec![
        vec![insert(0, 1), insert(1, 2), insert(2, 3)],
        vec![insert(0, 3), insert(0, 2), insert(0, 1)],
        vec![insert(0, 1), insert(1, 2), insert(2, 3), insert(1, 9), delete(1)],
        vec![insert(0, 9), insert(0, 8), delete(1), delete(0), insert(0, 2), insert(0, 1), insert(2, 3)],
        vec![insert(0, 7), shares::Call::Clear, insert(0, 1), insert(1, 3), shares::Call::Check, insert(1, 2)],
        vec![insert(0, 1), board(&[0, 0]), insert(1, 2), board(&[1, 0]), board(&[0, 2]), insert(2, 3), board(&[0, 2])],
        vec![insert(0, 1), insert(9, 4), insert(1, 0), insert(1, 3), delete(5), shares::Call::Place { rank: 7 }, insert(1, 2)],
    ]
}

#[test]
fn the_same_list_has_the_same_table() {
    let tables: Vec<Table> = with_the_same_list().iter().map(|history| proved_table(history)).collect();
    assert_eq!(tables[0].len(), 3, "M is 3, 4 or 5");
    for table in &tables {
        assert!(*table == tables[0]);
    }
}

#[test]
fn other_lists_have_other_tables() {
    let histories = [
        vec![],
        vec![insert(0, 1)],
        vec![insert(0, 1), insert(1, 2)],
        vec![insert(0, 2), insert(1, 1)],
        vec![insert(0, 1), insert(1, 2), insert(2, 3)],
        vec![insert(0, 1), insert(1, 2), insert(2, 2)],
        vec![insert(0, 1), insert(1, 2 | RETIRED), insert(2, 3)],
        vec![insert(0, 1), insert(1, 2), insert(2, 3 | RETIRED)],
    ];
    let tables: Vec<Table> = histories.iter().map(|history| proved_table(history)).collect();
    for (i, table) in tables.iter().enumerate() {
        for other in &tables[i + 1..] {
            assert!(table != other);
        }
    }
}

#[test]
fn tables_are_those_of_the_rules() {
    for history in with_the_same_list() {
        let table = proved_table(&history);
        assert!(table == shares_by_courses(&history));
        assert!(table == by_calls::<Store>(&history));
    }
}

/// Document 02, F-3: "Layout and shares do not look at the bit." Nor do they at bit
/// 62, but for the tallies. The table of the same calls without the bits is the same
/// but for the bits in the sheets, and its tallies are the counts but for number 0.
#[test]
fn shares_do_not_look_at_the_bits() {
    let both = TIED | RETIRED;
    let inserts = [(0, 1 | RETIRED), (1, 2 | TIED), (0, 3 | both), (3, 4), (2, 5 | TIED)];
    let history = |bits: u64| {
        let inserts = inserts.map(|(rank, entry)| insert(rank, entry & bits));
        inserts.into_iter().chain([delete(1)]).collect::<Vec<_>>()
    };
    let (with, without) = (proved_table(&history(u64::MAX)), proved_table(&history(!both)));
    assert!(with == shares_by_courses(&history(u64::MAX)));
    assert!(with != without);
    let bare = with.into_iter().map(|(sheet, share)| {
        let mut store = sheet.store();
        store.slots.iter_mut().for_each(|slot| *slot &= !both);
        store.tallies = store.counts.clone();
        store.tallies[0] = 0;
        (store.sheet(), share)
    });
    assert!(table_of(bare) == without);
}

/// A boat that retires, by delete and insert, leaves no trace of when; one that
/// retires and is taken back leaves none at all.
#[test]
fn retired_boats_leave_no_trace() {
    let retired = [insert(0, 1), insert(1, 2 | RETIRED), insert(2, 3 | TIED)];
    let later = [insert(0, 1), insert(1, 2), insert(2, 3 | TIED), delete(1), insert(1, 2 | RETIRED)];
    let scoring = [insert(0, 1), insert(1, 2), insert(2, 3 | TIED)];
    let taken_back = [&later[..], &[delete(1), insert(1, 2)]].concat();
    let tables = [&retired[..], &later, &scoring, &taken_back].map(proved_table);
    assert!(tables[0] == tables[1]);
    assert!(tables[2] == tables[3]);
    assert!(tables[0] != tables[2]);
    assert!(tables[0] == shares_by_courses(&retired));
    assert!(tables[2] == shares_by_courses(&scoring));
}

/// A bent rule is noticed: where the first draw of a call has more than two
/// faces, its last face is never drawn.
#[test]
fn a_bent_rule_is_noticed() {
    struct Bent<'a> {
        course: &'a mut Course,
        first: bool,
    }
    impl Source for Bent<'_> {
        fn draw(&mut self, m: u64) -> Result<u64, Undecided> {
            let bent = if self.first && m > 2 { m - 1 } else { m };
            self.first = false;
            self.course.draw(bent)
        }
    }
    let bent_table = |history: &[shares::Call]| {
        table_of(every_course(|course| {
            let mut store = shares::Store::cleared();
            for &call in history {
                store.call(call, &mut Bent { course: &mut *course, first: true });
            }
            store.sheet()
        }))
    };
    let histories = with_the_same_list();
    assert!(bent_table(&histories[0]) != bent_table(&histories[2]));
}
