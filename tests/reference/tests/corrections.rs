//! Corrections in either order (02, F-10): two inserts, an insert and its delete,
//! and readings joined.

mod common;

use common::*;
use reference::coins::Tape;
use reference::corrections::{all_pairs, delete, histories, insert, inserts, joined, orders};
use reference::corrections::{pairs, splits, tens, with_both, Tables, BEHIND, BOATS};
use reference::places::{RETIRED, TIED};
use reference::random::SplitMix64;
use reference::shares::*;

const TABLES: Tables<SheetKey, Call> = Tables {
    after_call,
    entries: SheetKey::entries,
};

#[test]
fn two_inserts_in_either_order() {
    for history in histories() {
        let before = shares_by_calls(&history);
        let given = TABLES.list(&before);
        for ranks in all_pairs(given.len()) {
            for boats in BOATS {
                let longer = with_both(&given, ranks, boats);
                TABLES.either_order(&before, orders(ranks, boats), &longer);
            }
        }
    }
}

/// Lists of 31, 32 and 33, so that M comes to 65 and more by the second insert, by the
/// first, and before them: ranks at both ends and among the candidates.
#[test]
fn two_inserts_where_there_are_trees() {
    for (n, boats) in (31..=33).zip(BOATS) {
        let given = tens(n);
        let before = shares_by_calls(&inserts(&given));
        for ranks in pairs(&[0, 8, 16, 17, 25, n]) {
            let longer = with_both(&given, ranks, boats);
            TABLES.either_order(&before, orders(ranks, boats), &longer);
        }
    }
}

/// With calls before them and calls behind them, refused ones too.
#[test]
fn two_inserts_amid_a_history() {
    for history in histories() {
        let n = TABLES.list(&shares_by_calls(&history)).len();
        for ranks in all_pairs(n) {
            let [one, other] = orders(ranks, BOATS[2])
                .map(|calls| shares_by_calls(&[&history[..], &calls, &BEHIND].concat()));
            assert!(one == other, "at {ranks:?}");
        }
    }
}

/// "from a single given sheet that is not claimed." The boats are 1 to 33 and M is 65: the
/// root's candidates are 16, 17 and 18, and its balance entry is 17, at rank 16. If 34
/// goes in behind all and then 35 before all, the candidates stay. In the other order 15
/// enters for 18, and then leaves for it again: 17 stays both times, with 2/3 each; or 15
/// is drawn, with 1/3, and then all is drawn anew, 17 and the same halves with 1/12. So
/// the sheet with M kept and the same balance entries, of the root and its halves, has the
/// share 33/35 in one order and 33/35 × (2/3 × 2/3 + 1/3 × 1/12) in the other.
#[test]
fn from_a_single_sheet_the_order_may_show() {
    let (given, ranks, boats) = ((1..=33).collect::<Vec<u64>>(), [0, 33], [34, 35]);
    let balance = |range: usize, _, _| usize::from(range == 1);
    let store = lay_out(&given, 65, balance);
    assert_eq!((n(&store), m(&store), count(&store, 2)), (33, 65, 16));
    let before = Table::from([(store.sheet(), Share::ONE)]);
    let [one, other] = orders(ranks, boats).map(|calls| TABLES.after(&before, &calls));
    let list = with_both(&given, ranks, boats);
    assert_eq!(TABLES.list(&one), list);
    assert_eq!(TABLES.list(&other), list);
    let end = lay_out(&list, 65, balance).sheet();
    assert_eq!(one[&end], Share::new(33, 35));
    assert_eq!(other[&end], Share::new(187, 420));
}

/// The calls on a sheet, by random words: their numbers, and the list.
fn by_words(sheet: &Store, calls: [Call; 2], random: &mut SplitMix64) -> ([u8; 2], Vec<u64>) {
    let mut store = sheet.clone();
    let numbers = calls.map(|call| store.call(call, &mut Tape::new(&words(random, 1024))));
    (numbers, list(&store))
}

/// From any sheet the lists are the same, up to N 1,022.
#[test]
fn lists_from_any_sheet() {
    let mut random = SplitMix64::new(40);
    for n in [0, 1, 2, 33, 65, 200, 1021, 1022] {
        let sheet = sheet_of(n, &mut random);
        let given = list(&sheet);
        for boats in BOATS.into_iter().cycle().take(40) {
            let j = random.below(n + 1);
            let ranks = [random.below(j + 1), j];
            let longer = with_both(&given, ranks, boats);
            for calls in orders(ranks, boats) {
                let ended = by_words(&sheet, calls, &mut random);
                assert_eq!(ended, ([0, 0], longer.clone()));
            }
            let taken_back = [insert(j, boats[0]), delete(j)];
            let ended = by_words(&sheet, taken_back, &mut random);
            assert_eq!(ended, ([0, 0], given.clone()));
        }
    }
}

/// With N 1,023 the second insert is refused, and the lists are not the same.
#[test]
fn one_boat_more_than_1022() {
    let mut random = SplitMix64::new(41);
    let sheet = sheet_of(1023, &mut random);
    let [one, other] = orders([5, 9], BOATS[0]).map(|calls| {
        let (numbers, list) = by_words(&sheet, calls, &mut random);
        assert_eq!(numbers, [0, 5]);
        list
    });
    assert_ne!(one, other);
}

/// The table after an insert and a delete at one rank.
fn taken_back(before: &Table, rank: usize, entry: u64) -> Table {
    let mut longer = TABLES.list(before);
    longer.insert(rank, entry);
    TABLES.taken_back(before, [insert(rank, entry), delete(rank)], &longer)
}

/// At every position of a history and every rank.
#[test]
fn an_insert_and_its_delete_added() {
    for history in histories() {
        let expected = shares_by_calls(&history);
        for position in 0..=history.len() {
            let (front, back) = history.split_at(position);
            let before = shares_by_calls(front);
            for rank in 0..=TABLES.list(&before).len() {
                for [entry, _] in BOATS {
                    let behind = taken_back(&before, rank, entry);
                    assert!(TABLES.after(&behind, back) == expected, "at {rank}");
                }
            }
        }
    }
}

/// The same where M comes to 65 and more.
#[test]
fn an_insert_and_its_delete_where_there_are_trees() {
    let further = [
        delete(16),
        insert(40, 7),
        insert(30, 9 | TIED),
        insert(0, 8),
    ];
    let history = [&inserts(&tens(33))[..], &further].concat();
    let expected = shares_by_calls(&history);
    for position in 32..=history.len() {
        let (front, back) = history.split_at(position);
        let before = shares_by_calls(front);
        for rank in [0, 16, 17, TABLES.list(&before).len()] {
            let behind = taken_back(&before, rank, 5 | RETIRED);
            assert!(TABLES.after(&behind, back) == expected, "at {rank}");
        }
    }
}

#[test]
fn readings_joined() {
    let mut random = SplitMix64::new(42);
    for n in [2, 3, 6, 33, 70, 200, 1024] {
        let sheet = sheet_of(n, &mut random);
        for split in splits(n, &mut random) {
            joined(&list(&sheet), split, |first, last, output| {
                let answer = read(&sheet, first, last, output);
                [answer.number().into(), answer.values()[0] as u64]
            });
        }
    }
}
