//! Corrections in either order (02, F-10) on timed sheets: two inserts by entry, an
//! insert and the delete of its rank, and readings joined.

mod common;

use common::*;
use reference::coins::Tape;
use reference::corrections::{all_pairs, joined, pairs, splits, tens, Tables};
use reference::places::{RETIRED, TIED};
use reference::random::SplitMix64;
use reference::shares::Share;
use reference::timed_corrections::{boats_at, delete, histories, insert, inserts, orders};
use reference::timed_corrections::{rank_of, with_both, BEHIND};
use reference::timed_shares::*;

const TABLES: Tables<TimedKey, Call> = Tables {
    after_call,
    entries: TimedKey::entries,
};

#[test]
fn two_inserts_in_either_order() {
    for history in histories() {
        let before = shares_by_calls(&history);
        let given = TABLES.list(&before);
        for ranks in all_pairs(given.len()) {
            for boats in boats_at(ranks) {
                let longer = with_both(&given, boats);
                TABLES.either_order(&before, orders(boats), &longer);
            }
        }
    }
}

/// Lists of 31, 32 and 33, so that M comes to 65 and more by the second insert, by the
/// first, and before them: ranks at both ends and among the candidates.
#[test]
fn two_inserts_where_there_are_trees() {
    for n in 31..=33 {
        let before = shares_by_calls(&inserts(&tens(n)));
        for (k, ranks) in pairs(&[0, 16, 17, n]).into_iter().enumerate() {
            let boats = boats_at(ranks)[k];
            let longer = with_both(&tens(n), boats);
            TABLES.either_order(&before, orders(boats), &longer);
        }
    }
}

/// With calls before them and calls behind them, refused ones too.
#[test]
fn two_inserts_amid_a_history() {
    for history in histories() {
        for boats in boats_at([1, 3]) {
            let [one, other] = orders(boats)
                .map(|calls| shares_by_calls(&[&history[..], &calls, &BEHIND].concat()));
            assert!(one == other, "{boats:X?}");
        }
    }
}

/// Of two boats with one key the second is refused, and the lists are not the same.
#[test]
fn two_boats_with_one_key() {
    for history in histories() {
        let before = shares_by_calls(&history);
        for [a, b] in [[5, 5 | TIED], [35 | RETIRED, 35]] {
            let [one, other] = orders([a, b]).map(|calls| TABLES.after(&before, &calls));
            assert!(one == after_call(&before, insert(a)));
            assert!(other == after_call(&before, insert(b)));
            assert_ne!(TABLES.list(&one), TABLES.list(&other));
        }
    }
}

/// "from a single given sheet that is not claimed." The boats are 101 to 133 and M is 65:
/// the root's candidates are 116, 117 and 118, and its balance entry is 117, at rank 16.
/// If 134 goes in and then 100, the candidates stay. In the other order 115 enters for
/// 118, and then leaves for it again: 117 stays both times, with 2/3 each; or 115 is
/// drawn, with 1/3, and then all is drawn anew, 117 and the same halves with 1/12. So the
/// sheet with M kept and the same balance entries, of the root and its halves, has the
/// share 33/35 in one order and 33/35 × (2/3 × 2/3 + 1/3 × 1/12) in the other.
#[test]
fn from_a_single_sheet_the_order_may_show() {
    let (given, boats) = ((101..=133).collect::<Vec<u64>>(), [134, 100]);
    let balance = |range: usize, _, _| usize::from(range == 1);
    let store = lay_out_timed(&given, 65, balance);
    assert_eq!((n(&store.plain), m(&store.plain)), (33, 65));
    assert_eq!((count(&store.plain, 2), store.balance[1]), (16, 117));
    let before = Table::from([(store.sheet(), Share::ONE)]);
    let [one, other] = orders(boats).map(|calls| TABLES.after(&before, &calls));
    let list = with_both(&given, boats);
    assert_eq!(TABLES.list(&one), list);
    assert_eq!(TABLES.list(&other), list);
    let end = lay_out_timed(&list, 65, balance).sheet();
    assert_eq!(one[&end], Share::new(33, 35));
    assert_eq!(other[&end], Share::new(187, 420));
}

/// A timed sheet of tens, with a random size and random balance entries.
fn some_sheet(n: usize, random: &mut SplitMix64) -> Store {
    if n == 0 {
        return Store::cleared();
    }
    let m = n + random.below(n);
    lay_out_timed(&tens(n), m, |_, _, c| random.below(c))
}

/// The calls on a sheet, by random words: their numbers, and the list.
fn by_words(sheet: &Store, calls: [Call; 2], random: &mut SplitMix64) -> ([u8; 2], Vec<u64>) {
    let mut store = sheet.clone();
    let numbers = calls.map(|call| store.call(call, &mut Tape::new(&words(random, 1024))));
    (numbers, store.sheet().entries())
}

/// From any sheet the lists are the same, up to N 1,022.
#[test]
fn lists_from_any_sheet() {
    let mut random = SplitMix64::new(43);
    for n in [0, 1, 2, 33, 65, 200, 1021, 1022] {
        let sheet = some_sheet(n, &mut random);
        for bits in 0..16 {
            let j = random.below(n + 1);
            let i = random.below(j + 1);
            let boats = boats_at([i, j])[bits];
            let longer = with_both(&tens(n), boats);
            for calls in orders(boats) {
                let ended = by_words(&sheet, calls, &mut random);
                assert_eq!(ended, ([0, 0], longer.clone()));
            }
            let taken_back = [insert(boats[0]), delete(i)];
            let ended = by_words(&sheet, taken_back, &mut random);
            assert_eq!(ended, ([0, 0], tens(n)));
        }
    }
}

/// With N 1,023 the second insert is refused, and the lists are not the same.
#[test]
fn one_boat_more_than_1022() {
    let mut random = SplitMix64::new(44);
    let sheet = some_sheet(1023, &mut random);
    let [one, other] = orders(boats_at([5, 9])[0]).map(|calls| {
        let (numbers, list) = by_words(&sheet, calls, &mut random);
        assert_eq!(numbers, [0, 5]);
        list
    });
    assert_ne!(one, other);
}

/// The table after the insert of a boat whose key is absent and the delete of her rank.
fn taken_back(before: &Table, entry: u64) -> Table {
    let mut longer = TABLES.list(before);
    let rank = rank_of(entry, &longer);
    longer.insert(rank, entry);
    TABLES.taken_back(before, [insert(entry), delete(rank)], &longer)
}

/// At every position of a history and every rank.
#[test]
fn an_insert_and_its_delete_added() {
    for history in histories() {
        let expected = shares_by_calls(&history);
        for position in 0..=history.len() {
            let (front, back) = history.split_at(position);
            let before = shares_by_calls(front);
            for boats in (0..=8).flat_map(|rank| boats_at([rank, rank]).into_iter().take(4)) {
                let behind = taken_back(&before, boats[0]);
                assert!(TABLES.after(&behind, back) == expected, "{boats:X?}");
            }
        }
    }
}

/// The same where M comes to 65 and more.
#[test]
fn an_insert_and_its_delete_where_there_are_trees() {
    let further = [delete(16), insert(30), insert(2 | TIED), insert(301)];
    let history = [&inserts(&tens(33))[..], &further].concat();
    let expected = shares_by_calls(&history);
    for position in 32..=history.len() {
        let (front, back) = history.split_at(position);
        let before = shares_by_calls(front);
        for entry in [1, 165 | RETIRED, 175 | TIED, 999] {
            let behind = taken_back(&before, entry);
            assert!(TABLES.after(&behind, back) == expected, "{entry:X}");
        }
    }
}

#[test]
fn readings_joined() {
    let mut random = SplitMix64::new(45);
    for n in [2, 3, 6, 33, 70, 200, 1024] {
        let sheet = some_sheet(n, &mut random);
        for split in splits(n, &mut random) {
            joined(&tens(n), split, |first, last, output| {
                let answer = timed_read(&sheet, first, last, output);
                [answer.number().into(), answer.values()[0] as u64]
            });
        }
    }
}
