//! Corrections in either order (document 02, F-10) by the proved library's own calls:
//! exact tables of the stores that they leave, which are those of the second
//! implementation, and readings joined.

use agreement::shares::{after_call, by_calls, Tabled};
use agreement::stores::{sheet_by, sheet_of_size, tape};
use agreement::{Both, Call, Lent, Store};
use reference::corrections::{all_pairs, delete, histories, insert, inserts, joined, orders, pairs, splits, tens};
use reference::corrections::{with_both, Tables, BEHIND, BOATS};
use reference::layout::Node;
use reference::places::{RETIRED, TIED};
use reference::random::SplitMix64;
use reference::shares::{self, Share, SheetKey, Table};

const PROVED: Tables<SheetKey, shares::Call> = Tables { after_call: after_call::<Store>, entries: SheetKey::entries };
const REFERENCE: Tables<SheetKey, shares::Call> = Tables { after_call: shares::after_call, entries: SheetKey::entries };

/// Both orders lead to one table, and so does the second implementation.
fn same_in_either_order(before: &Table, ranks: [usize; 2], boats: [u64; 2]) {
    let (orders, longer) = (orders(ranks, boats), with_both(&PROVED.list(before), ranks, boats));
    let table = PROVED.either_order(before, orders, &longer);
    assert!(table == REFERENCE.after(before, &orders[0]), "{orders:X?}");
}

#[test]
fn two_inserts_in_either_order() {
    for history in histories() {
        let before = by_calls::<Store>(&history);
        for ranks in all_pairs(PROVED.list(&before).len()) {
            for boats in BOATS {
                same_in_either_order(&before, ranks, boats);
            }
        }
    }
}

/// Lists of 31, 32 and 33, so that M comes to 65 and more by the second insert, by the
/// first, and before them: ranks at both ends and among the candidates.
#[test]
fn two_inserts_where_there_are_trees() {
    for (n, boats) in (31..=33).zip(BOATS) {
        let before = by_calls::<Store>(&inserts(&tens(n)));
        for ranks in pairs(&[0, 16, n]) {
            same_in_either_order(&before, ranks, boats);
        }
    }
}

/// With calls before them and calls behind them, refused ones too.
#[test]
fn two_inserts_amid_a_history() {
    for history in histories() {
        for ranks in all_pairs(PROVED.list(&by_calls::<Store>(&history)).len()) {
            let whole = orders(ranks, BOATS[2]).map(|calls| [&history[..], &calls, &BEHIND].concat());
            let [one, other] = [&whole[0], &whole[1]].map(|history| by_calls::<Store>(history));
            assert!(one == other && one == shares::shares_by_calls(&whole[0]), "at {ranks:?}");
        }
    }
}

/// "from a single given sheet that is not claimed." The boats are 1 to 33 and M is 65: the
/// root's candidates are 16, 17 and 18, and its balance entry is 17, at rank 16. If 34
/// goes in behind all and then 35 before all, the candidates stay. In the other order 15
/// enters for 18, and then leaves for it again: 17 stays both times, with 2/3 each; or 15
/// is drawn, with 1/3, and then all is drawn anew, 17 and the same halves with 1/12. So
/// the sheet with M kept and the same balance entries, of the root and its halves, has the
/// share 33/35 in one order and 33/35 × (2/3 × 2/3 + 1/3 × 1/12) in the other.
#[test]
fn from_a_single_sheet_the_order_may_show() {
    let (given, ranks, boats) = ((1..=33).collect::<Vec<u64>>(), [0, 33], [34, 35]);
    let sheet = |list: &[u64]| sheet_by(list, 65, |range, _| usize::from(range == Node::ROOT));
    assert_eq!(sheet(&given).counts[..3], [65, 33, 16], "M, N, and the left half");
    let before = Table::from([(sheet(&given).key(), Share::ONE)]);
    let [one, other] = orders(ranks, boats).map(|calls| {
        let table = PROVED.after(&before, &calls);
        assert!(table == REFERENCE.after(&before, &calls));
        table
    });
    let list = with_both(&given, ranks, boats);
    assert_eq!((PROVED.list(&one), PROVED.list(&other)), (list.clone(), list.clone()));
    let end = sheet(&list).key();
    assert_eq!((one[&end], other[&end]), (Share::new(33, 35), Share::new(187, 420)));
}

/// A sheet of tens with a random size and random balance entries.
fn some_sheet(n: usize, random: &mut SplitMix64) -> Store {
    let m = n + random.below(n.max(1));
    sheet_of_size(&tens(n), m, random)
}

/// The calls on a sheet, by random words, on both: their numbers, and the list.
fn by_words(sheet: &Store, calls: [shares::Call; 2], random: &mut SplitMix64) -> ([u64; 2], Vec<u64>) {
    let mut both = Both::new(8000, sheet.clone());
    let numbers = calls.map(|call| both.call(Store::with_tape(call, tape(random)))[0]);
    (numbers, both.store.entries().collect())
}

/// From any sheet the lists are the same, up to N 1,022.
#[test]
fn lists_from_any_sheet() {
    let mut random = SplitMix64::new(8000);
    for n in [0, 1, 2, 33, 65, 200, 1021, 1022] {
        let (sheet, given) = (some_sheet(n, &mut random), tens(n));
        for boats in BOATS.into_iter().cycle().take(40) {
            let j = random.below(n + 1);
            let ranks = [random.below(j + 1), j];
            let longer = with_both(&given, ranks, boats);
            for calls in orders(ranks, boats) {
                assert_eq!(by_words(&sheet, calls, &mut random), ([0, 0], longer.clone()));
            }
            let taken_back = [insert(j, boats[0]), delete(j)];
            assert_eq!(by_words(&sheet, taken_back, &mut random), ([0, 0], given.clone()));
        }
    }
}

/// With N 1,023 the second insert is refused, and the lists are not the same.
#[test]
fn one_boat_more_than_1022() {
    let mut random = SplitMix64::new(8001);
    let sheet = some_sheet(1023, &mut random);
    let [one, other] = orders([5, 9], BOATS[0]).map(|calls| by_words(&sheet, calls, &mut random));
    assert_eq!((one.0, other.0), ([0, 5], [0, 5]));
    assert_ne!(one.1, other.1);
}

/// The table after an insert and a delete at one rank.
fn taken_back(before: &Table, rank: usize, entry: u64) -> Table {
    let mut longer = PROVED.list(before);
    longer.insert(rank, entry);
    PROVED.taken_back(before, [insert(rank, entry), delete(rank)], &longer)
}

/// At every position of a history and every rank.
#[test]
fn an_insert_and_its_delete_added() {
    for history in histories() {
        let expected = by_calls::<Store>(&history);
        for position in 0..=history.len() {
            let (front, back) = history.split_at(position);
            let before = by_calls::<Store>(front);
            for rank in 0..=PROVED.list(&before).len() {
                for [entry, _] in BOATS {
                    let behind = taken_back(&before, rank, entry);
                    assert!(PROVED.after(&behind, back) == expected, "{entry:X} at {rank}");
                }
            }
        }
    }
}

/// The same where M comes to 65 and more.
#[test]
fn an_insert_and_its_delete_where_there_are_trees() {
    let further = [delete(16), insert(40, 7), insert(30, 9 | TIED), insert(0, 8)];
    let history = [&inserts(&tens(33))[..], &further].concat();
    let expected = by_calls::<Store>(&history);
    for position in 33..=history.len() {
        let (front, back) = history.split_at(position);
        let before = by_calls::<Store>(front);
        for rank in [0, 16, PROVED.list(&before).len()] {
            let behind = taken_back(&before, rank, 5 | RETIRED);
            assert!(PROVED.after(&behind, back) == expected, "at {rank}");
        }
    }
}

#[test]
fn readings_joined() {
    let mut random = SplitMix64::new(8002);
    for n in [2, 3, 6, 33, 70, 200, 1024] {
        let mut sheet = some_sheet(n, &mut random);
        for split in splits(n, &mut random) {
            joined(&tens(n), split, |first, last, output| {
                let (returned, filled) = sheet.by_proved(&Call::Read { first, last, output: output.to_vec() });
                output.copy_from_slice(&filled);
                [returned[0], returned[1]]
            });
        }
    }
}
