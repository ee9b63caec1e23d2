//! Corrections in either order (document 02, F-10) on timed sheets, by the proved
//! library's own calls: exact tables of the stores that they leave, which are those of
//! the second implementation, and readings joined.

use agreement::shares::{after_call, by_calls, Tabled};
use agreement::stores::{sheet_by, tape};
use agreement::timed::{Call, Store};
use agreement::{Both, Lent};
use reference::corrections::{all_pairs, joined, pairs, splits, tens, Tables};
use reference::layout::Node;
use reference::places::{RETIRED, TIED};
use reference::random::SplitMix64;
use reference::shares::Share;
use reference::timed_corrections::{boats_at, delete, histories, insert, inserts, orders, rank_of, with_both, BEHIND};
use reference::timed_shares::{self, Table, TimedKey};

const PROVED: Tables<TimedKey, timed_shares::Call> = Tables { after_call: after_call::<Store>, entries: TimedKey::entries };
const REFERENCE: Tables<TimedKey, timed_shares::Call> = Tables { after_call: timed_shares::after_call, entries: TimedKey::entries };

/// Both orders lead to one table, and so does the second implementation.
fn same_in_either_order(before: &Table, boats: [u64; 2]) {
    let (orders, longer) = (orders(boats), with_both(&PROVED.list(before), boats));
    let table = PROVED.either_order(before, orders, &longer);
    assert!(table == REFERENCE.after(before, &orders[0]), "{boats:X?}");
}

#[test]
fn two_inserts_in_either_order() {
    for history in histories() {
        let before = by_calls::<Store>(&history);
        for ranks in all_pairs(PROVED.list(&before).len()) {
            for boats in boats_at(ranks) {
                same_in_either_order(&before, boats);
            }
        }
    }
}

/// Lists of 31, 32 and 33, so that M comes to 65 and more by the second insert, by the
/// first, and before them: ranks at both ends and among the candidates.
#[test]
fn two_inserts_where_there_are_trees() {
    for n in 31..=33 {
        let before = by_calls::<Store>(&inserts(&tens(n)));
        for (k, ranks) in pairs(&[0, 16, n]).into_iter().enumerate() {
            same_in_either_order(&before, boats_at(ranks)[3 * k]);
        }
    }
}

/// With calls before them and calls behind them, refused ones too.
#[test]
fn two_inserts_amid_a_history() {
    for history in histories() {
        for boats in boats_at([1, 3]) {
            let whole = orders(boats).map(|calls| [&history[..], &calls, &BEHIND].concat());
            let [one, other] = [&whole[0], &whole[1]].map(|history| by_calls::<Store>(history));
            assert!(one == other && one == timed_shares::shares_by_calls(&whole[0]), "{boats:X?}");
        }
    }
}

/// Of two boats with one key the second is refused, and the lists are not the same.
#[test]
fn two_boats_with_one_key() {
    for history in histories() {
        let before = by_calls::<Store>(&history);
        for boats in [[5, 5 | TIED], [35 | RETIRED, 35]] {
            let [one, other] = orders(boats).map(|calls| PROVED.after(&before, &calls));
            let [first, second] = boats.map(|boat| PROVED.after(&before, &[insert(boat)]));
            assert!(one == first && other == second);
            assert_ne!(PROVED.list(&one), PROVED.list(&other));
        }
    }
}

/// "from a single given sheet that is not claimed." The boats are 101 to 133 and M is 65:
/// the root's candidates are 116, 117 and 118, and its balance entry is 117, at rank 16.
/// If 134 goes in and then 100, the candidates stay. In the other order 115 enters for
/// 118, and then leaves for it again: 117 stays both times, with 2/3 each; or 115 is
/// drawn, with 1/3, and then all is drawn anew, 117 and the same halves with 1/12. So the
/// sheet with M kept and the same balance entries, of the root and its halves, has the
/// share 33/35 in one order and 33/35 × (2/3 × 2/3 + 1/3 × 1/12) in the other.
#[test]
fn from_a_single_sheet_the_order_may_show() {
    let (given, boats) = ((101..=133).collect::<Vec<u64>>(), [134, 100]);
    let sheet = |list: &[u64]| Store::of_sheet(sheet_by(list, 65, |range, _| usize::from(range == Node::ROOT)));
    assert_eq!(sheet(&given).counts[..3], [65, 33, 16], "M, N, and the left half");
    assert_eq!(sheet(&given).balance[1], 117);
    let before = Table::from([(sheet(&given).key(), Share::ONE)]);
    let [one, other] = orders(boats).map(|calls| {
        let table = PROVED.after(&before, &calls);
        assert!(table == REFERENCE.after(&before, &calls));
        table
    });
    let list = with_both(&given, boats);
    assert_eq!((PROVED.list(&one), PROVED.list(&other)), (list.clone(), list.clone()));
    let end = sheet(&list).key();
    assert_eq!((one[&end], other[&end]), (Share::new(33, 35), Share::new(187, 420)));
}

/// A timed sheet of tens with a random size and random balance entries.
fn some_sheet(n: usize, random: &mut SplitMix64) -> Store {
    let m = n + random.below(n.max(1));
    Store::of_size(&tens(n), m, random)
}

/// The calls on a sheet, by random words, on both: their numbers, and the list.
fn by_words(sheet: &Store, calls: [timed_shares::Call; 2], random: &mut SplitMix64) -> ([u64; 2], Vec<u64>) {
    let mut both = Both::new(8100, sheet.clone());
    let numbers = calls.map(|call| both.call(Store::with_tape(call, tape(random)))[0]);
    (numbers, both.store.entries().collect())
}

/// From any sheet the lists are the same, up to N 1,022.
#[test]
fn lists_from_any_sheet() {
    let mut random = SplitMix64::new(8100);
    for n in [0, 1, 2, 33, 65, 200, 1021, 1022] {
        let (sheet, given) = (some_sheet(n, &mut random), tens(n));
        for bits in 0..16 {
            let j = random.below(n + 1);
            let i = random.below(j + 1);
            let boats = boats_at([i, j])[bits];
            let longer = with_both(&given, boats);
            for calls in orders(boats) {
                assert_eq!(by_words(&sheet, calls, &mut random), ([0, 0], longer.clone()));
            }
            let taken_back = [insert(boats[0]), delete(i)];
            assert_eq!(by_words(&sheet, taken_back, &mut random), ([0, 0], given.clone()));
        }
    }
}

/// With N 1,023 the second insert is refused, and the lists are not the same.
#[test]
fn one_boat_more_than_1022() {
    let mut random = SplitMix64::new(8101);
    let sheet = some_sheet(1023, &mut random);
    let [one, other] = orders(boats_at([5, 9])[0]).map(|calls| by_words(&sheet, calls, &mut random));
    assert_eq!((one.0, other.0), ([0, 5], [0, 5]));
    assert_ne!(one.1, other.1);
}

/// The table after the insert of a boat whose key is absent and the delete of her rank.
fn taken_back(before: &Table, entry: u64) -> Table {
    let mut longer = PROVED.list(before);
    let rank = rank_of(entry, &longer);
    longer.insert(rank, entry);
    PROVED.taken_back(before, [insert(entry), delete(rank)], &longer)
}

/// At every position of a history and every rank.
#[test]
fn an_insert_and_its_delete_added() {
    for history in histories() {
        let expected = by_calls::<Store>(&history);
        for position in 0..=history.len() {
            let (front, back) = history.split_at(position);
            let before = by_calls::<Store>(front);
            for rank in 0..=8 {
                let [entry, _] = boats_at([rank, rank])[rank];
                let behind = taken_back(&before, entry);
                assert!(PROVED.after(&behind, back) == expected, "{entry:X}");
            }
        }
    }
}

/// The same where M comes to 65 and more.
#[test]
fn an_insert_and_its_delete_where_there_are_trees() {
    let further = [delete(16), insert(30), insert(2 | TIED), insert(301)];
    let history = [&inserts(&tens(33))[..], &further].concat();
    let expected = by_calls::<Store>(&history);
    for position in 33..=history.len() {
        let (front, back) = history.split_at(position);
        let before = by_calls::<Store>(front);
        for entry in [1, 165 | RETIRED, 999 | TIED] {
            let behind = taken_back(&before, entry);
            assert!(PROVED.after(&behind, back) == expected, "{entry:X}");
        }
    }
}

#[test]
fn readings_joined() {
    let mut random = SplitMix64::new(8102);
    for n in [2, 3, 6, 33, 70, 200, 1024] {
        let mut sheet = some_sheet(n, &mut random);
        for split in splits(n, &mut random) {
            joined(&tens(n), split, |first, last, output| {
                let (returned, filled) = sheet.by_proved(&Call::Read { first, last, output: output.to_vec() });
                output.copy_from_slice(&filled);
                [returned[0], returned[1]]
            });
        }
    }
}
