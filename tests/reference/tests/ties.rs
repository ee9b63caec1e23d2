//! Dead heats (02, F-3): places and points of tied boats on plain and timed sheets,
//! bit 63 on timed sheets, and that layout and shares do not look at the bit.

mod common;

use common::*;
use reference::calls::{Answer, Cause};
use reference::places::TIED;
use reference::random::SplitMix64;
use reference::shares::{self, shares_by_calls, table_of, Store};
use reference::timed_shares::{self, Store as TimedStore};

/// Place of every rank.
fn places(store: &Store) -> Vec<[usize; 3]> {
    let answers = (0..n(store)).map(|rank| place_of(store, rank));
    answers.map(Answer::values).collect()
}

/// Place of every rank of a timed sheet.
fn timed_places(store: &TimedStore) -> Vec<[usize; 3]> {
    let answers = (0..n(&store.plain)).map(|rank| timed_place(store, rank));
    answers.map(Answer::values).collect()
}

/// The list 10, 20, …, 10 n, where each boat ties in `ties` cases of 16.
fn tied_tens(n: usize, ties: usize, random: &mut SplitMix64) -> Vec<u64> {
    let mut tied = || u64::from(random.below(16) < ties) << 63;
    (1..=n as u64).map(|k| 10 * k | tied()).collect()
}

/// Every pattern of bits, rank 0 among them, on a plain and on a timed sheet.
#[test]
fn every_pattern_of_short_lists() {
    let mut random = SplitMix64::new(80);
    for n in 0..=8 {
        let list: Vec<u64> = (1..=n as u64).collect();
        for pattern in 0..1 << n {
            let list = with_ties(&list, pattern);
            let m = n + random.below(n.max(1));
            let store = lay_out_timed(&list, m, |_, _, _| 0);
            let expected: Vec<_> = (0..n).map(|rank| values_by_pairs(&list, rank)).collect();
            assert_eq!(places(&store.plain), expected, "{list:X?}");
            assert_eq!(timed_places(&store), expected, "{list:X?}");
        }
    }
}

/// Groups that reach over leaves, from few ties to all.
#[test]
fn groups_over_several_leaves() {
    let mut random = SplitMix64::new(81);
    for n in [34, 65, 100, 300] {
        for ties in [2, 8, 14, 15, 16] {
            let list = tied_tens(n, ties, &mut random);
            let m = n + random.below(n);
            let store = lay_out_timed(&list, m, |_, _, c| random.below(c));
            let expected: Vec<_> = (0..n).map(|rank| values_by_pairs(&list, rank)).collect();
            assert_eq!(places(&store.plain), expected, "N {n} M {m}");
            assert_eq!(timed_places(&store), expected, "N {n} M {m}");
        }
    }
}

/// 02, F-3: "at rank 0 it has no effect."
#[test]
fn bit_63_at_rank_0() {
    let mut random = SplitMix64::new(82);
    for n in [1, 2, 5, 64, 65, 200, 1024] {
        for ties in [0, 8, 16] {
            let mut list = tied_tens(n, ties, &mut random);
            let m = n + random.below(n);
            let answers = [0, TIED].map(|bit| {
                list[0] = 10 | bit;
                places(&lay_out(&list, m, |_, _, _| 0))
            });
            assert_eq!(answers[0], answers[1]);
            assert_eq!(answers[0][0][0], 1);
        }
    }
}

#[test]
fn all_1024_tied() {
    for bit in [0, TIED] {
        let mut list = tied_tens(1024, 16, &mut SplitMix64::new(83));
        list[0] = 10 | bit;
        let store = lay_out_timed(&list, 1500, |_, _, _| 0);
        assert_eq!(places(&store.plain), vec![[1, 524_800, 1024]; 1024]);
        assert_eq!(timed_places(&store), vec![[1, 524_800, 1024]; 1024]);
    }
}

/// The sums of all groups are the places of all boats, and a boat alone has the
/// place and the points of her rank.
#[test]
fn sums_of_all_groups() {
    let mut random = SplitMix64::new(84);
    for n in [1, 2, 10, 64, 65, 333, 1024] {
        for ties in [0, 1, 8, 15, 16] {
            let list = tied_tens(n, ties, &mut random);
            let places = places(&lay_out(&list, n, |_, _, _| 0));
            let firsts = places.iter().zip(1..).filter(|(of, i)| of[0] == *i);
            assert_eq!(firsts.map(|(of, _)| of[1]).sum::<usize>(), n * (n + 1) / 2);
            for (rank, place) in places.iter().enumerate() {
                let ties = |rank: usize| list.get(rank).map_or(false, |&entry| entry >= TIED);
                let alone = (rank == 0 || !ties(rank)) && !ties(rank + 1);
                assert_eq!(place[2] == 1, alone);
                assert!(!alone || *place == [rank + 1, rank + 1, 1]);
            }
        }
    }
}

/// 2^63 is an entry of a plain sheet: only the whole entry zero is cause 3.
#[test]
fn bit_63_alone_on_a_plain_sheet() {
    let mut store = Store::cleared();
    for n in 1..=3 {
        let answer = insert(&mut store, 0, TIED, &[0; 9]);
        assert_eq!(answer.values()[0], n);
    }
    assert_eq!(insert(&mut store, 0, 0, &[0; 9]).number(), 3);
    assert_eq!(list(&store), [TIED; 3]);
    assert_eq!(places(&store), [[1, 6, 3]; 3]);
}

/// 02, F-3: "there an entry must be other than zero without it: cause 3 where it
/// is given, 11 where it stands on the sheet."
#[test]
fn bit_63_alone_on_a_timed_sheet() {
    let mut random = SplitMix64::new(85);
    for n in [0, 1, 40, 70, 1024] {
        let list = tied_tens(n, 8, &mut random);
        let mut store = lay_out_timed(&list, n, |_, _, _| 0);
        let before = store.clone();
        let refused = Answer::Refused(Cause::EntryZero);
        assert_eq!(timed_find(&store, TIED), refused);
        assert_eq!(timed_insert(&mut store, TIED, &[0; 300]), refused);
        assert_eq!(timed_insert(&mut store, TIED, &[]), refused);
        assert!(store == before);
    }
    // Zero without the bit is below all others: it can stand at rank 0 alone.
    for n in [1, 2, 40, 70, 1024] {
        let mut list = tied_tens(n, 8, &mut random);
        list[0] = TIED;
        let store = lay_out_timed(&list, n, |_, _, c| random.below(c));
        assert_eq!(check(&store.plain), Answer::Checked { n });
        assert_eq!(timed_check(&store), Answer::Refused(Cause::NotTimed));
    }
}

/// Neighbours with equal keys do not rise, whatever their bits, and neighbours
/// whose keys fall do not, though with the bit they rise.
#[test]
fn the_bit_does_not_make_a_sheet_rise() {
    let refused = Answer::Refused(Cause::NotTimed);
    for pair in [[5, 5 | TIED], [5 | TIED, 5], [5 | TIED; 2], [6, 5 | TIED]] {
        let store = lay_out_timed(&pair, 3, |_, _, _| 0);
        assert_eq!(timed_check(&store), refused, "{pair:X?}");
    }
    let store = lay_out_timed(&[5 | TIED, 6], 3, |_, _, _| 0);
    assert_eq!(timed_check(&store), Answer::Checked { n: 2 });
}

/// An entry whose key is there is found, and refused by 10, whatever its bit; also
/// on a full sheet, and without a tape.
#[test]
fn find_and_insert_with_the_other_bit() {
    let mut random = SplitMix64::new(86);
    for n in [1, 40, 70, 1024] {
        let list = tied_tens(n, 8, &mut random);
        let mut store = lay_out_timed(&list, n, |_, _, c| random.below(c));
        let before = store.clone();
        for (rank, entry) in list.into_iter().enumerate() {
            assert_eq!(timed_find(&store, entry ^ TIED), Answer::Found { rank });
            let behind = Answer::Absent { rank: rank + 1 };
            assert_eq!(timed_find(&store, (entry + 1) ^ TIED), behind);
            let answer = timed_insert(&mut store, entry ^ TIED, &[]);
            assert_eq!(answer, Answer::Refused(Cause::Present));
        }
        assert!(store == before);
    }
}

/// The bit of an entry stays as it was given, and changes by delete and insert.
#[test]
fn bits_by_delete_and_insert() {
    let mut store = lay_out_timed(&[10, 20, 30], 5, |_, _, _| 0);
    assert_eq!(timed_delete(&mut store, 1, &[2]).number(), 0);
    assert_eq!(timed_insert(&mut store, 20 | TIED, &[1, 1]).number(), 0);
    assert_eq!(list(&store.plain), [10, 20 | TIED, 30]);
    assert_eq!(timed_places(&store), [[1, 3, 2], [1, 3, 2], [3, 3, 1]]);
}

/// Equal finish times are no tie: the bit alone is.
#[test]
fn equal_times_are_no_tie() {
    let list = [7, 8, 9].map(|sail| 3600 << 32 | sail);
    let store = lay_out_timed(&list, 4, |_, _, _| 0);
    assert_eq!(timed_places(&store), [[1, 1, 1], [2, 2, 1], [3, 3, 1]]);
}

/// The third slice holds the balance entry as it stands, its bit included.
#[test]
fn third_slice_with_bits() {
    let mut random = SplitMix64::new(87);
    let list = tied_tens(100, 8, &mut random);
    let sound = lay_out_timed(&list, 150, |_, _, c| random.below(c));
    assert_eq!(timed_check(&sound), Answer::Checked { n: 100 });
    let (bits, ranges) = (
        sound.balance.iter().filter(|&&word| word >= TIED).count(),
        sound.balance.iter().filter(|&&word| word != 0).count(),
    );
    assert!(0 < bits && bits < ranges);
    for word in 0..sound.balance.len() {
        let mut store = sound.clone();
        store.balance[word] ^= TIED;
        assert_eq!(timed_check(&store), Answer::Refused(Cause::NotTimed));
    }
}

/// The store without the bits.
fn without_bits(mut store: Store) -> Store {
    store.slots.iter_mut().for_each(|slot| *slot &= !TIED);
    store
}

fn timed_without_bits(mut store: TimedStore) -> TimedStore {
    store.balance.iter_mut().for_each(|word| *word &= !TIED);
    store.plain = without_bits(store.plain);
    store
}

/// The same calls and tapes with and without bits: the same answers, the same
/// counts, and the same slots but for the bits.
#[test]
fn layout_does_not_look_at_the_bit() {
    let mut random = SplitMix64::new(88);
    let (mut with, mut without) = (Store::cleared(), Store::cleared());
    while n(&with) < 300 {
        let (n, words) = (n(&with), words(&mut random, 1024));
        let (entry, bit) = (1 + random.below(9) as u64, random.below(2) as u64);
        let answers = if n > 0 && random.below(3) == 0 {
            let rank = random.below(n);
            [&mut with, &mut without].map(|store| delete(store, rank, &words))
        } else {
            let (rank, tied) = (random.below(n + 1), entry | bit << 63);
            [(&mut with, tied), (&mut without, entry)]
                .map(|(store, entry)| insert(store, rank, entry, &words))
        };
        assert_eq!(answers[0], answers[1]);
        assert_eq!(answers[0].number(), 0);
        assert!(without_bits(with.clone()) == without);
    }
}

/// The table of a history with bits is that of the history without them, but for
/// the bits in the sheets.
#[test]
fn shares_do_not_look_at_the_bit() {
    let mut random = SplitMix64::new(89);
    let list = tied_tens(34, 8, &mut random);
    let history = |bits: u64| {
        let inserts = list.iter().enumerate();
        let inserts = inserts.map(|(rank, &entry)| shares::Call::Insert {
            rank: rank / 2,
            entry: entry & bits,
        });
        let delete = shares::Call::Delete { rank: 9 };
        inserts.chain([delete]).collect::<Vec<_>>()
    };
    let with = shares_by_calls(&history(u64::MAX));
    let bare = with
        .iter()
        .map(|(sheet, &share)| (without_bits(sheet.store()).sheet(), share));
    let without = shares_by_calls(&history(!TIED));
    assert!(with != without);
    assert!(table_of(bare) == without);
}

/// The same of timed histories, the third slice included.
#[test]
fn timed_shares_do_not_look_at_the_bit() {
    let mut random = SplitMix64::new(90);
    let list = tied_tens(35, 8, &mut random);
    let history = |bits: u64| {
        let inserts = list.iter().rev().map(|&entry| entry & bits);
        let inserts = inserts.map(|entry| timed_shares::Call::Insert { entry });
        let delete = timed_shares::Call::Delete { rank: 9 };
        inserts.chain([delete]).collect::<Vec<_>>()
    };
    let with = timed_shares::shares_by_calls(&history(u64::MAX));
    let bare = with
        .iter()
        .map(|(sheet, &share)| (timed_without_bits(sheet.store()).sheet(), share));
    let without = timed_shares::shares_by_calls(&history(!TIED));
    assert!(with != without);
    assert!(table_of(bare) == without);
}
