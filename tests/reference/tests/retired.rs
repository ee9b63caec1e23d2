//! Retired boats (02, F-11): places without them on plain and timed sheets, the
//! tallies, bit 62 on timed sheets, and that layout and shares do not look at it.

mod common;

use common::*;
use reference::calls::{Answer, Cause};
use reference::conversions::to_number_order;
use reference::layout::TALLIES;
use reference::places::{RETIRED, TIED};
use reference::random::SplitMix64;
use reference::shares::{self, shares_by_calls, table_of, Store};
use reference::timed_shares::{self, Store as TimedStore};

/// Both bits, bit 63 in `ties` cases of 16 and bit 62 in `retired` cases.
fn some_bits(ties: usize, retired: usize, random: &mut SplitMix64) -> u64 {
    let (tied, gone) = (random.below(16) < ties, random.below(16) < retired);
    u64::from(tied) << 63 | u64::from(gone) << 62
}

/// The list 10, 20, …, 10 n with some bits.
fn tens(n: usize, ties: usize, retired: usize, random: &mut SplitMix64) -> Vec<u64> {
    let mut bits = || some_bits(ties, retired, random);
    (1..=n as u64).map(|k| 10 * k | bits()).collect()
}

/// Place of every rank, the same on a plain sheet and on a timed one.
fn places(store: &TimedStore) -> Vec<[usize; 3]> {
    let ranks = 0..n(&store.plain);
    let answers = ranks.map(|rank| (place_of(&store.plain, rank), timed_place(store, rank)));
    answers
        .map(|(plain, timed)| {
            assert_eq!((plain, plain.number()), (timed, 0));
            plain.values()
        })
        .collect()
}

/// Place of every rank by both slow readings of the sentence.
fn places_by_words(list: &[u64]) -> Vec<[usize; 3]> {
    (0..list.len())
        .map(|rank| {
            let values = values_by_words(list, rank);
            assert_eq!(values_by_pairs(list, rank), values, "{list:X?} {rank}");
            values
        })
        .collect()
}

/// Boats by letters: s scores, S scores and bears bit 63, r has retired, R has
/// retired and bears bit 63. Place, sum and t of each.
#[test]
fn worked_examples() {
    const GONE: [usize; 3] = [0, 0, 1];
    let cases: [(&str, &[[usize; 3]]); 16] = [
        ("", &[]),
        ("s", &[[1, 1, 1]]),
        ("S", &[[1, 1, 1]]),
        ("r", &[GONE]),
        ("R", &[GONE]),
        // The boat before her has retired: she has place 1, whatever the bits.
        ("rS", &[GONE, [1, 1, 1]]),
        ("RS", &[GONE, [1, 1, 1]]),
        ("Rs", &[GONE, [1, 1, 1]]),
        // A retired boat between two boats takes no place.
        ("srs", &[[1, 1, 1], GONE, [2, 2, 1]]),
        // She does not tie over one without the bit, and without her own bit not
        // over one that bears it.
        ("srS", &[[1, 1, 1], GONE, [2, 2, 1]]),
        ("sRs", &[[1, 1, 1], GONE, [2, 2, 1]]),
        // Both bear it: they tie.
        ("sRS", &[[1, 3, 2], GONE, [1, 3, 2]]),
        // One of two between them is without it.
        ("sRrS", &[[1, 1, 1], GONE, GONE, [2, 2, 1]]),
        ("srRS", &[[1, 1, 1], GONE, GONE, [2, 2, 1]]),
        // Three boats for the places 2 to 4, with retired boats at both ends.
        (
            "srsRSSRr",
            &[
                [1, 1, 1],
                GONE,
                [2, 9, 3],
                GONE,
                [2, 9, 3],
                [2, 9, 3],
                GONE,
                GONE,
            ],
        ),
        // The bits of retired boats before the first scoring boat have no effect.
        ("RRSRSr", &[GONE, GONE, [1, 3, 2], GONE, [1, 3, 2], GONE]),
    ];
    for (boats, expected) in cases {
        let bits = |boat| match boat {
            's' => 0,
            'S' => TIED,
            'r' => RETIRED,
            _ => RETIRED | TIED,
        };
        let list: Vec<u64> = (1..).zip(boats.chars()).map(|(k, b)| k | bits(b)).collect();
        for m in list.len()..(2 * list.len()).max(1) {
            let store = lay_out_timed(&list, m, |_, _, _| 0);
            assert_eq!(places(&store), expected, "{boats} M {m}");
        }
        assert_eq!(places_by_words(&list), expected, "{boats}");
    }
}

/// Every pattern of both bits, on a plain and on a timed sheet.
#[test]
fn every_pattern_of_short_lists() {
    let mut random = SplitMix64::new(100);
    for n in 0..=6 {
        let list: Vec<u64> = (1..=n as u64).collect();
        for pattern in 0..1 << (2 * n) {
            let list = with_bits(&list, pattern);
            let m = n + random.below(n.max(1));
            let store = lay_out_timed(&list, m, |_, _, _| 0);
            assert_eq!(places(&store), places_by_words(&list), "{list:X?}");
        }
    }
}

/// Groups that reach over leaves, from few ties to all and from few retired boats
/// to nearly all.
#[test]
fn groups_over_several_leaves() {
    let mut random = SplitMix64::new(101);
    for n in [34, 65, 100, 200] {
        for ties in [8, 15, 16] {
            for retired in [1, 8, 15] {
                let list = tens(n, ties, retired, &mut random);
                let m = n + random.below(n);
                let store = lay_out_timed(&list, m, |_, _, c| random.below(c));
                assert_eq!(places(&store), places_by_words(&list), "N {n} M {m}");
            }
        }
    }
}

/// Every second boat of a full sheet has retired, and all tie but the first.
#[test]
fn one_group_of_a_full_sheet() {
    for first in [0, 1] {
        let bits = |k: u64| TIED | (k % 2 ^ first) << 62;
        let list: Vec<u64> = (1..=1024).map(|k| k | bits(k)).collect();
        let store = lay_out_timed(&list, 1500, |_, _, _| 0);
        for (rank, of) in places(&store).into_iter().enumerate() {
            // 1 to 512 together.
            let retired = list[rank] & RETIRED != 0;
            let expected = if retired {
                [0, 0, 1]
            } else {
                [1, 131_328, 512]
            };
            assert_eq!(of, expected);
        }
    }
}

/// The sums of all groups are the places of all scoring boats; no boat stands
/// where there is none to score.
#[test]
fn sums_of_all_groups() {
    let mut random = SplitMix64::new(102);
    for n in [1, 2, 10, 64, 65, 333, 1024] {
        for (ties, retired) in [(0, 8), (8, 2), (15, 15), (16, 8), (8, 16)] {
            let list = tens(n, ties, retired, &mut random);
            let store = lay_out_timed(&list, n, |_, _, c| random.below(c));
            let places = places(&store);
            let boats = scoring(&list);
            let mut firsts: Vec<_> = places.iter().filter(|of| of[0] > 0).collect();
            assert_eq!(firsts.len(), boats);
            firsts.dedup();
            let sum: usize = firsts.iter().map(|of| of[1]).sum();
            assert_eq!(sum, boats * (boats + 1) / 2);
            assert_eq!(usize::from(store.plain.tallies[1]), boats);
        }
    }
}

/// 34 entries and M = 65, of height 3: halves of 16 and 18, quarters of 7, 9, 9
/// and 9, leaves of 3, 4, 4, 5, 4, 5, 4 and 5. Retired are ranks 0 to 2, the whole
/// first leaf, and ranks 6, 16 and 33.
fn sheet_of_34() -> TimedStore {
    let faces = [0, 1, 0, 1, 0, 0, 0, 0];
    let retired = |k: &u64| [1, 2, 3, 7, 17, 34].contains(k);
    let boats = (1..=34).map(|k| 10 * k | if retired(&k) { RETIRED } else { 0 });
    let list: Vec<u64> = boats.collect();
    lay_out_timed(&list, 65, |range, _, _| faces[range])
}

/// The slice with these numbers from 1 on and zeros elsewhere.
fn tallies(numbers: &[u16]) -> [u16; TALLIES] {
    let mut tallies = [0; TALLIES];
    tallies[1..=numbers.len()].copy_from_slice(numbers);
    tallies
}

/// In four levels: root and halves, then each quarter with its two leaves.
const OF_34: [u16; 15] = [28, 12, 16, 3, 0, 3, 9, 4, 5, 8, 3, 5, 8, 4, 4];

#[test]
fn tallies_of_size_65() {
    let store = sheet_of_34();
    assert_eq!(*store.plain.tallies, tallies(&OF_34));
    assert_eq!(check(&store.plain), Answer::Checked { n: 34 });
    assert_eq!(timed_check(&store), Answer::Checked { n: 34 });
}

/// Entry 5 comes in front of all, to the three retired boats: range 4 has 8
/// entries, 3 in its first leaf and 5 in its second.
#[test]
fn tallies_after_an_insert() {
    let scoring = [29, 13, 16, 4, 1, 3, 9, 4, 5, 8, 3, 5, 8, 4, 4];
    for (entry, expected) in [(5, scoring), (5 | RETIRED, OF_34)] {
        let mut store = sheet_of_34();
        let answer = timed_insert(&mut store, entry, &[1]);
        assert_eq!(answer, Answer::Changed { n: 35, words: 1 });
        assert_eq!(*store.plain.tallies, tallies(&expected));
        let mut plain = sheet_of_34().plain;
        assert_eq!(insert(&mut plain, 0, entry, &[1]), answer);
        assert_eq!(plain, store.plain);
    }
}

/// The last entry goes, which has retired: range 7 has 8 entries, 3 in its first
/// leaf and 5 in its second.
#[test]
fn tallies_after_a_delete() {
    let mut store = sheet_of_34();
    let answer = timed_delete(&mut store, 33, &[]);
    assert_eq!(answer, Answer::Changed { n: 33, words: 0 });
    let expected = [28, 12, 16, 3, 0, 3, 9, 4, 5, 8, 3, 5, 8, 3, 5];
    assert_eq!(*store.plain.tallies, tallies(&expected));
}

/// Back to one range, M = 64 by face 30 of the draw among 66, and on to none.
#[test]
fn tallies_are_zeroed_with_the_tree() {
    let boats = (1..=34).map(|k| 10 * k | (k % 2) << 62);
    let list: Vec<u64> = boats.collect();
    let mut store = lay_out(&list, 67, |_, _, _| 0);
    assert_eq!(store.tallies[..2], [0, 17]);
    assert_ne!(store.tallies[2..16], [0; 14]);
    let answer = delete(&mut store, 0, &[30]);
    assert_eq!(answer, Answer::Changed { n: 33, words: 1 });
    assert_eq!((m(&store), &*store.tallies), (64, &tallies(&[17])[..]));
    let mut random = SplitMix64::new(103);
    while n(&store) > 0 {
        assert_eq!(delete(&mut store, 0, &words(&mut random, 64)).number(), 0);
    }
    assert_eq!(store, Store::cleared());
}

/// Without retired boats the tallies are the counts, but for number 0.
#[test]
fn tallies_without_retired_boats() {
    let mut random = SplitMix64::new(104);
    for n in [0, 1, 40, 64, 65, 200, 1024] {
        let store = sheet_of(n, &mut random);
        assert_eq!(store.tallies[0], 0);
        assert_eq!(store.tallies[1..], store.counts[1..]);
    }
}

/// Seven calls on a copy of the store, eight on one with a third slice:
/// all but clear meet cause 2 and change nothing.
fn refuse(store: &TimedStore) {
    let refused = Answer::Refused(Cause::NotASheet);
    let mut copy = store.clone();
    let plain = &mut copy.plain;
    let answers = [
        insert(plain, 0, 5, &[0; 300]),
        delete(plain, 0, &[0; 300]),
        read(plain, 0, 0, &mut [0]),
        board(plain, &[0], &mut [0]),
        place_of(plain, 0),
        check(plain),
    ];
    assert_eq!(answers, [refused; 6]);
    let answers = [
        timed_insert(&mut copy, 5, &[0; 300]),
        timed_delete(&mut copy, 0, &[0; 300]),
        timed_find(&copy, 5),
        timed_read(&copy, 0, 0, &mut [0]),
        timed_board(&copy, &[0], &mut [0]),
        timed_place(&copy, 0),
        timed_check(&copy),
    ];
    assert_eq!(answers, [refused; 7]);
    assert!(copy == *store);
    assert_eq!(clear(&mut copy.plain), Answer::Cleared);
    assert!(copy.plain == Store::cleared());
}

/// Each number, number 0 and the unused ones among them.
#[test]
fn every_tally_changed() {
    let mut random = SplitMix64::new(105);
    for n in [0, 1, 5, 64, 70, 300, 1024] {
        let list = tens(n, 8, 4, &mut random);
        let m = n + random.below(n.max(1));
        let sound = lay_out_timed(&list, m, |_, _, c| random.below(c));
        for number in 0..TALLIES {
            let held = sound.plain.tallies[number];
            for wrong in [held ^ 1, held.wrapping_sub(1), held ^ 0x8000] {
                let mut store = sound.clone();
                store.plain.tallies[number] = wrong;
                refuse(&store);
            }
        }
    }
}

/// Tallies that follow another rule: the counts, with M or without it; retired
/// boats counted; the order of the range numbers; the tallies of other sheets of
/// the list.
#[test]
fn other_tallies() {
    let mut random = SplitMix64::new(106);
    for n in [65, 100, 300, 1024] {
        for m in [n, 2 * n - 1] {
            let list = tens(n, 8, 4, &mut random);
            let sound = lay_out_timed(&list, m, |_, _, c| random.below(c));
            let right: [u16; TALLIES] = (*sound.plain.tallies).try_into().unwrap();
            let counts: [u16; TALLIES] = (*sound.plain.counts).try_into().unwrap();
            let mut with_m = right;
            with_m[0] = m as u16;
            let (mut bare_counts, mut retired) = (counts, counts);
            bare_counts[0] = 0;
            retired[0] = 0;
            retired
                .iter_mut()
                .zip(right)
                .for_each(|(n, tally)| *n -= tally);
            let mut in_number_order = with_m;
            assert_eq!(to_number_order(&mut in_number_order).number(), 0);
            in_number_order[0] = 0;
            let of_another = lay_out(&list, m, |_, _, c| random.below(c)).tallies;
            let of_another_size = lay_out(&list, n + 1, |_, _, c| random.below(c)).tallies;
            let wrong = [
                [0; TALLIES],
                counts,
                bare_counts,
                retired,
                with_m,
                in_number_order,
                (*of_another).try_into().unwrap(),
                (*of_another_size).try_into().unwrap(),
            ];
            for tallies in wrong {
                assert_ne!(tallies, right, "N {n} M {m}");
                let mut store = sound.clone();
                store.plain.tallies = tallies.into();
                refuse(&store);
            }
        }
    }
}

/// An entry retires by delete and insert: the tallies follow, and so do places.
#[test]
fn retired_by_delete_and_insert() {
    let mut store = lay_out_timed(&[10, 20, 30 | TIED], 5, |_, _, _| 0);
    assert_eq!(places(&store), [[1, 1, 1], [2, 5, 2], [2, 5, 2]]);
    assert_eq!(*store.plain.tallies, tallies(&[3]));
    assert_eq!(timed_delete(&mut store, 1, &[2]).number(), 0);
    let retired = 20 | RETIRED;
    assert_eq!(timed_insert(&mut store, retired, &[1, 1]).number(), 0);
    assert_eq!(list(&store.plain), [10, retired, 30 | TIED]);
    assert_eq!(*store.plain.tallies, tallies(&[2]));
    assert_eq!(places(&store), [[1, 1, 1], [0, 0, 1], [2, 2, 1]]);
}

/// 2^62 is an entry of a plain sheet: only the whole entry zero is cause 3.
#[test]
fn bit_62_alone_on_a_plain_sheet() {
    let mut store = Store::cleared();
    for (n, entry) in [(1, RETIRED), (2, RETIRED | TIED), (3, RETIRED)] {
        let answer = insert(&mut store, 0, entry, &[0; 9]);
        assert_eq!(answer.values()[0], n);
    }
    assert_eq!(insert(&mut store, 0, 0, &[0; 9]).number(), 3);
    assert_eq!(list(&store), [RETIRED, RETIRED | TIED, RETIRED]);
    assert_eq!(*store.tallies, [0; TALLIES]);
}

/// Cause 3 where an entry without a key is given, 11 where it stands on the sheet.
#[test]
fn bits_alone_on_a_timed_sheet() {
    let mut random = SplitMix64::new(107);
    for bits in [TIED, RETIRED, TIED | RETIRED] {
        for n in [0, 1, 40, 70, 1024] {
            let list = tens(n, 8, 4, &mut random);
            let mut store = lay_out_timed(&list, n, |_, _, _| 0);
            let before = store.clone();
            let refused = Answer::Refused(Cause::EntryZero);
            assert_eq!(timed_find(&store, bits), refused);
            assert_eq!(timed_insert(&mut store, bits, &[0; 300]), refused);
            assert_eq!(timed_insert(&mut store, bits, &[]), refused);
            assert!(store == before);
        }
        // Zero without the bits is below all others: it can stand at rank 0 alone.
        for n in [1, 2, 40, 70, 1024] {
            let mut list = tens(n, 8, 4, &mut random);
            list[0] = bits;
            let store = lay_out_timed(&list, n, |_, _, c| random.below(c));
            assert_eq!(check(&store.plain), Answer::Checked { n });
            assert_eq!(timed_check(&store), Answer::Refused(Cause::NotTimed));
        }
    }
}

/// Neighbours with equal keys do not rise, whatever their bits, and neighbours
/// whose keys fall do not, though with the bits they rise.
#[test]
fn the_bits_do_not_make_a_sheet_rise() {
    const ALL: [u64; 4] = [0, TIED, RETIRED, TIED | RETIRED];
    for (first, second) in ALL.into_iter().flat_map(|a| ALL.map(|b| (a, b))) {
        for (keys, rises) in [([5, 5], false), ([6, 5], false), ([5, 6], true)] {
            let list = [keys[0] | first, keys[1] | second];
            let store = lay_out_timed(&list, 3, |_, _, _| 0);
            assert_eq!(check(&store.plain), Answer::Checked { n: 2 });
            let refused = Answer::Refused(Cause::NotTimed);
            let expected = if rises {
                Answer::Checked { n: 2 }
            } else {
                refused
            };
            assert_eq!(timed_check(&store), expected, "{list:X?}");
        }
    }
}

/// An entry whose key is there is found, and refused by 10, whatever its bits;
/// also on a full sheet, and without a tape.
#[test]
fn find_and_insert_with_other_bits() {
    let mut random = SplitMix64::new(108);
    for n in [1, 40, 70, 1024] {
        let list = tens(n, 8, 8, &mut random);
        let mut store = lay_out_timed(&list, n, |_, _, c| random.below(c));
        let before = store.clone();
        for (rank, entry) in list.into_iter().enumerate() {
            for bits in [TIED, RETIRED, TIED | RETIRED] {
                assert_eq!(timed_find(&store, entry ^ bits), Answer::Found { rank });
                let behind = Answer::Absent { rank: rank + 1 };
                assert_eq!(timed_find(&store, (entry + 1) ^ bits), behind);
                let answer = timed_insert(&mut store, entry ^ bits, &[]);
                assert_eq!(answer, Answer::Refused(Cause::Present));
            }
        }
        assert!(store == before);
    }
}

/// The third slice holds the balance entry as it stands, both bits included.
#[test]
fn third_slice_with_bits() {
    let mut random = SplitMix64::new(109);
    let list = tens(100, 8, 8, &mut random);
    let sound = lay_out_timed(&list, 150, |_, _, c| random.below(c));
    assert_eq!(timed_check(&sound), Answer::Checked { n: 100 });
    let with = |bits| {
        sound
            .balance
            .iter()
            .filter(|&&word| word & bits != 0)
            .count()
    };
    assert!(0 < with(RETIRED) && with(RETIRED) < with(u64::MAX));
    for word in 0..sound.balance.len() {
        for bits in [TIED, RETIRED, TIED | RETIRED] {
            let mut store = sound.clone();
            store.balance[word] ^= bits;
            assert_eq!(timed_check(&store), Answer::Refused(Cause::NotTimed));
        }
    }
}

/// The tallies stay too: here the draws would have changed them.
#[test]
fn cause_7_tape_ends() {
    let mut store = sheet_of_34();
    let before = store.clone();
    // Face 0 of the draw among 35, then M = 68 or 69 and a sheet built anew.
    let words = [0, 0, 1, 1, 1];
    for end in 0..words.len() {
        let answer = timed_insert(&mut store, 345, &words[..end]);
        assert_eq!(answer, Answer::Refused(Cause::TapeEnds));
        let answer = insert(&mut store.plain, 34, 345, &words[..end]);
        assert_eq!(answer, Answer::Refused(Cause::TapeEnds));
        assert!(store == before);
    }
    let answer = timed_insert(&mut store, 345, &words);
    assert_eq!(answer, Answer::Changed { n: 35, words: 5 });
    assert!(store.plain.tallies != before.plain.tallies);
}

/// The store of the same sheet without the bits: all boats score.
fn without_bits(mut store: Store) -> Store {
    let slots = store.slots.iter_mut();
    slots.for_each(|slot| *slot &= !TIED & !RETIRED);
    store.tallies = store.counts.clone();
    store.tallies[0] = 0;
    store
}

fn timed_without_bits(mut store: TimedStore) -> TimedStore {
    let words = store.balance.iter_mut();
    words.for_each(|word| *word &= !TIED & !RETIRED);
    store.plain = without_bits(store.plain);
    store
}

/// The same calls and tapes with and without bits: the same answers, the same
/// counts, and the same slots but for the bits.
#[test]
fn layout_does_not_look_at_the_bits() {
    let mut random = SplitMix64::new(110);
    let (mut with, mut without) = (Store::cleared(), Store::cleared());
    while n(&with) < 300 {
        let (n, words) = (n(&with), words(&mut random, 1024));
        let entry = 1 + random.below(9) as u64;
        let bits = some_bits(8, 8, &mut random);
        let answers = if n > 0 && random.below(3) == 0 {
            let rank = random.below(n);
            [&mut with, &mut without].map(|store| delete(store, rank, &words))
        } else {
            let rank = random.below(n + 1);
            [(&mut with, entry | bits), (&mut without, entry)]
                .map(|(store, entry)| insert(store, rank, entry, &words))
        };
        assert_eq!(answers[0], answers[1]);
        assert_eq!(answers[0].number(), 0);
        assert!(without_bits(with.clone()) == without);
    }
}

/// The table of a history with bits is that of the history without them, but for
/// the bits in the sheets and the tallies.
#[test]
fn shares_do_not_look_at_the_bits() {
    let mut random = SplitMix64::new(111);
    let list = tens(34, 8, 8, &mut random);
    let history = |bits: u64| {
        let inserts = list.iter().enumerate();
        let inserts = inserts.map(|(rank, &entry)| shares::Call::Insert {
            rank: rank / 2,
            entry: entry & bits,
        });
        let delete = shares::Call::Delete { rank: 9 };
        inserts.chain([delete]).collect::<Vec<_>>()
    };
    let with = shares_by_calls(&history(u64::MAX));
    let bare = with
        .iter()
        .map(|(sheet, &share)| (without_bits(sheet.store()).sheet(), share));
    let without = shares_by_calls(&history(!TIED & !RETIRED));
    assert!(with != without);
    assert!(table_of(bare) == without);
}

/// The same of timed histories, the third slice included.
#[test]
fn timed_shares_do_not_look_at_the_bits() {
    let mut random = SplitMix64::new(112);
    let list = tens(35, 8, 8, &mut random);
    let history = |bits: u64| {
        let inserts = list.iter().rev().map(|&entry| entry & bits);
        let inserts = inserts.map(|entry| timed_shares::Call::Insert { entry });
        let delete = timed_shares::Call::Delete { rank: 9 };
        inserts.chain([delete]).collect::<Vec<_>>()
    };
    let with = timed_shares::shares_by_calls(&history(u64::MAX));
    let bare = with
        .iter()
        .map(|(sheet, &share)| (timed_without_bits(sheet.store()).sheet(), share));
    let without = timed_shares::shares_by_calls(&history(!TIED & !RETIRED));
    assert!(with != without);
    assert!(table_of(bare) == without);
}
