//! Timed sheets (02, F-1, F-3, F-11): the third slice, find, causes 10 and 11 and their
//! places among the others, and that a refused call changes nothing. Mending stands
//! in `mend.rs`.

mod common;

use common::all_calls::all_timed_calls;
use common::*;
use reference::calls::{Answer, Cause};
use reference::layout::{COUNTS, SLOTS, TALLIES};
use reference::places::{RETIRED, TIED};
use reference::random::SplitMix64;
use reference::timed::{balance_entries, BALANCE};
use reference::timed_shares::Store;

const LENGTHS: [usize; 11] = [0, 1, 2, 5, 33, 40, 64, 65, 100, 700, 1024];
/// What eight calls return where all but clear meet the cause.
const REFUSED_2: [u8; 8] = [2, 2, 2, 2, 2, 2, 2, 0];
const REFUSED_11: [u8; 8] = [11, 11, 11, 11, 11, 11, 11, 0];

/// The list 10, 20, …, 10 n.
fn tens(n: usize) -> Vec<u64> {
    (1..=n as u64).map(|k| 10 * k).collect()
}

/// A timed sheet of that list, of a random size and with random balance entries.
fn sheet_of_tens(n: usize, random: &mut SplitMix64) -> Store {
    let m = n + random.below(n.max(1));
    lay_out_timed(&tens(n), m, |_, _, c| random.below(c))
}

/// The third slice with these words from number 1 on and zeros elsewhere.
fn third_slice(words: &[u64]) -> Box<[u64]> {
    let mut balance = [0; BALANCE];
    balance[1..=words.len()].copy_from_slice(words);
    balance.into()
}

/// What eight calls return on a copy of a store, with rank 0 and entry 5.
fn on_store(store: &Store) -> [u8; 8] {
    let mut store = store.clone();
    let numbers = all_timed_calls(slices_of(&mut store), 0, 5);
    assert!(store == Store::cleared());
    numbers
}

fn slices_of(store: &mut Store) -> (&mut [u64], &mut [u16], &mut [u16], &mut [u64]) {
    let Store { plain, balance } = store;
    let (slots, counts) = (&mut plain.slots[..], &mut plain.counts[..]);
    (slots, counts, &mut plain.tallies[..], &mut balance[..])
}

/// All zero where there is one range.
#[test]
fn third_slice_of_one_range() {
    let mut store = lay_out_timed(&[10, 20, 30], 5, |_, _, _| 0);
    assert_eq!(store.balance, third_slice(&[]));
    assert_eq!(timed_check(&store), Answer::Checked { n: 3 });
    // Face 1 of the draw among 4 keeps M = 5.
    let answer = timed_insert(&mut store, 25, &[1]);
    assert_eq!(answer, Answer::Changed { n: 4, words: 1 });
    // Slots 5/8, 15/8, 25/8 and 35/8.
    assert_eq!(store.plain.slots[..6], [10, 20, 0, 25, 30, 0]);
    assert_eq!(store.balance, third_slice(&[]));
}

/// 34 entries and M = 65, of height 3: halves of 16 and 18, quarters of 7, 9, 9
/// and 9, leaves of 3, 4, 4, 5, 4, 5, 4 and 5.
fn sheet_of_34() -> Store {
    let faces = [0, 1, 0, 1, 0, 0, 0, 0];
    lay_out_timed(&tens(34), 65, |range, _, _| faces[range])
}

/// The balance entries have the ranks 16; 7, 16 + 9; 3, 7 + 4, 16 + 4, 25 + 4.
const OF_34: [u64; 7] = [170, 80, 260, 40, 120, 210, 300];

#[test]
fn third_slice_of_size_65() {
    let store = sheet_of_34();
    let (slots, counts) = (&store.plain.slots[..], &store.plain.counts[..]);
    let expected = Ok(third_slice(&OF_34).into_vec());
    assert_eq!(
        balance_entries(slots, counts, &store.plain.tallies[..]),
        expected
    );
    assert_eq!(store.balance, third_slice(&OF_34));
    assert_eq!(timed_check(&store), Answer::Checked { n: 34 });
}

/// 02, F-1: "at the number of each range", in whatever order the counts stand.
/// In four levels ranges 5, 6 and 7 have the places 7, 10 and 13.
#[test]
fn third_slice_is_not_in_tree_order() {
    let mut store = sheet_of_34();
    store.balance = third_slice(&[170, 80, 260, 40, 0, 0, 120, 0, 0, 210, 0, 0, 300]);
    assert_eq!(timed_check(&store), Answer::Refused(Cause::NotTimed));
}

/// Entry 5 comes in front of all: range 4 has 8 entries, and its one candidate is
/// the entry before the former one.
#[test]
fn third_slice_after_an_insert() {
    let mut store = sheet_of_34();
    let answer = timed_insert(&mut store, 5, &[1]);
    assert_eq!(answer, Answer::Changed { n: 35, words: 1 });
    let expected = third_slice(&[170, 80, 260, 30, 120, 210, 300]);
    assert_eq!(store.balance, expected);
}

/// The last entry goes: range 7 has 8 entries, and its one candidate is the entry
/// before the former one.
#[test]
fn third_slice_after_a_delete() {
    let mut store = sheet_of_34();
    let answer = timed_delete(&mut store, 33, &[]);
    assert_eq!(answer, Answer::Changed { n: 33, words: 0 });
    let expected = third_slice(&[170, 80, 260, 40, 120, 210, 290]);
    assert_eq!(store.balance, expected);
}

/// Back to one range: M = 64 by face 0 of the draw among 66, and all zero.
#[test]
fn third_slice_is_zeroed_with_the_tree() {
    let mut store = lay_out_timed(&tens(34), 67, |_, _, _| 0);
    assert_ne!(store.balance, third_slice(&[]));
    let answer = timed_delete(&mut store, 0, &[30]);
    assert_eq!(answer, Answer::Changed { n: 33, words: 1 });
    assert_eq!((m(&store.plain), store.balance), (64, third_slice(&[])));
}

/// Each entry, what lies between two, and both ends.
#[test]
fn find_on_the_whole_list() {
    let mut random = SplitMix64::new(70);
    for n in LENGTHS {
        for _ in 0..4 {
            let store = sheet_of_tens(n, &mut random);
            for rank in 0..n {
                let entry = 10 * (rank as u64 + 1);
                assert_eq!(timed_find(&store, entry), Answer::Found { rank });
                for below in [entry - 9, entry - 5, entry - 1] {
                    assert_eq!(timed_find(&store, below), Answer::Absent { rank });
                }
            }
            for above in [10 * n as u64 + 1, 1 << 32, u64::MAX] {
                assert_eq!(timed_find(&store, above), Answer::Absent { rank: n });
            }
        }
    }
}

/// A balance entry is the first of its right half.
#[test]
fn find_balance_entries() {
    for (range, entry) in (1..).zip(OF_34) {
        let store = sheet_of_34();
        let rank = entry as usize / 10 - 1;
        assert_eq!(timed_find(&store, entry), Answer::Found { rank }, "{range}");
        let before = Answer::Absent { rank };
        assert_eq!(timed_find(&store, entry - 1), before, "{range}");
        let behind = Answer::Absent { rank: rank + 1 };
        assert_eq!(timed_find(&store, entry + 1), behind, "{range}");
    }
}

#[test]
fn values_of_find() {
    let store = sheet_of_34();
    assert_eq!(timed_find(&store, 20).values(), [1, 1, 0]);
    assert_eq!(timed_find(&store, 25).values(), [0, 2, 0]);
    assert_eq!(timed_find(&Store::cleared(), 25).values(), [0, 0, 0]);
    let numbers = [20, 25].map(|entry| timed_find(&store, entry).number());
    assert_eq!(numbers, [0, 0]);
}

/// 62 bits count: times before sail numbers, and not bits 63 and 62.
#[test]
fn entries_are_compared_without_bits_63_and_62() {
    let (half, top) = (1 << 32, RETIRED / 2);
    let list = [1, half - 1, half, half + 1, 2 * half, top, RETIRED - 2];
    let absent = [2, half + 2, 2 * half - 1, top + half, RETIRED - 1];
    for pattern in 0..1 << (2 * list.len()) {
        let store = lay_out_timed(&with_bits(&list, pattern), 8, |_, _, _| 0);
        assert_eq!(timed_check(&store), Answer::Checked { n: 7 });
        if pattern % 7 != 0 {
            continue;
        }
        for bits in [0, TIED, RETIRED, TIED | RETIRED] {
            for (rank, entry) in list.into_iter().enumerate() {
                assert_eq!(timed_find(&store, entry | bits), Answer::Found { rank });
            }
            let ranks = absent.map(|entry| timed_find(&store, entry | bits));
            assert_eq!(ranks, [1, 4, 4, 6, 7].map(|rank| Answer::Absent { rank }));
        }
    }
}

/// The list that inserts in any order make rises.
#[test]
fn inserts_in_any_order() {
    let mut random = SplitMix64::new(71);
    for order in [&[30, 10, 20, 50, 40][..], &[50, 40, 30, 20, 10]] {
        let mut store = Store::cleared();
        for &entry in order {
            let answer = timed_insert(&mut store, entry, &words(&mut random, 64));
            assert_eq!(answer.number(), 0);
        }
        assert_eq!(list(&store.plain), tens(5));
    }
}

/// Cause 1 comes first: the contents are no sheet, the entry is zero, the rank too
/// large, and the ranks of the board fall as well.
#[test]
fn cause_1_lengths() {
    let sizes = [
        (SLOTS - 1, COUNTS, TALLIES, BALANCE),
        (SLOTS + 1, COUNTS, TALLIES, BALANCE),
        (SLOTS, COUNTS - 1, TALLIES, BALANCE),
        (SLOTS, COUNTS + 1, TALLIES, BALANCE),
        (SLOTS, COUNTS, TALLIES - 1, BALANCE),
        (SLOTS, COUNTS, TALLIES + 1, BALANCE),
        (SLOTS, COUNTS, 0, BALANCE),
        (SLOTS, COUNTS, TALLIES, BALANCE - 1),
        (SLOTS, COUNTS, TALLIES, BALANCE + 1),
        (SLOTS, COUNTS, TALLIES, 0),
        (SLOTS, COUNTS, TALLIES, SLOTS),
        (0, 0, 0, 0),
    ];
    for (slots, counts, tallies, balance) in sizes {
        for value in [0, 7] {
            let mut slots = vec![value; slots];
            let mut counts = vec![value as u16; counts];
            let mut tallies = vec![value as u16; tallies];
            let mut balance = vec![value; balance];
            let before = (
                slots.clone(),
                counts.clone(),
                tallies.clone(),
                balance.clone(),
            );
            let slices = (
                &mut slots[..],
                &mut counts[..],
                &mut tallies[..],
                &mut balance[..],
            );
            assert_eq!(all_timed_calls(slices, 9, 0), [1; 8]);
            assert!((slots, counts, tallies, balance) == before);
        }
    }
}

/// Slots, counts and tallies are no sheet, and the third slice is wrong as well.
#[test]
fn cause_2_before_11() {
    let mut store = sheet_of_34();
    store.plain.counts[255] = 1;
    assert_eq!(on_store(&store), REFUSED_2);
    store.balance.fill(3);
    assert_eq!(on_store(&store), REFUSED_2);
    store.plain.counts[255] = 0;
    assert_eq!(on_store(&store), REFUSED_11);
    store.plain.tallies[255] = 1;
    assert_eq!(on_store(&store), REFUSED_2);
    // The entries fall, and one stands in a gap.
    let mut store = with_third_slice(lay_out(&[3, 2, 1], 5, |_, _, _| 0));
    store.plain.slots[1] = 9;
    assert_eq!(on_store(&store), REFUSED_2);
}

/// A plain sheet that falls or has equal neighbours anywhere, with the third slice
/// of its own balance entries.
#[test]
fn cause_11_where_the_sheet_does_not_rise() {
    let mut random = SplitMix64::new(72);
    for n in LENGTHS {
        for rank in (1..n).step_by(1 + n / 300) {
            let mut falls = tens(n);
            falls.swap(rank - 1, rank);
            let mut stays = tens(n);
            stays[rank] = stays[rank - 1];
            let m = n + random.below(n);
            for list in [falls, stays] {
                let store = lay_out_timed(&list, m, |_, _, c| random.below(c));
                assert_eq!(check(&store.plain), Answer::Checked { n });
                let refused = Answer::Refused(Cause::NotTimed);
                assert_eq!(timed_check(&store), refused, "N {n} rank {rank}");
                if random.below(50) == 0 {
                    assert_eq!(on_store(&store), REFUSED_11);
                }
            }
        }
    }
}

/// Every word, those of no range among them: number 0, and all from the leaves on.
#[test]
fn cause_11_where_the_third_slice_is_wrong() {
    let mut random = SplitMix64::new(73);
    for n in LENGTHS {
        let sound = sheet_of_tens(n, &mut random);
        for word in 0..BALANCE {
            let held = sound.balance[word];
            for wrong in [held ^ 1, held ^ TIED, held ^ RETIRED, held + 10, 0] {
                if wrong == held {
                    continue;
                }
                let mut store = sound.clone();
                store.balance[word] = wrong;
                let refused = Answer::Refused(Cause::NotTimed);
                assert_eq!(timed_check(&store), refused, "N {n} word {word}");
            }
        }
        let mut store = sound.clone();
        store.balance[random.below(BALANCE)] ^= 1 << random.below(64);
        assert_eq!(on_store(&store), REFUSED_11);
    }
}

/// Also before 16, 4, 6 and 7: the entry is zero, the rank too large, the ranks of the
/// board fall, no tape is there.
#[test]
fn cause_11_before_3() {
    let mut store = sheet_of_34();
    store.balance[0] = 1;
    let numbers = all_timed_calls(slices_of(&mut store), 99, 0);
    assert_eq!(numbers, REFUSED_11);
}

/// Entry zero is never there, so that 3 and 10 cannot both hold; it gives 3 also
/// where the sheet has gaps, and before 5 and 7.
#[test]
fn cause_3_before_10() {
    let mut random = SplitMix64::new(74);
    for n in LENGTHS {
        let mut store = sheet_of_tens(n, &mut random);
        let before = store.clone();
        let refused = Answer::Refused(Cause::EntryZero);
        assert_eq!(timed_find(&store, 0), refused);
        for tape in [&[][..], &[0; 300]] {
            assert_eq!(timed_insert(&mut store, 0, tape), refused);
        }
        assert!(store == before);
    }
}

/// Before 5 and 7: the sheet is full, and no tape is there.
#[test]
fn cause_10_present() {
    let mut random = SplitMix64::new(75);
    for n in LENGTHS {
        let mut store = sheet_of_tens(n, &mut random);
        let before = store.clone();
        for entry in tens(n) {
            let answer = timed_insert(&mut store, entry, &[]);
            assert_eq!(answer, Answer::Refused(Cause::Present), "N {n} {entry}");
        }
        assert!(store == before);
    }
}

#[test]
fn cause_5_full() {
    let mut store = sheet_of_tens(1024, &mut SplitMix64::new(76));
    let before = store.clone();
    for entry in [1, 5, 15, 5005, 10239, 10241, u64::MAX] {
        for tape in [&[][..], &[0; 300]] {
            let answer = timed_insert(&mut store, entry, tape);
            assert_eq!(answer, Answer::Refused(Cause::Full));
        }
    }
    assert!(store == before);
}

/// Delete, read and place as on a plain sheet.
#[test]
fn causes_4_and_6() {
    let mut store = sheet_of_34();
    let before = store.clone();
    let refused = Answer::Refused(Cause::Rank);
    assert_eq!(timed_delete(&mut store, 34, &[]), refused);
    assert_eq!(timed_place(&store, 34), refused);
    let read = |first, last, output: &mut [u64]| timed_read(&store, first, last, output);
    assert_eq!(read(0, 34, &mut []), refused);
    assert_eq!(read(4, 3, &mut [0; 9]), refused);
    let mut output = [0x77; 4];
    assert_eq!(read(30, 33, &mut output[..3]).number(), 6);
    assert_eq!(output, [0x77; 4]);
    assert_eq!(read(31, 33, &mut output), Answer::Read { entries: 3 });
    assert_eq!(output, [320, 330, 340, 0x77]);
    assert_eq!(timed_place(&store, 33).values(), [34, 34, 1]);
    assert!(store == before);
}

/// The third slice stays too: here the draws would have changed it.
#[test]
fn cause_7_tape_ends() {
    let mut store = sheet_of_34();
    let before = store.clone();
    // Face 0 of the draw among 35, then M = 68 or 69 and a sheet built anew.
    let words = [0, 0, 1, 1, 1];
    for end in 0..words.len() {
        let answer = timed_insert(&mut store, 345, &words[..end]);
        assert_eq!(answer, Answer::Refused(Cause::TapeEnds));
        assert!(store == before);
    }
    let answer = timed_insert(&mut store, 345, &words);
    assert_eq!(answer, Answer::Changed { n: 35, words: 5 });
    assert!(store.balance != before.balance);
}

#[test]
fn numbers_of_the_causes() {
    assert_eq!(
        [Cause::Present, Cause::NotTimed].map(Cause::number),
        [10, 11]
    );
}

/// Clear makes any contents the empty timed sheet.
#[test]
fn clear_empties_all_slices() {
    let mut store = sheet_of_34();
    store.plain.slots.fill(u64::MAX);
    store.plain.counts.fill(u16::MAX);
    store.plain.tallies.fill(u16::MAX);
    store.balance.fill(u64::MAX);
    assert_eq!(on_store(&store), REFUSED_2);
    assert_eq!(timed_check(&Store::cleared()), Answer::Checked { n: 0 });
}
