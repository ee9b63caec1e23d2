//! Causes 1 to 7 (01, "Causes and numbers"): each by itself, their order, and
//! that a refused call changes nothing. Boards stand in `board.rs`, but for 1 and 2,
//! and mending in `mend.rs`.

mod common;

use common::all_calls::all_calls;
use common::damage::judged_as_laid_out;
use common::*;
use reference::calls::{Answer, Cause};
use reference::layout::{COUNTS, SLOTS, TALLIES};
use reference::random::SplitMix64;
use reference::shares::Store;
use reference::sizes::Size;

#[test]
fn cause_1_lengths() {
    for (slots, counts, tallies) in [
        (SLOTS - 1, COUNTS, TALLIES),
        (SLOTS + 1, COUNTS, TALLIES),
        (SLOTS, COUNTS - 1, TALLIES),
        (SLOTS, COUNTS + 1, TALLIES),
        (SLOTS, COUNTS, TALLIES - 1),
        (SLOTS, COUNTS, TALLIES + 1),
        (0, COUNTS, TALLIES),
        (SLOTS, 0, TALLIES),
        (SLOTS, COUNTS, 0),
        (0, 0, 0),
        (COUNTS, SLOTS, TALLIES),
    ] {
        // Also not a sheet, entry zero, rank too large, ranks that fall: cause 1 comes
        // first.
        for value in [0, 7] {
            let (mut slots, mut counts, mut tallies) = slices(slots, counts, tallies);
            slots.fill(value);
            counts.fill(value as u16);
            tallies.fill(value as u16);
            let before = (slots.clone(), counts.clone(), tallies.clone());
            let numbers = all_calls(&mut slots, &mut counts, &mut tallies, 9, 0);
            assert_eq!(numbers, [1; 7]);
            assert_eq!((slots, counts, tallies), before);
        }
    }
}

#[test]
fn cause_2_not_a_sheet() {
    let (mut slots, mut counts, mut tallies) = full_lengths();
    slots[100] = 7;
    // Clear makes any contents the empty sheet.
    let numbers = all_calls(&mut slots, &mut counts, &mut tallies, 9, 0);
    assert_eq!(numbers, [2, 2, 2, 2, 2, 2, 0]);
    assert_eq!((slots, counts, tallies), full_lengths());
}

#[test]
fn cause_2_leaves_the_slices() {
    let mut store = Store::cleared();
    store.slots.fill(u64::MAX);
    store.counts.fill(u16::MAX);
    store.tallies.fill(u16::MAX);
    let before = store.clone();
    let not_a_sheet = Answer::Refused(Cause::NotASheet);
    assert_eq!(insert(&mut store, 0, 1, &[0; 9]), not_a_sheet);
    assert_eq!(delete(&mut store, 0, &[0; 9]), not_a_sheet);
    assert_eq!(store, before);
}

#[test]
fn cause_3_entry_zero() {
    let mut store = sheet_of(1024, &mut SplitMix64::new(3));
    let before = store.clone();
    // Before cause 4 and cause 5.
    for rank in [0, 1024, 1025, usize::MAX] {
        let answer = insert(&mut store, rank, 0, &[]);
        assert_eq!(answer, Answer::Refused(Cause::EntryZero));
    }
    assert_eq!(store, before);
}

#[test]
fn cause_4_rank() {
    for n in [0, 1, 5, 80, 1024] {
        let mut store = sheet_of(n, &mut SplitMix64::new(4));
        let before = store.clone();
        let refused = Answer::Refused(Cause::Rank);
        for beyond in [n + 1, n + 100, usize::MAX] {
            assert_eq!(insert(&mut store, beyond, 7, &[]), refused);
        }
        for beyond in [n, n + 1, usize::MAX] {
            assert_eq!(delete(&mut store, beyond, &[]), refused);
            assert_eq!(place_of(&store, beyond), refused);
            // Before cause 6: the output is too short as well.
            assert_eq!(read(&store, 0, beyond, &mut []), refused);
            assert_eq!(read(&store, beyond, beyond, &mut []), refused);
            assert_eq!(read(&store, beyond, 0, &mut [0; 9]), refused);
        }
        assert_eq!(read(&store, 4, 3, &mut [0; 9]), refused);
        assert_eq!(store, before);
    }
}

#[test]
fn cause_5_full() {
    let mut store = sheet_of(1024, &mut SplitMix64::new(5));
    let before = store.clone();
    // Before cause 7, and with any tape.
    for tape in [&[][..], &[1, 2, 3], &[0; 500]] {
        for rank in [0, 500, 1024] {
            let answer = insert(&mut store, rank, 7, tape);
            assert_eq!(answer, Answer::Refused(Cause::Full));
        }
    }
    assert_eq!(store, before);
}

#[test]
fn cause_6_output() {
    let store = sheet_of(70, &mut SplitMix64::new(6));
    for (first, last) in [(0, 0), (0, 69), (30, 40), (69, 69)] {
        let entries = last - first + 1;
        let mut output = vec![0x77; entries - 1];
        let answer = read(&store, first, last, &mut output);
        assert_eq!(answer, Answer::Refused(Cause::Output));
        assert!(output.iter().all(|&entry| entry == 0x77));

        // A longer output keeps its rest.
        for rest in [0, 1, 30] {
            let mut output = vec![0x77; entries + rest];
            let answer = read(&store, first, last, &mut output);
            assert_eq!(answer, Answer::Read { entries });
            let expected: Vec<u64> = (first as u64 + 1..=last as u64 + 1).collect();
            assert_eq!(output[..entries], expected);
            assert_eq!(output[entries..], vec![0x77; rest]);
        }
    }
}

#[test]
fn cause_7_tape_ends() {
    let mut store = lay_out(&[1, 2, 3], 5, |_, _, _| 0);
    let before = store.clone();
    let refused = Answer::Refused(Cause::TapeEnds);
    // Insert: draw among 4, and on face 0 among 2. Delete: M ≥ 4 draws among 4.
    assert_eq!(insert(&mut store, 0, 9, &[]), refused);
    assert_eq!(insert(&mut store, 0, 9, &[4]), refused);
    assert_eq!(delete(&mut store, 0, &[]), refused);
    assert_eq!(store, before);
    let answer = insert(&mut store, 0, 9, &[4, 3, 8]);
    assert_eq!(answer, Answer::Changed { n: 4, words: 2 });
    assert_eq!(store, lay_out(&[9, 1, 2, 3], 7, |_, _, _| 0));
}

#[test]
fn accepted_answers() {
    let mut store = sheet_of(70, &mut SplitMix64::new(7));
    let check = check(&store);
    assert_eq!((check.number(), check.values()), (0, [70, 0, 0]));
    for rank in 0..70 {
        let place = place_of(&store, rank);
        let values = [rank + 1, rank + 1, 1];
        assert_eq!((place.number(), place.values()), (0, values));
    }
    let read = read(&store, 3, 5, &mut [0; 3]);
    assert_eq!((read.number(), read.values()), (0, [3, 0, 0]));
    let clear = clear(&mut store);
    assert_eq!((clear.number(), clear.values()), (0, [0, 0, 0]));
    assert_eq!(store, Store::cleared());
}

#[test]
fn numbers_of_the_causes() {
    let causes = [
        Cause::Lengths,
        Cause::NotASheet,
        Cause::EntryZero,
        Cause::Rank,
        Cause::Full,
        Cause::Output,
        Cause::TapeEnds,
        Cause::NoFrame,
        Cause::TapeFull,
    ];
    assert_eq!(causes.map(Cause::number), [1, 2, 3, 4, 5, 6, 7, 8, 9]);
    assert_eq!(
        [Cause::Board, Cause::NotMendable].map(Cause::number),
        [16, 18]
    );
}

/// Every store one change away from a sheet is judged as its layout says.
#[test]
fn cause_2_on_damaged_sheets() {
    let mut random = SplitMix64::new(8);
    let mut sheets = 0;
    for n in [0, 1, 2, 3, 33, 40, 64, 65, 100, 700, 1024] {
        let sound = sheet_of(n, &mut random);
        sheets += judged_as_laid_out(&sound, 300, &mut random);
    }
    // Some changes lead to another sheet, as when one entry takes a new value.
    assert!(sheets > 100);
}

/// A store laid out by ⌊k × s / n⌋, the leaf rule of 01 that 02, F-2, replaces,
/// is a sheet only where both rules give the same slots: where every leaf is
/// full or empty, so for N = M ≤ 64.
#[test]
fn cause_2_by_the_leaf_rule_of_01() {
    let mut random = SplitMix64::new(9);
    let not_a_sheet = Answer::Refused(Cause::NotASheet);
    let (mut accepted, mut refused) = (0, 0);
    for n in 0..=1024 {
        let list: Vec<u64> = (0..n).map(|_| random.entry()).collect();
        for m in [n, n + random.below(n.max(1)), (2 * n).max(1) - 1] {
            let sheet = lay_out(&list, m, |_, _, c| random.below(c));
            assert_eq!(check(&sheet), Answer::Checked { n });
            let mut store = by_the_leaf_rule_of_01(&sheet);
            assert_eq!(store == sheet, n == m && m <= 64, "N {n} M {m}");
            if store == sheet {
                assert_eq!(check(&store), Answer::Checked { n });
                accepted += 1;
            } else {
                let before = store.clone();
                assert_eq!(insert(&mut store, 0, 5, &[0; 300]), not_a_sheet);
                assert_eq!(delete(&mut store, 0, &[0; 300]), not_a_sheet);
                assert!(store == before, "N {n} M {m}");
                let (slots, counts) = (&mut store.slots[..], &mut store.counts[..]);
                let numbers = all_calls(slots, counts, &mut store.tallies[..], 0, 5);
                assert_eq!(numbers, [2, 2, 2, 2, 2, 2, 0]);
                refused += 1;
            }
        }
    }
    assert!(accepted > 0 && refused > 0);
}

/// The store of a sheet with the entries of each leaf moved to the slots
/// ⌊k × s / n⌋.
fn by_the_leaf_rule_of_01(sheet: &Store) -> Store {
    let mut store = sheet.clone();
    let size = Size::new(m(sheet));
    let used = &mut store.slots[..size.slots() as usize];
    for leaf in used.chunks_exact_mut(size.leaf_slots().max(1)) {
        let entries: Vec<u64> = leaf.iter().copied().filter(|&e| e != 0).collect();
        leaf.fill(0);
        for (k, &entry) in entries.iter().enumerate() {
            leaf[k * leaf.len() / entries.len()] = entry;
        }
    }
    store
}
