//! The federation's timed sheets (02, F-1 and F-14): a third slice of 8,192 words, find and
//! insert by entry, and each cause at the numbers of that store. Mending stands in
//! [`plain`](crate::plain).

use crate::common::all_calls::all_timed_calls;
use crate::common::*;
use reference::calls::{Answer, Cause};
use reference::capacity::{Number, CLUBS, FEDERATION};
use reference::places::{RETIRED, TIED};
use reference::random::SplitMix64;
use reference::timed::{self, balance_entries};
use reference::timed_shares::StoreOf;

type Store = StoreOf<u32>;

const FULL: usize = FEDERATION.entries;
const LENGTHS: [usize; 8] = [0, 1, 64, 65, 1025, 2047, 4096, 65_536];
/// What eight calls return where all but clear meet the cause.
const REFUSED_2: [u8; 8] = [2, 2, 2, 2, 2, 2, 2, 0];
const REFUSED_11: [u8; 8] = [11, 11, 11, 11, 11, 11, 11, 0];

/// A timed sheet of n boats, 1000, 2000 and so on, of any size that it can have.
fn sheet(n: usize, random: &mut SplitMix64) -> Store {
    boats_in(n, some_size(n, random), random)
}

/// What eight calls return on a copy of a store, with a rank and an entry that any sheet
/// refuses; clear empties it.
fn on_store(store: &Store) -> [u8; 8] {
    let mut copy = store.clone();
    let Store { plain, balance } = &mut copy;
    let slices = (
        &mut *plain.slots,
        &mut *plain.counts,
        &mut *plain.tallies,
        &mut **balance,
    );
    let numbers = all_timed_calls(slices, FULL + 9, 0);
    assert!(copy == Store::cleared());
    numbers
}

/// All calls and mending on slices of these lengths: cause 1 whatever stands in them.
fn refuse_lengths<T: Number>([slots, counts, tallies, balance]: [usize; 4]) {
    for value in [0, 7] {
        let (mut slots, mut balance) = (vec![value; slots], vec![value; balance]);
        let mut counts = vec![T::low_bits(value); counts];
        let mut tallies = vec![T::low_bits(value); tallies];
        let slices = (
            &mut slots[..],
            &mut counts[..],
            &mut tallies[..],
            &mut balance[..],
        );
        assert_eq!(all_timed_calls(slices, 9, 0), [1; 8]);
        let mended = timed::mend(&slots, &mut counts, &mut tallies, &mut balance);
        assert_eq!(mended, Answer::Refused(Cause::Lengths));
        assert!(slots.iter().chain(&balance).all(|&held| held == value));
    }
}

/// Each slice one too short, one too long and empty, and as long as the clubs'.
#[test]
fn cause_1_lengths() {
    let [clubs, right] = [CLUBS, FEDERATION].map(|of| [of.slots, of.counts, of.counts, of.counts]);
    for slice in 0..4 {
        for length in [right[slice] - 1, right[slice] + 1, 0, clubs[slice]] {
            let mut lengths = right;
            lengths[slice] = length;
            refuse_lengths::<u32>(lengths);
        }
        let mut lengths = clubs;
        lengths[slice] = right[slice];
        refuse_lengths::<u16>(lengths);
    }
    refuse_lengths::<u32>(clubs);
    refuse_lengths::<u16>(right);
    refuse_lengths::<u32>([0; 4]);
}

/// Slots, counts or tallies are no sheet: before 11, where the third slice is wrong too.
#[test]
fn cause_2_before_11() {
    let mut random = SplitMix64::new(600);
    for n in [0, 65, 1025, FULL] {
        let sound = sheet(n, &mut random);
        for wrong_third_slice in [false, true] {
            let mut store = sound.clone();
            if wrong_third_slice {
                store.balance[8191] = 1;
                assert_eq!(on_store(&store), REFUSED_11);
            }
            let mut with_count = store.clone();
            with_count.plain.counts[8191] += 1 << 16;
            assert_eq!(on_store(&with_count), REFUSED_2, "N {n}");
            let mut with_tally = store.clone();
            with_tally.plain.tallies[1] ^= 1 << 16;
            assert_eq!(on_store(&with_tally), REFUSED_2, "N {n}");
            store.plain.slots[208_895] ^= 5;
            assert_eq!(on_store(&store), REFUSED_2, "N {n}");
        }
    }
}

/// Single words of the third slice, used ones and unused ones.
#[test]
fn cause_11_where_the_third_slice_is_wrong() {
    let mut random = SplitMix64::new(601);
    for n in LENGTHS {
        let sound = sheet(n, &mut random);
        assert_eq!(timed_check(&sound), Answer::Checked { n });
        let some: Vec<usize> = (0..6).map(|_| random.below(8192)).collect();
        for word in [0, 1, 127, 255, 256, 4095, 4096, 8191]
            .into_iter()
            .chain(some)
        {
            let held = sound.balance[word];
            for wrong in [held ^ 1, held ^ TIED, held ^ RETIRED, held ^ 1 << 40] {
                let mut store = sound.clone();
                store.balance[word] = wrong;
                let refused = Answer::Refused(Cause::NotTimed);
                assert_eq!(timed_check(&store), refused, "N {n} word {word}");
            }
        }
        let mut store = sound;
        store.balance[random.below(8192)] ^= 1 << random.below(64);
        assert_eq!(on_store(&store), REFUSED_11);
    }
}

/// Neighbours that fall or have one key, in one leaf or in two, and a first entry without a
/// key. The third slice is that of the balance entries.
#[test]
fn cause_11_where_the_sheet_does_not_rise() {
    let mut random = SplitMix64::new(602);
    for n in [65, 1025, FULL] {
        let some: Vec<usize> = (0..6).map(|_| 1 + random.below(n - 1)).collect();
        for rank in [1, n / 2, n - 1].into_iter().chain(some) {
            let (mut falls, mut stays, mut empty) =
                (boats(n as u64), boats(n as u64), boats(n as u64));
            falls.swap(rank - 1, rank);
            stays[rank] = stays[rank - 1] ^ [TIED, RETIRED, 0][rank % 3];
            empty[0] = [TIED, RETIRED, TIED | RETIRED][rank % 3];
            for list in [falls, stays, empty] {
                let m = some_size(n, &mut random);
                let plain = lay_out_as::<u32>(&list, m, |_, _, c| random.below(c));
                assert_eq!(check(&plain), Answer::Checked { n });
                let refused = Answer::Refused(Cause::NotTimed);
                assert_eq!(
                    timed_check(&with_third_slice(plain)),
                    refused,
                    "N {n} rank {rank}"
                );
            }
        }
    }
}

/// 02, F-1: "at the number of each range", which in trees of 9 to 13 levels is not its place
/// among the counts. Each word is the first entry of the range's right half.
#[test]
fn third_slice_by_numbers() {
    let mut random = SplitMix64::new(603);
    for (n, m) in [
        (2100, 4096),
        (8000, 8000),
        (16_000, 16_000),
        (20_000, 32_000),
        (FULL, 131_071),
    ] {
        let (store, list) = (boats_in::<u32>(n, m, &mut random), boats(n as u64));
        let (plain, levels) = (&store.plain, height(m) + 1);
        let mut in_tree_order = vec![0; 8192];
        for depth in 0..height(m) {
            let mut before = 0;
            for range in 1 << depth..2 << depth {
                let rank = before + count(plain, 2 * range);
                assert_eq!(store.balance[range], list[rank], "M {m} range {range}");
                in_tree_order[place(range, levels)] = list[rank];
                before += count(plain, range);
            }
        }
        assert!(store.balance[1 << height(m)..]
            .iter()
            .all(|&word| word == 0));
        let made = balance_entries(&plain.slots, &plain.counts, &plain.tallies);
        assert_eq!(made.as_deref(), Ok(&*store.balance));
        let mut store = store.clone();
        store.balance = in_tree_order.into();
        assert_eq!(timed_check(&store), Answer::Refused(Cause::NotTimed));
    }
}

/// Boats that are there, with any bits 63 and 62, and what lies between them.
#[test]
fn find_on_long_lists() {
    let mut random = SplitMix64::new(604);
    for n in [1025, 4096, FULL] {
        let (store, list) = (sheet(n, &mut random), boats(n as u64));
        let some: Vec<usize> = (0..60).map(|_| random.below(n)).collect();
        for rank in [0, 1, 1023, 1024, n - 1].into_iter().chain(some) {
            let bits = (random.below(4) as u64) << 62;
            assert_eq!(
                timed_find(&store, list[rank] ^ bits),
                Answer::Found { rank }
            );
            let before = list[rank] - 1;
            assert_eq!(timed_find(&store, before ^ bits), Answer::Absent { rank });
            let behind = Answer::Absent { rank: rank + 1 };
            assert_eq!(timed_find(&store, (list[rank] + 1) ^ bits), behind);
        }
        // The balance entries of the root and of the ranges before the leaves.
        for range in [1, 2, 3, (1 << height(m(&store.plain))) - 1] {
            let entry = store.balance[range];
            let rank = list.iter().position(|&held| held == entry).unwrap();
            assert_eq!(timed_find(&store, entry), Answer::Found { rank });
            assert_eq!(timed_find(&store, entry - 1), Answer::Absent { rank });
        }
        assert_eq!(timed_find(&store, u64::MAX), Answer::Absent { rank: n });
    }
}

/// Before 10, 5 and 7.
#[test]
fn cause_3_entry_zero() {
    let mut random = SplitMix64::new(605);
    for n in LENGTHS {
        let mut store = sheet(n, &mut random);
        let before = store.clone();
        let refused = Answer::Refused(Cause::EntryZero);
        for entry in [0, TIED, RETIRED, TIED | RETIRED] {
            assert_eq!(timed_find(&store, entry), refused);
            assert_eq!(timed_insert(&mut store, entry, &[]), refused);
        }
        assert!(store == before);
    }
}

/// Before 5 and 7: the sheet is full, and no tape is there.
#[test]
fn cause_10_present() {
    let mut random = SplitMix64::new(606);
    for n in [1, 1025, FULL] {
        let mut store = sheet(n, &mut random);
        let (before, list) = (store.clone(), boats(n as u64));
        let some: Vec<usize> = (0..20).map(|_| random.below(n)).collect();
        for rank in [0, n / 2, n - 1].into_iter().chain(some) {
            for bits in [0, TIED, RETIRED] {
                let answer = timed_insert(&mut store, list[rank] ^ bits, &[]);
                assert_eq!(answer, Answer::Refused(Cause::Present), "N {n} rank {rank}");
            }
        }
        assert!(store == before);
    }
}

/// At 65,536 and at no other length; an entry that is there gives 10 first.
#[test]
fn cause_5_full() {
    let mut random = SplitMix64::new(607);
    for n in [1023, 1024, 1025, 2047, 65_535] {
        let mut store = sheet(n, &mut random);
        let tape = words(&mut random, 32_768);
        let answer = timed_insert(&mut store, 1500, &tape);
        assert_eq!((answer.number(), answer.values()[0]), (0, n + 1));
        assert_eq!(timed_check(&store), Answer::Checked { n: n + 1 });
        assert_eq!(timed_find(&store, 1500), Answer::Found { rank: 1 });
        assert!(store == with_third_slice(store.plain.clone()));
    }
    let mut store = sheet(FULL, &mut random);
    let before = store.clone();
    for entry in [1, 1500, 65_536_001, u64::MAX] {
        for tape in [&[][..], &[0; 9000]] {
            let answer = timed_insert(&mut store, entry, tape);
            assert_eq!(answer, Answer::Refused(Cause::Full));
        }
    }
    assert_eq!(timed_insert(&mut store, 1000, &[]).number(), 10);
    assert!(store == before);
}

/// Delete, read, place and board as on a plain sheet, refused and accepted.
#[test]
fn causes_4_6_and_16() {
    let mut random = SplitMix64::new(608);
    for n in [1025, FULL] {
        let mut store = sheet(n, &mut random);
        let (before, list) = (store.clone(), boats(n as u64));
        for beyond in [n, n + 1, n + (1 << 16), 1 << 32, usize::MAX] {
            let answers = [
                timed_delete(&mut store, beyond, &[]),
                timed_place(&store, beyond),
                timed_read(&store, 0, beyond, &mut []),
                timed_board(&store, &[beyond as u64], &mut []),
            ];
            assert_eq!(answers, [Answer::Refused(Cause::Rank); 4]);
        }
        let (mut output, last) = (vec![7; n], n as u64 - 1);
        assert_eq!(timed_read(&store, 0, n - 1, &mut output[1..]).number(), 6);
        assert_eq!(
            timed_board(&store, &[0, last], &mut output[..1]).number(),
            6
        );
        assert_eq!(timed_board(&store, &[last, 0], &mut output).number(), 16);
        assert_eq!(timed_board(&store, &[last; 65], &mut output).number(), 16);
        assert_eq!(output, vec![7; n]);
        assert_eq!(timed_read(&store, 0, n - 1, &mut output).values()[0], n);
        assert!(output == list);
        assert_eq!(
            timed_board(&store, &[0, 1024, last], &mut output).values()[0],
            3
        );
        assert_eq!(output[..3], [list[0], list[1024], list[n - 1]]);
        for rank in [0, 1, 2, 3, 1024, n - 1] {
            let values = timed_place(&store, rank).values();
            assert_eq!(values, values_by_words(&list, rank), "N {n} rank {rank}");
        }
        assert!(store == before);
    }
}

/// The third slice stays too.
#[test]
fn cause_7_tape_ends() {
    let mut random = SplitMix64::new(609);
    for n in [1024, 65_535] {
        let sound = sheet(n, &mut random);
        let mut tape = words(&mut random, 32_768);
        tape[0] = 0;
        let mut changed = sound.clone();
        let [_, read, _] = timed_insert(&mut changed, 1500, &tape).values();
        assert!(read > n / 50 && changed.balance != sound.balance);
        let mut store = sound.clone();
        let some: Vec<usize> = (0..4).map(|_| random.below(read)).collect();
        for end in [0, 1, read - 1].into_iter().chain(some) {
            let answer = timed_insert(&mut store, 1500, &tape[..end]);
            assert_eq!(answer, Answer::Refused(Cause::TapeEnds));
            assert!(store == sound, "N {n}, {end} words");
        }
        assert_eq!(timed_insert(&mut store, 1500, &tape[..read]).number(), 0);
        assert!(store == changed);
    }
}

/// 65,536 tied boats in one group.
#[test]
fn places_of_65536_tied_boats() {
    let list: Vec<u64> = (1..=FULL as u64).map(|k| 10 * k | TIED).collect();
    let store = with_third_slice(lay_out_as::<u32>(&list, FULL, |_, _, c| c - 1));
    for rank in [0, 30_000, 65_535] {
        let answer = timed_place(&store, rank);
        assert_eq!(
            (answer.number(), answer.values()),
            (0, [1, 2_147_516_416, 65_536])
        );
    }
}

/// Clear makes any contents the empty timed sheet.
#[test]
fn clear_empties_all_slices() {
    let mut store = Store::cleared();
    assert_eq!(timed_check(&store), Answer::Checked { n: 0 });
    store.plain.slots.fill(u64::MAX);
    store.plain.counts.fill(u32::MAX);
    store.plain.tallies.fill(u32::MAX);
    store.balance.fill(u64::MAX);
    assert_eq!(on_store(&store), REFUSED_2);
}
