//! The causes of plain and of timed stores, one before the other; slices of other lengths, those
//! of the clubs among them; damaged stores; and tapes that end.

use crate::{all_calls, all_timed_calls, called, number, sheet, sheet_of, some_size, tape, Store, Timed};
use crate::{FULL, LENGTHS, LOWEST, REFUSED_2, TIMED_2};
use agreement::histories::Bits;
use agreement::proved::Linked;
use agreement::stores::rising;
use agreement::{say, timed, Call};
use reference::capacity::{Capacity, Number, CLUBS, FEDERATION};
use reference::layout::{Shape, SIZE};
use reference::order::place;
use reference::places::{RETIRED, TIED};
use reference::random::SplitMix64;

/// All calls on slices of these lengths, which keep their contents as far as they go: cause 1.
fn refuses_lengths<T: Linked + timed::Linked>(store: &timed::StoreOf<T>, lengths: [usize; 4]) {
    let mut lent = store.clone();
    lent.slots.resize(lengths[0], 0);
    lent.counts.resize(lengths[1], T::of(0));
    lent.tallies.resize(lengths[2], T::of(0));
    lent.balance.resize(lengths[3], 0);
    assert_eq!(all_timed_calls(&lent), [1; 9], "{lengths:?}");
    if lengths[..3] != lengths_of(T::CAPACITY)[..3] {
        assert_eq!(all_calls(&lent.plain()), [1; 8], "{lengths:?}");
    }
}

/// The lengths of slots, counts, tallies and third slice.
fn lengths_of(capacity: Capacity) -> [usize; 4] {
    [capacity.slots, capacity.counts, capacity.counts, capacity.counts]
}

/// Any of the slices, and all of them, have the length of the other store.
fn refuses_the_other<T: Linked + timed::Linked>(store: &timed::StoreOf<T>, other: Capacity) {
    let (own, other) = (lengths_of(T::CAPACITY), lengths_of(other));
    for which in 1..16 {
        let mut lengths = own;
        for slice in (0..4).filter(|slice| which >> slice & 1 != 0) {
            lengths[slice] = other[slice];
        }
        refuses_lengths(store, lengths);
    }
}

/// The clubs' store lent to the federation's calls. A list of up to 1,024 entries has the same
/// contents there; of a longer one its front is lent.
#[test]
fn the_clubs_store_lent_to_a_federation_call() {
    let mut random = SplitMix64::new(8100);
    for n in [0, 40, 200, 1024, 5000, FULL] {
        refuses_the_other::<u32>(&sheet(n, &mut random), CLUBS);
    }
    refuses_the_other(&Timed::unused(), CLUBS);
    // The bytes of the clubs' counts as numbers of 32 bits.
    refuses_lengths(&sheet(100, &mut random), [CLUBS.slots, CLUBS.counts / 2, CLUBS.counts / 2, CLUBS.counts]);
}

/// The federation's store lent to the clubs' calls.
#[test]
fn the_federation_store_lent_to_a_club_call() {
    let mut random = SplitMix64::new(8101);
    for n in [0, 40, 200, 1024] {
        let m = some_size(n, &mut random);
        let store = timed::Store::of_size(&rising(n, Bits::SOME, &mut random), m, &mut random);
        refuses_the_other(&store, FEDERATION);
        // The bytes of the federation's counts as numbers of 16 bits.
        refuses_lengths(&store, [FEDERATION.slots, 2 * FEDERATION.counts, 2 * FEDERATION.counts, FEDERATION.counts]);
    }
    refuses_the_other(&timed::Store::unused(), FEDERATION);
}

/// Each slice one too short, one too long and empty, and all empty.
#[test]
fn wrong_lengths() {
    let mut random = SplitMix64::new(8102);
    for store in [sheet(40, &mut random), sheet(5000, &mut random), Timed::unused()] {
        for slice in 0..4 {
            let right = lengths_of(FEDERATION)[slice];
            for length in [right - 1, right + 1, 0] {
                let mut lengths = lengths_of(FEDERATION);
                lengths[slice] = length;
                refuses_lengths(&store, lengths);
            }
        }
        refuses_lengths(&store, [0; 4]);
    }
}

/// The store with one slot too few; with a count that is not 0 behind the tree's; and as it is.
fn with_causes(sound: &Store) -> [(Store, u64); 3] {
    let mut wrong = sound.clone();
    wrong.counts[8191] = 1;
    let mut short = wrong.clone();
    short.slots.pop();
    [(short, 1), (wrong, 2), (sound.clone(), 0)]
}

/// From a call that all its causes refuse, one after the other is put right: 1, 2, 3, 4, 5, 7
/// of an insert; 1, 2, 4, 7 of a delete; 1, 2, 4, 6 of a read; 1, 2, 4 of a place; 1, 2, 16, 4,
/// 6 of a board; 1, 2 of a check; 1, 18 of mending, which takes any counts; 1 of a clear.
#[test]
fn order_of_the_causes() {
    let mut random = SplitMix64::new(8110);
    // Its last slots belong to no leaf.
    let full = sheet_of(FULL, FULL, &mut random).plain();
    let insert = |store: &Store, rank, entry| number(store, Call::Insert { rank, entry, tape: vec![] });
    let delete = |store: &Store, rank| number(store, Call::Delete { rank, tape: vec![] });
    let read = |store: &Store, last| number(store, Call::Read { first: 1, last, output: vec![] });
    let board = |store: &Store, ranks: [u64; 3]| number(store, Call::Board { ranks: ranks.to_vec(), output: vec![5; 2] });
    let beyond = FULL as u64;
    for (store, first) in with_causes(&full) {
        let or = |own: u64| if first == 0 { own } else { first };
        assert_eq!(insert(&store, FULL + 1, 0), or(3));
        assert_eq!(insert(&store, FULL + 1, 7), or(4));
        assert_eq!(insert(&store, FULL, 7), or(5));
        assert_eq!(delete(&store, FULL), or(4));
        assert_eq!(read(&store, FULL), or(4));
        assert_eq!(read(&store, 0), or(4));
        assert_eq!(read(&store, FULL - 1), or(6));
        assert_eq!(number(&store, Call::Place { rank: FULL }), or(4));
        assert_eq!(board(&store, [0, beyond, 0]), or(16));
        assert_eq!(board(&store, [0, beyond, beyond]), or(4));
        assert_eq!(board(&store, [0, beyond - 1, beyond - 1]), or(6));
        assert_eq!(number(&store, Call::Check), first);
        assert_eq!(number(&store, Call::Clear), u64::from(first == 1));
        assert_eq!(number(&store, Call::Mend), u64::from(first == 1));
    }
    let mut no_sheet = full.clone();
    no_sheet.slots[208_895] = 7;
    assert_eq!(number(&no_sheet, Call::Mend), 18);
    no_sheet.tallies.pop();
    assert_eq!(number(&no_sheet, Call::Mend), 1);
    // M = N: each insert draws. M = 2N − 1: each delete does.
    let [least, greatest] = [65_535, 131_069].map(|m| sheet_of(65_535, m, &mut random).plain());
    assert_eq!(insert(&least, 65_536, 7), 4);
    assert_eq!(insert(&least, 65_535, 7), 7);
    assert_eq!(delete(&greatest, 65_535), 4);
    assert_eq!(delete(&greatest, 65_534), 7);
}

/// Cause 5 at 65,536 and at no other length.
#[test]
fn full_at_65536_alone() {
    let mut random = SplitMix64::new(8111);
    for n in [1023, 1024, 1025, 2047, 2048, 4096, 32_768, 65_535, FULL] {
        let sheet = sheet(n, &mut random);
        let tape = tape(&mut random);
        let expected = if n == FULL { [5, 0] } else { [0, n as u64 + 1] };
        let plain = called(&sheet.plain(), Call::Insert { rank: n, entry: 9, tape: tape.clone() }).0;
        let timed = called(&sheet, timed::Call::Insert { entry: LOWEST, tape }).0;
        assert_eq!([&plain[..2], &timed[..2]], [expected; 2], "N {n}");
    }
}

/// Some numbers of the counts or the tallies of a sheet: first and last ones, and others among
/// those of its ranges.
fn some_numbers(store: &Timed, random: &mut SplitMix64) -> Vec<usize> {
    let ranges = 2 * Shape::of(store.counts[SIZE].value()).leaves();
    let among: Vec<usize> = (0..6).map(|_| 1 + random.below(ranges - 1)).collect();
    let fixed = [1, 2, ranges - 1, ranges, 255, 256, 4095, 4096, 8191];
    fixed.into_iter().filter(|number| *number < 8192).chain(among).collect()
}

/// Counts and tallies that are too large or too small by one, or by bits that 16 bits do not
/// have; number 0 of the tallies, and unused ones, too.
#[test]
fn single_numbers_changed() {
    let mut random = SplitMix64::new(8120);
    for n in LENGTHS {
        let sound = sheet(n, &mut random);
        for k in some_numbers(&sound, &mut random) {
            let change = [1, u32::MAX, 1 << 16, 1 << 31][random.below(4)];
            let mut store = sound.clone();
            store.counts[k] = store.counts[k].wrapping_add(change);
            assert_eq!(all_calls(&store.plain()), REFUSED_2, "N {n} count {k}");
            let mut store = sound.clone();
            let k = if random.below(4) == 0 { 0 } else { k };
            store.tallies[k] = store.tallies[k].wrapping_add(change);
            assert_eq!(all_timed_calls(&store), TIMED_2, "N {n} tally {k}");
        }
    }
}

/// M with further bits, the number of entries in all ranges on the way to a leaf with them, and
/// the tallies there: each lower half is right.
#[test]
fn bits_that_16_bits_do_not_have() {
    let mut random = SplitMix64::new(8121);
    for n in [65, 1024, 2047, 40_000, FULL] {
        let sound = sheet(n, &mut random).plain();
        let shape = Shape::of(sound.counts[SIZE].value());
        let leaf = shape.leaves() + random.below(shape.leaves());
        let path = (0..=shape.height).map(|depth| place(leaf >> depth, shape.height + 1));
        let (mut counts, mut tallies, mut m) = (sound.clone(), sound.clone(), sound.clone());
        for number in path {
            counts.counts[number] += 1 << 16;
            tallies.tallies[number] += 1 << 16;
        }
        assert_eq!(all_calls(&counts), REFUSED_2, "N {n}");
        assert_eq!(all_calls(&tallies), REFUSED_2, "N {n}");
        m.counts[SIZE] += 1 << 17;
        assert_eq!(all_calls(&m), [2, 2, 2, 2, 2, 2, 0, 18], "N {n}");
    }
}

/// The order of the range numbers, in trees of 4 to 13 levels: cause 2 for the counts, and for
/// the tallies.
#[test]
fn number_order() {
    let mut random = SplitMix64::new(8122);
    for (n, levels) in [(65, 4), (200, 5), (1024, 7), (4096, 9), (8192, 10), (16_384, 11), (32_769, 12), (FULL, 13)] {
        let sound = sheet_of(n, n, &mut random).plain();
        assert_eq!(Shape::of(n).height + 1, levels);
        let by_number = |numbers: &[u32]| {
            let mut moved = numbers.to_vec();
            (1..1 << levels).for_each(|range| moved[range] = numbers[place(range, levels)]);
            moved
        };
        let (mut counts, mut tallies) = (sound.clone(), sound.clone());
        counts.counts = by_number(&sound.counts);
        tallies.tallies = by_number(&sound.tallies);
        assert_eq!(number(&counts, Call::Check), 2, "N {n}");
        assert_eq!(number(&tallies, Call::Check), 2, "N {n}");
        assert_eq!(number(&sound, Call::Check), 0, "N {n}");
    }
}

/// Lists that the size rules allow and that are one and more too long: M and the slots still
/// have room for them.
#[test]
fn more_than_65536_entries() {
    let mut random = SplitMix64::new(8123);
    for (n, m) in [(FULL + 1, FULL + 1), (FULL + 1, 131_071), (70_000, 100_000)] {
        let store = Store::of_size(&rising(n, Bits::SOME, &mut random), m, &mut random);
        assert_eq!(all_calls(&store), [2, 2, 2, 2, 2, 2, 0, 18], "N {n} M {m}");
        let timed = Timed::with_slice(store, vec![0; 8192]);
        assert_eq!(all_timed_calls(&timed), [2, 2, 2, 2, 2, 2, 2, 0, 18], "N {n} M {m}");
    }
}

/// One damage to a store, most often where entries and numbers stand. It may be a sheet still.
fn damage(store: &mut Timed, random: &mut SplitMix64) {
    let m = store.counts[SIZE].value();
    let shape = Shape::of(m.min(FEDERATION.largest_m()));
    let (used, ranges) = ((shape.slots() + 2).min(FEDERATION.slots), 2 * shape.leaves());
    let Timed { slots, counts, tallies, balance } = store;
    let (slot, other, near) = (random.below(used), random.below(used), random.below(used - 1));
    let (range, among) = (1 + random.below(ranges - 1), random.below(FEDERATION.counts));
    let bit = 1 << random.below(32);
    match random.below(20) {
        0 => slots[slot] = 0,
        1 => slots[slot] = random.entry(),
        2 => slots.swap(slot, other),
        3 | 4 => slots.swap(near, near + 1),
        5 => slots[random.below(FEDERATION.slots)] |= 1 << random.below(64),
        6 | 7 if slots[slot] & !TIED & !RETIRED != 0 => slots[slot] ^= TIED,
        8 if slots[slot] & !TIED & !RETIRED != 0 => slots[slot] ^= RETIRED,
        9 => counts[range] = counts[range].wrapping_add(1),
        10 => counts[range] = counts[range].wrapping_sub(1),
        11 => counts[among] ^= bit,
        12 => counts.swap(range, 1 + random.below(ranges - 1)),
        13 => counts[SIZE] = (m + random.below(5)).saturating_sub(2) as u32,
        14 => counts[SIZE] = random.next_u32() >> random.below(32),
        15 => tallies[range] = tallies[range].wrapping_add(1),
        16 => tallies[among] ^= bit,
        17 => balance[range] ^= 1 << random.below(64),
        18 => balance[among] = random.entry(),
        _ => balance[range] = 0,
    }
}

/// Up to three damages: each call and mending answer the same on both. Sheets are among them, and
/// stores with each of the causes 2, 11 and 18.
#[test]
fn damaged_at_random() {
    let mut random = SplitMix64::new(8130);
    let (mut plain, mut timed, mut mended, mut stores) = ([0; 12], [0; 12], [0; 19], 0);
    for n in LENGTHS {
        let sound = sheet(n, &mut random);
        for _ in 0..40 {
            let mut store = sound.clone();
            for _ in 0..random.below(4) {
                damage(&mut store, &mut random);
            }
            let some = random.below(7);
            let numbers = if stores % 12 == 0 {
                (all_calls(&store.plain()), all_timed_calls(&store))
            } else {
                some_calls(&store, some)
            };
            plain[numbers.0[0] as usize] += 1;
            timed[numbers.1[0] as usize] += 1;
            mended[numbers.0[7] as usize] += 1;
            mended[numbers.1[8] as usize] += 1;
            stores += 1;
        }
    }
    let met = [plain[0], plain[2], timed[0], timed[2], timed[11], mended[0], mended[18]];
    assert!(met.iter().all(|met| *met >= 40), "{met:?}");
    say(&format!("{stores} stores"));
}

/// Check, mending and one more call; the numbers of the others are left 0.
fn some_calls(store: &Timed, some: usize) -> ([u64; 8], [u64; 9]) {
    let (mut plain, mut timed) = ([0; 8], [0; 9]);
    let n = store.n();
    let words = vec![0x1234_5678; 8192];
    plain[0] = number(&store.plain(), Call::Check);
    plain[7] = number(&store.plain(), Call::Mend);
    timed[0] = number(store, timed::Call::Check);
    timed[8] = number(store, timed::Call::Mend);
    let plain_call = match some {
        0 => Call::Insert { rank: n / 2, entry: 11, tape: words.clone() },
        1 => Call::Delete { rank: n / 2, tape: words.clone() },
        2 => Call::Read { first: n / 2, last: n / 2, output: vec![5; 2] },
        3 => Call::Place { rank: n / 2 },
        _ => Call::Board { ranks: vec![n as u64 / 2; 3], output: vec![5; 4] },
    };
    let timed_call = match some {
        0 => timed::Call::Insert { entry: LOWEST, tape: words },
        1 => timed::Call::Delete { rank: n / 2, tape: words },
        2 => timed::Call::Read { first: n / 2, last: n / 2, output: vec![5; 2] },
        3 => timed::Call::Place { rank: n / 2 },
        4 => timed::Call::Find { entry: store.slots[0] },
        _ => timed::Call::Board { ranks: vec![n as u64 / 2; 3], output: vec![5; 4] },
    };
    number(&store.plain(), plain_call);
    number(store, timed_call);
    (plain, timed)
}

/// The tape of a call that sets everything anew, which reads a word for each range with more than
/// one candidate, cut at some places before the last word read: cause 7, and nothing changes.
#[test]
fn tapes_that_end() {
    let mut random = SplitMix64::new(8140);
    for n in [1, 64, 1024, 2047, 4096, 65_535] {
        // M = N: an insert sets M anew. M = 2N − 1: a delete does.
        for (m, inserts) in [(n, true), (2 * n - 1, false)] {
            let sound = sheet_of(n, m, &mut random);
            let words = tape(&mut random);
            let rank = random.below(n);
            let plain = |end: usize| {
                let tape = words[..end].to_vec();
                called(&sound.plain(), if inserts { Call::Insert { rank, entry: 9, tape } } else { Call::Delete { rank, tape } })
            };
            let timed = |end: usize| {
                let tape = words[..end].to_vec();
                called(&sound, if inserts { timed::Call::Insert { entry: LOWEST, tape } } else { timed::Call::Delete { rank, tape } })
            };
            for timed_kind in [false, true] {
                let returned = |end: usize| if timed_kind { timed(end).0 } else { plain(end).0 };
                let [number, _, read, _] = returned(words.len());
                // A delete of the last entry draws nothing.
                assert_eq!((number, read > 0), (0, inserts || n > 1), "N {n} M {m}");
                let some: Vec<usize> = (0..4).map(|_| random.below(read.max(1) as usize)).collect();
                for end in [0, 1, read.saturating_sub(1) as usize].into_iter().chain(some) {
                    let expected = if (end as u64) < read { 7 } else { 0 };
                    assert_eq!(returned(end)[0], expected, "N {n} M {m}, {end} words");
                }
                assert_eq!(returned(read as usize)[2], read, "N {n} M {m}");
            }
        }
    }
}

/// The most words that a call reads where it passes none over: 2,049, by an insert into 65,535 entries whose
/// draws all give 0.
#[test]
fn the_most_words() {
    let sound = sheet_of(65_535, 70_000, &mut SplitMix64::new(8141));
    for (words, expected) in [(2048, [7, 0, 0, 0]), (2049, [0, 65_536, 2049, 0]), (2068, [0, 65_536, 2049, 0])] {
        let tape = vec![0; words];
        assert_eq!(called(&sound.plain(), Call::Insert { rank: 9, entry: 9, tape: tape.clone() }).0, expected);
        assert_eq!(called(&sound, timed::Call::Insert { entry: LOWEST, tape }).0, expected);
    }
}
