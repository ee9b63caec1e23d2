//! The order of the counts, each cause at the numbers of the store, readings, places and
//! boards of long lists, and mending.

use crate::common::all_calls::all_calls;
use crate::common::damage::{judged_as_laid_out, turn};
use crate::common::mending::{as_searched, comes_to, mends_to, move_between_leaves, spoiled, Met};
use crate::common::mending::{numbers, refused};
use crate::common::*;
use reference::calls::{Answer, Cause};
use reference::capacity::{Number, CLUBS, FEDERATION};
use reference::layout::SIZE;
use reference::places::{RETIRED, TIED};
use reference::random::SplitMix64;
use reference::shares::StoreOf;
use reference::spoils::{change_slots, numbers_of};

type Store = StoreOf<u32>;

const FULL: usize = FEDERATION.entries;
/// The lengths where the clubs' sheets end and the trees become higher, and the longest.
const LENGTHS: [usize; 13] = [
    0, 1, 33, 64, 65, 1024, 1025, 2047, 2048, 4096, 30_000, 65_535, 65_536,
];

/// A sheet of n boats, of any size that it can have.
fn sheet(n: usize, random: &mut SplitMix64) -> Store {
    boats_in(n, some_size(n, random), random).plain
}

/// The numbers of the request, and a full sheet with the largest M.
#[test]
fn numbers_of_the_store() {
    assert_eq!((FEDERATION.entries, FEDERATION.slots), (65_536, 208_896));
    assert_eq!((FEDERATION.counts, FEDERATION.largest_m()), (8192, 131_071));
    let store = Store::cleared();
    assert_eq!((store.slots.len(), store.counts.len()), (208_896, 8192));
    assert_eq!(store.tallies.len(), 8192);
    let full = boats_in::<u32>(FULL, 131_071, &mut SplitMix64::new(300));
    assert_eq!(full.plain.counts[..2], [131_071, 65_536]);
    // Every second boat of the list has retired.
    assert_eq!(full.plain.tallies[..2], [0, 32_768]);
    assert_eq!(full.balance.len(), 8192);
    assert_eq!(check(&full.plain), Answer::Checked { n: FULL });
}

/// A tree, level by level, each from left to right.
fn levels_of(root: usize, levels: usize) -> Vec<Vec<usize>> {
    let level = |depth: usize| (root << depth..(root + 1) << depth).collect();
    (0..levels).map(level).collect()
}

/// 02, F-5: "A tree of one level is its range; one of H levels is its top ⌊H/2⌋ levels
/// stored so, followed by each lower subtree so stored, from left to right."
fn stored(tree: &[Vec<usize>]) -> Vec<usize> {
    if tree.len() == 1 {
        return tree[0].clone();
    }
    let (top, lower) = tree.split_at(tree.len() / 2);
    let subtrees = lower[0].iter().map(|&root| levels_of(root, lower.len()));
    let subtrees = subtrees.flat_map(|subtree| stored(&subtree));
    stored(top).into_iter().chain(subtrees).collect()
}

/// The slots of a range in a sheet of size M.
fn slots_of(range: usize, m: usize) -> std::ops::Range<usize> {
    let depth = (usize::BITS - 1 - range.leading_zeros()) as usize;
    let width = leaf_slots(m) << (height(m) - depth);
    let first = (range - (1 << depth)) * width;
    first..first + width
}

/// Each count and each tally stands where the sentence has it, and where its position in the
/// tree is by formula; M comes first, and unused numbers are zero.
fn stands_in_tree_order(store: &Store) {
    let (m, levels) = (m(store), height(m(store)) + 1);
    let order = stored(&levels_of(1, levels));
    let of_range = |range: usize| {
        let held = &store.slots[slots_of(range, m)];
        let entries: Vec<u64> = held.iter().copied().filter(|&slot| slot != 0).collect();
        [entries.len() as u32, scoring(&entries) as u32]
    };
    let mut numbers = vec![[m as u32, 0]];
    numbers.extend(order.iter().map(|&range| of_range(range)));
    numbers.resize(FEDERATION.counts, [0, 0]);
    for (at, numbers) in numbers.iter().enumerate() {
        let held = [store.counts[at], store.tallies[at]];
        assert_eq!(held, *numbers, "M {m}, number {at}");
    }
    for (range, at) in order.into_iter().zip(1..) {
        assert_eq!(place(range, levels), at, "range {range} of {levels} levels");
    }
}

/// Trees of 8 to 13 levels, as rebuilding writes them by an insert and a delete, and as
/// mending does. N is half of the M that face 0 of the size step makes.
#[test]
fn counts_in_tree_order() {
    let mut random = SplitMix64::new(301);
    for (n, levels) in [
        (1024, 8),
        (2047, 9),
        (4096, 10),
        (8000, 11),
        (16_000, 12),
        (40_000, 13),
        (65_535, 13),
    ] {
        let mut store = sheet(n, &mut random);
        let mut tape = words(&mut random, 32_768);
        tape[0] = 0;
        assert_eq!(insert(&mut store, n / 3, 5, &tape).values()[0], n + 1);
        assert!((2 * n..2 * n + 2).contains(&m(&store)));
        assert_eq!(height(m(&store)) + 1, levels, "N {n}");
        stands_in_tree_order(&store);
        let sound = store.clone();
        store.counts[SIZE + 1..].fill(u32::MAX);
        store.tallies.fill(7);
        assert_eq!(mend(&mut store), Answer::Mended { n: n + 1 });
        assert!(store == sound);
        // M ≥ 2N − 2 for the longer list: face 1 sets M anew, to its N + 1.
        assert_eq!(
            delete(&mut store, n / 5, &[&[1], &tape[1..]].concat()).values()[0],
            n
        );
        assert_eq!(m(&store), n + 2);
        stands_in_tree_order(&store);
    }
}

/// M after a call on a sheet of n boats and size M, whose tape begins with these words.
fn size_after(
    (n, m): (usize, usize),
    words: &[u32],
    call: impl Fn(&mut Store, &[u32]) -> Answer,
) -> usize {
    let mut store = boats_in(n, m, &mut SplitMix64::new(318)).plain;
    let answer = call(&mut store, &[words, &[1; 9000]].concat());
    let n = answer.values()[0];
    assert_eq!((answer.number(), check(&store)), (0, Answer::Checked { n }));
    crate::common::m(&store)
}

/// 01: "Insert, M = N: M becomes 2N + a draw among 2. Insert otherwise: draw among N + 1;
/// face 0 makes M = 2N + a draw among 2; else M is kept." N + 1 is 65,536, so that no word
/// is passed over.
#[test]
fn the_size_step_of_the_last_insert() {
    let insert = |store: &mut Store, tape: &[u32]| insert(store, 9, 9, tape);
    let after = |m: usize, words: &[u32]| size_after((65_535, m), words, insert);
    for word in [0, 65_536, 7 * 65_536, u32::MAX - 65_535] {
        assert_eq!(after(70_000, &[word, 4]), 131_070);
        assert_eq!(after(70_000, &[word, u32::MAX]), 131_071);
    }
    for word in [1, 65_535, 65_537, 131_070, u32::MAX - 1, u32::MAX] {
        assert_eq!(after(70_000, &[word, 0, 0]), 70_000, "{word}");
    }
    assert_eq!(after(65_535, &[4]), 131_070);
    assert_eq!(after(65_535, &[65_535]), 131_071);
    // The highest word gives face 65,535 as that number does: the same words are read.
    let sound = boats_in(65_535, 70_000, &mut SplitMix64::new(319)).plain;
    let [one, other] = [65_535, u32::MAX].map(|word| {
        let mut store = sound.clone();
        let answer = insert(&mut store, &[&[word], &[3; 9000][..]].concat());
        (answer, store)
    });
    assert!(one == other);
}

/// 01: "Delete with M ≥ 2N − 2: draw f among 2N − 2; M becomes N + f if f < N − 2, else
/// N − 1. Delete otherwise: M is kept, no draw." N is 65,536 and 2N − 2 is 131,070.
#[test]
fn the_size_step_of_a_delete_from_a_full_sheet() {
    let delete = |store: &mut Store, tape: &[u32]| delete(store, 9, tape);
    for m in [131_070, 131_071] {
        for (word, after) in [
            (0, 65_536),
            (1, 65_537),
            (65_533, 131_069),
            (65_534, 65_535),
            (65_535, 65_535),
            (65_536, 65_535),
            (131_069, 65_535),
            (131_070, 65_536),
            (131_071, 65_537),
        ] {
            assert_eq!(size_after((FULL, m), &[word], delete), after, "word {word}");
        }
    }
    for m in [65_536, 70_000, 131_069] {
        assert_eq!(size_after((FULL, m), &[0], delete), m);
    }
}

/// All calls and mending on slices of these lengths: cause 1 whatever stands in them, and
/// nothing changes.
fn refuse_lengths<T: Number>([slots, counts, tallies]: [usize; 3]) {
    for value in [0, 7] {
        let (mut slots, mut counts, mut tallies) = slices::<T>(slots, counts, tallies);
        slots.fill(value);
        counts.fill(T::low_bits(value));
        tallies.fill(T::low_bits(value));
        let before = (slots.clone(), counts.clone(), tallies.clone());
        let calls = all_calls(&mut slots, &mut counts, &mut tallies, 9, 0);
        assert_eq!(calls, [1; 7]);
        let mended = reference::calls::mend(&slots, &mut counts, &mut tallies);
        assert_eq!(mended, Answer::Refused(Cause::Lengths));
        assert!((slots, counts, tallies) == before);
    }
}

/// Each slice one too short and one too long, empty, and as long as another one.
#[test]
fn cause_1_lengths() {
    let right = [FEDERATION.slots, FEDERATION.counts, FEDERATION.counts];
    for slice in 0..3 {
        let other = right[(slice + 1) % 2];
        for length in [right[slice] - 1, right[slice] + 1, 0, other + slice / 2] {
            let mut lengths = right;
            lengths[slice] = length;
            refuse_lengths::<u32>(lengths);
        }
    }
    refuse_lengths::<u32>([0; 3]);
}

/// The clubs' lengths with counts of 32 bits, the federation's with counts of 16, and some
/// slices of one with the others of the other.
#[test]
fn cause_1_for_the_lengths_of_the_other_store() {
    let [clubs, federation] = [CLUBS, FEDERATION].map(|of| [of.slots, of.counts, of.counts]);
    refuse_lengths::<u32>(clubs);
    refuse_lengths::<u16>(federation);
    for slice in 0..3 {
        let (mut wide, mut small) = (federation, clubs);
        wide[slice] = clubs[slice];
        small[slice] = federation[slice];
        refuse_lengths::<u32>(wide);
        refuse_lengths::<u32>(small);
        refuse_lengths::<u16>(wide);
        refuse_lengths::<u16>(small);
    }
}

/// What six calls return where cause 2 refuses them, and clear.
const REFUSED_2: [u8; 7] = [2, 2, 2, 2, 2, 2, 0];

/// The store is no sheet: all calls but clear meet cause 2, also with entry zero and a rank
/// too large, and clear empties it.
fn no_sheet(mut store: Store) {
    let before = store.clone();
    let insert = insert(&mut store, 0, 5, &[0; 64]);
    let delete = delete(&mut store, 0, &[0; 64]);
    assert_eq!([insert, delete], [Answer::Refused(Cause::NotASheet); 2]);
    assert!(store == before);
    let (slots, counts) = (&mut store.slots, &mut store.counts);
    let numbers = all_calls(slots, counts, &mut store.tallies, usize::MAX - 9, 0);
    assert_eq!(numbers, REFUSED_2);
    assert!(store == Store::cleared());
}

/// Stores one or two changes away from a sheet are judged as their layout says.
#[test]
fn cause_2_on_damaged_sheets() {
    let mut random = SplitMix64::new(302);
    let mut sheets = 0;
    for n in LENGTHS {
        let sound = sheet(n, &mut random);
        let times = if n < 5000 { 60 } else { 25 };
        sheets += judged_as_laid_out(&sound, times, &mut random);
    }
    assert!(sheets > 50);
}

/// Single slots, counts and tallies, used ones and unused ones, the last ones among them;
/// of the numbers also bits that 16 bits do not have.
#[test]
fn cause_2_for_each_number() {
    let mut random = SplitMix64::new(303);
    for n in [0, 65, 1025, 65_536] {
        let sound = sheet(n, &mut random);
        let some = [0, 1, 2, 255, 256, 4095, 4096, 8191];
        let numbers = some.into_iter().chain((0..8).map(|_| random.below(8192)));
        for (number, bits) in numbers.zip([1, 1 << 16, 1 << 31].into_iter().cycle()) {
            let mut store = sound.clone();
            turn(&mut store.tallies[number], bits);
            assert_eq!(check(&store).number(), 2, "N {n}, tally {number}");
            // M alone may be another one, that of another sheet.
            if number > 0 || bits > 1 {
                let mut store = sound.clone();
                turn(&mut store.counts[number], bits);
                assert_eq!(check(&store).number(), 2, "N {n}, count {number}");
            }
        }
        let unused = leaf_slots(m(&sound)) << height(m(&sound));
        for slot in [unused, 208_895]
            .into_iter()
            .filter(|&slot| slot >= unused && slot < 208_896)
        {
            let mut store = sound.clone();
            store.slots[slot] = 1;
            no_sheet(store);
        }
    }
}

/// Counts that 16 bits would hold as those of a sheet: 65,536 more in a range and in one of
/// its halves.
#[test]
fn cause_2_for_numbers_beyond_16_bits() {
    let mut random = SplitMix64::new(304);
    let sound = sheet(5000, &mut random);
    for ranges in [&[1][..], &[1, 2], &[1, 3], &[1, 2, 4], &[1, 3, 7]] {
        for number in ranges
            .iter()
            .map(|&range| Order::Tree.place(range, m(&sound)))
        {
            let mut store = sound.clone();
            store.counts[number] += 65_536;
            no_sheet(store.clone());
            store = sound.clone();
            store.tallies[number] += 65_536;
            no_sheet(store);
        }
        let mut store = sound.clone();
        for number in ranges
            .iter()
            .map(|&range| Order::Tree.place(range, m(&sound)))
        {
            store.counts[number] += 65_536;
        }
        no_sheet(store);
    }
    let mut store = sound;
    store.counts[SIZE] += 65_536;
    no_sheet(store);
}

/// Lists that the size rules allow and that are one and more too long: M and the slots still
/// have room for them.
#[test]
fn cause_2_for_more_than_65536_entries() {
    let mut random = SplitMix64::new(305);
    for (n, m) in [(65_537, 65_537), (65_537, 131_071), (70_000, 100_000)] {
        let store = boats_in::<u32>(n, m, &mut random);
        no_sheet(store.plain.clone());
        refused(&store);
    }
}

#[test]
fn cause_3_entry_zero() {
    let mut random = SplitMix64::new(306);
    for n in [0, 1024, 2047, FULL] {
        let mut store = sheet(n, &mut random);
        let before = store.clone();
        // Before cause 4, cause 5 and cause 7.
        for rank in [0, n, n + 1, 1 << 32, usize::MAX] {
            let answer = insert(&mut store, rank, 0, &[]);
            assert_eq!(answer, Answer::Refused(Cause::EntryZero));
        }
        assert!(store == before);
    }
}

/// Ranks that are too large by one and by more; some have small lower 16 or 32 bits.
#[test]
fn cause_4_rank() {
    let mut random = SplitMix64::new(307);
    let refused = Answer::Refused(Cause::Rank);
    for n in [0, 1, 1024, 1025, 4096, FULL] {
        let mut store = sheet(n, &mut random);
        let before = store.clone();
        let huge = [n + (1 << 16), n + (1 << 32), 1 << 32, usize::MAX];
        for beyond in [n + 1].into_iter().chain(huge) {
            assert_eq!(insert(&mut store, beyond, 7, &[]), refused);
        }
        for beyond in [n, n + 1].into_iter().chain(huge) {
            assert_eq!(delete(&mut store, beyond, &[]), refused);
            assert_eq!(place_of(&store, beyond), refused);
            // Before cause 6: the output is too short as well.
            assert_eq!(read(&store, 0, beyond, &mut []), refused);
            assert_eq!(read(&store, beyond, 0, &mut [0; 9]), refused);
            assert_eq!(board(&store, &[beyond as u64], &mut []), refused);
        }
        assert_eq!(read(&store, 4, 3, &mut [0; 9]), refused);
        assert!(store == before);
    }
}

/// 02, F-14: "Causes 1 and 5 read the larger numbers on such a store." At 65,536 and at no
/// other length, and there before cause 7.
#[test]
fn cause_5_full() {
    let mut random = SplitMix64::new(308);
    for n in [1023, 1024, 1025, 2047, 2048, 32_768, 65_535] {
        let mut store = sheet(n, &mut random);
        let tape = words(&mut random, 32_768);
        let answer = insert(&mut store, n, 9, &tape);
        assert_eq!((answer.number(), answer.values()[0]), (0, n + 1));
        assert_eq!(check(&store), Answer::Checked { n: n + 1 });
        assert_eq!(list(&store), [boats(n as u64), vec![9]].concat());
    }
    let mut store = sheet(FULL, &mut random);
    let before = store.clone();
    for tape in [&[][..], &[1, 2, 3], &[0; 9000]] {
        for rank in [0, 1024, FULL] {
            let answer = insert(&mut store, rank, 7, tape);
            assert_eq!(answer, Answer::Refused(Cause::Full));
        }
        let answer = insert(&mut store, FULL + 1, 7, tape);
        assert_eq!(answer, Answer::Refused(Cause::Rank));
    }
    assert!(store == before);
}

/// A read of the whole and of parts, with an output one too short, just long enough, and
/// longer.
#[test]
fn cause_6_output() {
    let mut random = SplitMix64::new(309);
    for n in [1025, 4096, FULL] {
        let store = sheet(n, &mut random);
        let list = boats(n as u64);
        for (first, last) in [
            (0, 0),
            (0, n - 1),
            (n / 3, n / 2),
            (1000, 1024),
            (n - 1, n - 1),
        ] {
            let entries = last - first + 1;
            let mut output = vec![0x77; entries - 1];
            let answer = read(&store, first, last, &mut output);
            assert_eq!(answer, Answer::Refused(Cause::Output));
            assert!(output.iter().all(|&entry| entry == 0x77));
            let mut output = vec![0x77; entries + 3];
            let answer = read(&store, first, last, &mut output);
            assert_eq!(answer, Answer::Read { entries });
            assert!(output[..entries] == list[first..=last]);
            assert_eq!(output[entries..], [0x77; 3]);
        }
    }
}

/// A rebuilt sheet reads a word for each range with more than one candidate. The tape cut
/// at some places before the last word read is refused, and nothing changes.
#[test]
fn cause_7_tape_ends() {
    let mut random = SplitMix64::new(310);
    for n in [1024, 2047, 65_535] {
        let sound = sheet(n, &mut random);
        let mut tape = words(&mut random, 32_768);
        tape[0] = 0;
        let mut changed = sound.clone();
        let [_, read, _] = insert(&mut changed, 3, 9, &tape).values();
        assert!(read > n / 50);
        let mut store = sound.clone();
        let some: Vec<usize> = (0..5).map(|_| random.below(read)).collect();
        for end in [0, 1, 2, read - 1].into_iter().chain(some) {
            let answer = insert(&mut store, 3, 9, &tape[..end]);
            assert_eq!(answer, Answer::Refused(Cause::TapeEnds));
            assert!(store == sound, "N {n}, {end} words");
        }
        let answer = insert(&mut store, 3, 9, &tape[..read]);
        assert_eq!(answer.values()[..2], [n + 1, read]);
        assert!(store == changed);
    }
}

/// The order 16, 4, 6 on a long list; each rank is read as it stands.
#[test]
fn boards() {
    let mut random = SplitMix64::new(311);
    for n in [1025, FULL] {
        let (store, list) = (sheet(n, &mut random), boats(n as u64));
        let last = n as u64 - 1;
        let mut ranks: Vec<u64> = (0..62).map(|_| random.below(n) as u64).collect();
        ranks.extend([1024, last]);
        ranks.sort_unstable();
        let mut output = [0x55; 65];
        let answer = board(&store, &ranks, &mut output);
        assert_eq!(answer, Answer::Read { entries: 64 });
        let entries: Vec<u64> = ranks.iter().map(|&rank| list[rank as usize]).collect();
        assert_eq!((&output[..64], output[64]), (&entries[..], 0x55));
        let refuses = |ranks: &[u64], room: usize, cause| {
            let mut output = [0x55; 70];
            let answer = board(&store, ranks, &mut output[..room]);
            assert_eq!((answer, output), (Answer::Refused(cause), [0x55; 70]));
        };
        refuses(&[0; 65], 70, Cause::Board);
        refuses(&[last, last - 1], 70, Cause::Board);
        refuses(&[last + 1, last], 0, Cause::Board);
        for too_large in [last + 1, last + (1 << 16) + 1, 1 << 32, u64::MAX] {
            refuses(&[0, last, too_large], 0, Cause::Rank);
        }
        refuses(&[0, last, last], 2, Cause::Output);
    }
}

/// 65,536 boats in one group: the places 1 to 65,536 are 2,147,516,416 points. Bit 63 at
/// rank 0 has no effect.
#[test]
fn places_of_65536_tied_boats() {
    for first in [10, 10 | TIED] {
        let mut list: Vec<u64> = (1..=FULL as u64).map(|k| 10 * k | TIED).collect();
        list[0] = first;
        let store = lay_out_as::<u32>(&list, 100_000, |_, _, _| 0);
        for rank in [0, 1, 1024, 40_000, 65_535] {
            let answer = place_of(&store, rank);
            assert_eq!(
                (answer.number(), answer.values()),
                (0, [1, 2_147_516_416, 65_536])
            );
        }
    }
}

/// Without ties each boat has the place and the points of her rank, the last one 65,536.
#[test]
fn places_of_65536_boats() {
    let list: Vec<u64> = (1..=FULL as u64).collect();
    let store = lay_out_as::<u32>(&list, FULL, |_, _, c| c - 1);
    assert_eq!(store.tallies[..2], [0, 65_536]);
    for rank in [0, 1023, 1024, 40_000, 65_534, 65_535] {
        let answer = place_of(&store, rank);
        let values = [rank + 1, rank + 1, 1];
        assert_eq!((answer.number(), answer.values()), (0, values));
    }
}

/// Groups of any length, and retired boats among them.
#[test]
fn places_on_long_lists() {
    let mut random = SplitMix64::new(312);
    for (n, ties) in [(1025, 8), (4096, 15), (65_536, 8), (65_536, 255)] {
        let mut bits = || {
            let tied = u64::from(random.below(256) < ties) << 63;
            tied | u64::from(random.below(256) < 16) << 62
        };
        let list: Vec<u64> = (1..=n as u64).map(|k| 10 * k | bits()).collect();
        let store = lay_out_as::<u32>(&list, n, |_, _, c| c / 2);
        let some: Vec<usize> = (0..20).map(|_| random.below(n)).collect();
        for rank in [0, 1, 1023, 1024, n - 1].into_iter().chain(some) {
            let values = values_by_words(&list, rank);
            assert_eq!(place_of(&store, rank).values(), values, "N {n} rank {rank}");
        }
    }
}

/// Clear makes any contents the empty sheet.
#[test]
fn clear_empties_all_slices() {
    let mut store = Store::cleared();
    store.slots.fill(u64::MAX);
    store.counts.fill(u32::MAX);
    store.tallies.fill(u32::MAX);
    no_sheet(store);
    assert_eq!(check(&Store::cleared()), Answer::Checked { n: 0 });
}

/// All numbers spoiled at once: random ones, zeros, the largest, and one entry too many.
#[test]
fn spoiled_numbers_are_mended() {
    let mut random = SplitMix64::new(313);
    for n in LENGTHS {
        let sheet = boats_in::<u32>(n, some_size(n, &mut random), &mut random);
        mends_to(&sheet, &sheet);
        mends_to(&spoiled(&sheet, &mut random), &sheet);
        for value in [0, u64::MAX, 65_537] {
            let mut store = sheet.clone();
            numbers(&mut store).fill(|| value);
            mends_to(&store, &sheet);
        }
    }
}

/// Single numbers, also by bits that 16 bits do not have.
#[test]
fn each_number_spoiled_alone() {
    let mut random = SplitMix64::new(314);
    let all = numbers_of(FEDERATION);
    for n in [0, 65, 1025, 65_536] {
        let sheet = boats_in::<u32>(n, some_size(n, &mut random), &mut random);
        let some: Vec<usize> = (0..6).map(|_| random.below(all)).collect();
        for number in [0, 8190, 8191, 16_382, 16_383, all - 1]
            .into_iter()
            .chain(some)
        {
            let mut store = sheet.clone();
            numbers(&mut store).turn(number, 1 << random.below(32));
            assert!(store != sheet);
            mends_to(&store, &sheet);
        }
    }
}

/// Slots changed, and entries moved from a leaf to the next one: mended to another sheet, or
/// refused by 18, as the layout says.
#[test]
fn cause_18_where_slots_changed() {
    let mut random = SplitMix64::new(315);
    let mut met = Met::default();
    for n in [1, 65, 1025, 4096, 65_536] {
        for _ in 0..if n < 5000 { 15 } else { 4 } {
            let sheet = boats_in::<u32>(n, some_size(n, &mut random), &mut random);
            let (m, leaves) = (m(&sheet.plain), 1 << height(m(&sheet.plain)));
            let used = leaf_slots(m) * leaves;
            let mut store = spoiled(&sheet, &mut random);
            let end = [used, FEDERATION.slots][random.below(2)];
            change_slots(&mut store.plain.slots[..end], &mut random);
            met.note(as_searched(&store));
            if leaves > 1 {
                let mut store = sheet;
                let (leaf, on) = (random.below(leaves - 1), random.below(2) == 0);
                move_between_leaves(&mut store.plain, leaf, on);
                met.note(as_searched(&store));
            }
        }
    }
    met.assert_met(10, 40);
}

/// M beyond 131,071 is refused, whatever its lower bits; so is an M that these slots do not
/// have.
#[test]
fn cause_18_where_m_changed() {
    let mut random = SplitMix64::new(316);
    for (n, m) in [
        (1025, 2000),
        (2047, 4093),
        (65_536, 65_536),
        (65_536, 131_071),
    ] {
        let sheet = boats_in::<u32>(n, m, &mut random);
        let beyond = [
            131_072,
            131_073,
            m + 131_072,
            m + (1 << 18),
            u32::MAX as usize,
        ];
        for size in [0, 1, n - 1, 2 * n].into_iter().chain(beyond) {
            let mut store = sheet.clone();
            store.plain.counts[SIZE] = size as u32;
            assert!(!as_searched(&store), "M {size}");
        }
        // The sizes beside it may have the same shape.
        for size in [m - 1, m + 1] {
            let mut store = sheet.clone();
            store.plain.counts[SIZE] = size as u32;
            as_searched(&store);
        }
    }
}

/// A plain store is mended where the list does not rise, and a timed one is not.
#[test]
fn cause_18_where_the_list_does_not_rise() {
    let mut random = SplitMix64::new(317);
    for n in [1025, 65_536] {
        for bits in [TIED, RETIRED] {
            let mut list = boats(n);
            list[1024] = list[1023] ^ bits;
            let m = some_size(n as usize, &mut random);
            let sheet = lay_out_as::<u32>(&list, m, |_, _, c| random.below(c));
            let store = spoiled(&with_third_slice(sheet.clone()), &mut random);
            comes_to(&store, Some(&sheet), None);
        }
    }
}
