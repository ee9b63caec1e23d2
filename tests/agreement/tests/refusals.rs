//! Damaged stores, other tallies, stores by the former leaf rule and in the former
//! order, wrong lengths, and tapes that end at every place, on both.

use agreement::histories::{with_bits, Bits};
use agreement::stores::{other_tallies, sheet_of_size, tape};
use agreement::{Both, Call, Store};
use reference::layout::{Shape, SIZE, TALLIES};
use reference::places::RETIRED;
use reference::random::SplitMix64;

/// What the eight calls return where counts or tallies alone are wrong: clear and mend
/// accept the store.
const REFUSED_2: [u64; 8] = [2, 2, 2, 2, 2, 2, 0, 0];
/// The same where no sheet has these slots and this M.
const NOT_MENDABLE: [u64; 8] = [2, 2, 2, 2, 2, 2, 0, 18];

/// A sheet of n entries.
fn sheet(seed: u64, n: usize) -> Store {
    let mut random = SplitMix64::new(seed);
    let mut both = Both::new(seed, Store::unused());
    both.call(Call::Clear);
    while both.store.n() < n {
        let tape = tape(&mut random);
        let (rank, entry) = (random.below(both.store.n() + 1), random.entry());
        let entry = with_bits(&mut random, entry | 1, Bits::SOME);
        both.call(Call::Insert { rank, entry, tape });
    }
    both.store
}

/// The eight calls on a store, each from the start: the numbers of their causes. A
/// refused call leaves the store as it was.
fn all_calls(seed: u64, store: &Store) -> [u64; 8] {
    let words = tape(&mut SplitMix64::new(seed));
    [
        Call::Check,
        Call::Insert { rank: 0, entry: 3, tape: words.clone() },
        Call::Delete { rank: 0, tape: words },
        Call::Read { first: 0, last: 0, output: vec![5; 2] },
        Call::Board { ranks: vec![0, 0], output: vec![5; 3] },
        Call::Place { rank: 0 },
        Call::Clear,
        Call::Mend,
    ]
    .map(|call| {
        let mut both = Both::new(seed, store.clone());
        let [number, ..] = both.call(call);
        assert!(number == 0 || both.store == *store);
        number
    })
}

#[test]
fn every_count_changed() {
    for (seed, n) in [(1, 0), (2, 5), (3, 70), (4, 300), (5, 1024)] {
        let before = sheet(seed, n);
        for k in 0..before.counts.len() {
            for change in [1, u16::MAX, 0x8000] {
                let mut store = before.clone();
                store.counts[k] = store.counts[k].wrapping_add(change);
                all_calls(seed, &store);
            }
        }
    }
}

#[test]
fn slots_changed() {
    for (seed, n) in [(11, 0), (12, 5), (13, 70), (14, 1024)] {
        let before = sheet(seed, n);
        let mut random = SplitMix64::new(seed);
        for _ in 0..1000 {
            let mut store = before.clone();
            let k = random.below(store.slots.len());
            store.slots[k] = if random.below(2) == 0 { 0 } else { random.entry() };
            all_calls(seed, &store);
        }
    }
}

/// Another bit 62, and the tallies stay.
#[test]
fn bit_62_of_every_entry_changed() {
    for (seed, n) in [(15, 1), (16, 5), (17, 70), (18, 300)] {
        let before = sheet(seed, n);
        let held = (0..before.slots.len()).filter(|k| before.slots[*k] != 0);
        for k in held {
            let mut store = before.clone();
            store.slots[k] ^= RETIRED;
            assert_eq!(all_calls(seed, &store), REFUSED_2, "N {n} slot {k}");
        }
    }
}

/// Number 0 and the unused ones too, which are zero on a sheet.
#[test]
fn every_tally_changed() {
    for (seed, n) in [(6, 0), (7, 5), (8, 64), (9, 70), (10, 1024)] {
        let before = sheet(seed, n);
        for k in 0..TALLIES {
            for change in [1, u16::MAX, 0x8000] {
                let mut store = before.clone();
                store.tallies[k] = store.tallies[k].wrapping_add(change);
                assert_eq!(all_calls(seed, &store), REFUSED_2, "N {n} number {k}");
            }
        }
    }
}

/// Tallies by other rules, in another order, and of other sheets of the list.
#[test]
fn wrong_tallies() {
    let mut random = SplitMix64::new(63);
    for n in [3, 40, 65, 70, 130, 300, 700, 1024] {
        for m in [n, n + random.below(n), 2 * n - 1] {
            let list: Vec<u64> = (0..n as u64).map(|k| with_bits(&mut random, k + 1, Bits::SOME)).collect();
            let sheet = sheet_of_size(&list, m, &mut random);
            assert_eq!(Both::new(63, sheet.clone()).call(Call::Check), [0, n as u64, 0, 0], "N {n} M {m}");
            for (rule, tallies) in other_tallies(&sheet, &mut random) {
                let store = Store { tallies, ..sheet.clone() };
                assert_eq!(all_calls(63, &store), REFUSED_2, "N {n} M {m}, {rule}");
            }
        }
    }
}

/// A store from before the tallies, with no retired boat, gets a copy of its counts
/// with 0 for number 0.
#[test]
fn tallies_of_a_former_store() {
    let mut random = SplitMix64::new(64);
    for n in [0, 1, 40, 64, 65, 130, 1024] {
        for m in [n, n + random.below(n.max(1)), (2 * n).max(1) - 1] {
            let list: Vec<u64> = (0..n).map(|_| random.entry() & !RETIRED | 1).collect();
            let mut store = sheet_of_size(&list, m, &mut random);
            store.tallies = store.counts.clone();
            store.tallies[0] = 0;
            assert_eq!(Both::new(64, store).call(Call::Check), [0, n as u64, 0, 0], "N {n} M {m}");
        }
    }
}

/// The store with the entries of each leaf moved to the slots ⌊k × s / n⌋.
fn by_the_leaf_rule_of_01(sheet: &Store) -> Store {
    let mut store = sheet.clone();
    let shape = Shape::of(usize::from(sheet.counts[SIZE]));
    for leaf in store.slots[..shape.slots()].chunks_exact_mut(shape.leaf_slots.max(1)) {
        let entries: Vec<u64> = leaf.iter().copied().filter(|entry| *entry != 0).collect();
        leaf.fill(0);
        for (k, entry) in entries.iter().enumerate() {
            leaf[k * leaf.len() / entries.len()] = *entry;
        }
    }
    store
}

/// The leaf rule of document 01, which document 02, F-2, replaces: every call
/// that tests the sheet meets cause 2, save where both rules give the same slots.
/// They do only where every leaf is full or empty, so for N = M ≤ 64.
#[test]
fn leaf_rule_of_document_01() {
    let mut random = SplitMix64::new(61);
    let (mut accepted, mut refused) = (0, 0);
    for n in 0..=1024 {
        let list: Vec<u64> = (0..n).map(|_| random.entry()).collect();
        for m in [n, n + random.below(n.max(1)), n + random.below(n.max(1)), (2 * n).max(1) - 1] {
            let sheet = sheet_of_size(&list, m, &mut random);
            assert_eq!(Both::new(61, sheet.clone()).call(Call::Check), [0, n as u64, 0, 0], "N {n} M {m}");
            let store = by_the_leaf_rule_of_01(&sheet);
            let same = store == sheet;
            assert_eq!(same, n == m && m <= 64, "N {n} M {m}");
            let numbers = match (same, n) {
                (false, _) => NOT_MENDABLE,
                (true, 0) => [0, 0, 4, 4, 4, 4, 0, 0],
                (true, _) => [0; 8],
            };
            assert_eq!(all_calls(61, &store), numbers, "N {n} M {m}");
            accepted += u32::from(same);
            refused += u32::from(!same);
        }
    }
    assert!(accepted > 0 && refused > 0, "{accepted} accepted, {refused} refused");
}

/// The order of document 01, which document 02, F-5, replaces: every call that
/// tests the sheet meets cause 2 where M > 64. Converted, the store is the sheet
/// again.
#[test]
fn number_order() {
    let mut random = SplitMix64::new(62);
    for n in (0..=130).chain((131..=1024).step_by(7)) {
        let list: Vec<u64> = (0..n).map(|_| random.entry()).collect();
        for m in [n, n + random.below(n.max(1)), (2 * n).max(1) - 1] {
            let sheet = sheet_of_size(&list, m, &mut random);
            let mut both = Both::new(62, sheet.clone());
            assert_eq!(both.call(Call::ToNumberOrder), [0, m as u64, 0, 0]);
            assert_eq!(both.store == sheet, m <= 64, "N {n} M {m}");
            if m > 64 {
                assert_eq!(all_calls(62, &both.store), REFUSED_2, "N {n} M {m}");
            }
            assert_eq!(both.call(Call::ToTreeOrder), [0, m as u64, 0, 0]);
            assert!(both.store == sheet, "N {n} M {m}");
            assert_eq!(both.call(Call::Check), [0, n as u64, 0, 0], "N {n} M {m}");
        }
    }
}

#[test]
fn wrong_lengths() {
    let lengths = [
        (0, 0, 0),
        (4223, 256, 256),
        (4225, 256, 256),
        (0, 256, 256),
        (4224, 255, 256),
        (4224, 257, 256),
        (4224, 0, 256),
        (4224, 256, 255),
        (4224, 256, 257),
        (4224, 256, 0),
        (4224, 256, 4224),
    ];
    for before in [sheet(21, 40), sheet(22, 200), Store::cleared(), Store::unused()] {
        for (slots, counts, tallies) in lengths {
            let mut store = before.clone();
            store.slots.resize(slots, 0);
            store.counts.resize(counts, 0);
            store.tallies.resize(tallies, 0);
            assert_eq!(all_calls(21, &store), [1; 8], "{slots} slots, {counts} counts, {tallies} tallies");
        }
    }
}

/// What a smaller sheet does not use is zero again.
#[test]
fn down_to_nothing() {
    for (seed, n) in [(41, 70), (42, 300), (43, 1024)] {
        let mut both = Both::new(seed, sheet(seed, n));
        let mut random = SplitMix64::new(seed);
        while both.store.n() > 0 {
            let rank = random.below(both.store.n());
            assert_eq!(both.call(Call::Delete { rank, tape: tape(&mut random) })[0], 0);
        }
        assert!(both.store == Store::cleared());
    }
}

#[test]
fn tapes_that_end() {
    for (seed, n) in [(31, 1), (32, 3), (33, 64), (34, 80), (35, 200)] {
        let before = sheet(seed, n);
        let mut random = SplitMix64::new(seed);
        for _ in 0..20 {
            let words = tape(&mut random);
            let rank = random.below(n);
            let entry = with_bits(&mut random, 9, Bits::SOME);
            for call in [0, 1] {
                let made = |length: usize| match call {
                    0 => Call::Insert { rank, entry, tape: words[..length].to_vec() },
                    _ => Call::Delete { rank, tape: words[..length].to_vec() },
                };
                let [_, _, read, _] = Both::new(seed, before.clone()).call(made(words.len()));
                for length in 0..read as usize {
                    let mut both = Both::new(seed, before.clone());
                    assert_eq!(both.call(made(length)), [7, 0, 0, 0]);
                    assert!(both.store == before);
                }
            }
        }
    }
}
