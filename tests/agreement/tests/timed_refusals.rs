//! Timed stores damaged in each of the four slices, entries that do not rise or are
//! zero without bits 63 and 62, wrong lengths, the order of the causes, entries that
//! are there, tapes that end at every place, and short outputs, on both.

use agreement::histories::Bits;
use agreement::stores::{other_tallies, rising, tape};
use agreement::timed::{Call, Store};
use agreement::Both;
use reference::conversions::to_number_order;
use reference::layout::{COUNTS, SLOTS, TALLIES};
use reference::order::place;
use reference::places::{RETIRED, TIED};
use reference::random::SplitMix64;
use reference::sizes::Size;
use reference::timed::BALANCE;

/// An entry below all those of a sheet made here.
const LOWEST: u64 = 3;
/// What the nine calls return where counts or tallies are wrong, and where the third
/// slice alone is: clear and mend accept the store.
const REFUSED_2: [u64; 9] = [2, 2, 2, 2, 2, 2, 2, 0, 0];
const REFUSED_11: [u64; 9] = [11, 11, 11, 11, 11, 11, 11, 0, 0];
/// The same where the list is that of no timed sheet.
const NOT_MENDABLE: [u64; 9] = [11, 11, 11, 11, 11, 11, 11, 0, 18];
/// An entry with these bits alone has no key.
const BITS: [u64; 3] = [TIED, RETIRED, TIED | RETIRED];

/// A timed sheet of n entries, of any size that it can have.
fn sheet(seed: u64, n: usize) -> Store {
    let mut random = SplitMix64::new(seed);
    let list = rising(n, Bits::SOME, &mut random);
    let m = n + random.below(n.max(1));
    Store::of_size(&list, m, &mut random)
}

/// The nine calls on a store, each from the start: the numbers of their causes.
/// A refused call leaves the store as it was.
fn all_calls(seed: u64, store: &Store) -> [u64; 9] {
    let words = tape(&mut SplitMix64::new(seed));
    [
        Call::Check,
        Call::Insert { entry: LOWEST, tape: words.clone() },
        Call::Delete { rank: 0, tape: words },
        Call::Find { entry: LOWEST },
        Call::Read { first: 0, last: 0, output: vec![5; 2] },
        Call::Board { ranks: vec![0, 0], output: vec![5; 3] },
        Call::Place { rank: 0 },
        Call::Clear,
        Call::Mend,
    ]
    .map(|call| {
        let mut both = Both::new(seed, store.clone());
        let [number, ..] = both.call(call);
        assert!(number == 0 || both.store == *store);
        number
    })
}

#[test]
fn every_count_changed() {
    for (seed, n) in [(6001, 0), (6002, 5), (6003, 70), (6004, 300), (6005, 1024)] {
        let before = sheet(seed, n);
        for k in 0..COUNTS {
            for change in [1, u16::MAX, 0x8000] {
                let mut store = before.clone();
                store.counts[k] = store.counts[k].wrapping_add(change);
                all_calls(seed, &store);
            }
        }
    }
}

/// Each number, and slices by other rules: cause 2, whether the third slice is right
/// or not.
#[test]
fn wrong_tallies() {
    for (seed, n) in [(6006, 5), (6007, 70), (6008, 1024)] {
        let before = sheet(seed, n);
        let mut wrong = other_tallies(&before.plain(), &mut SplitMix64::new(seed));
        for k in 0..TALLIES {
            let mut tallies = before.tallies.clone();
            tallies[k] ^= 1;
            wrong.push(("one number", tallies));
        }
        for (rule, tallies) in wrong {
            let mut store = Store { tallies, ..before.clone() };
            assert_eq!(all_calls(seed, &store), REFUSED_2, "N {n}, {rule}");
            store.balance[0] = 1;
            let check = Both::new(seed, store).call(Call::Check);
            assert_eq!(check, [2, 0, 0, 0], "N {n}, {rule}");
        }
    }
}

/// Zeros, entries in gaps, and other entries, with which the sheet may rise or not;
/// with the other bit 63 it rises, and the third slice may be wrong; with the other
/// bit 62 the tallies are.
#[test]
fn slots_changed() {
    for (seed, n) in [(6011, 0), (6012, 5), (6013, 70), (6014, 1024)] {
        let before = sheet(seed, n);
        let mut random = SplitMix64::new(seed);
        for _ in 0..1000 {
            let mut store = before.clone();
            let k = random.below((3 * n + 3).min(SLOTS));
            store.slots[k] = match random.below(5) {
                0 => 0,
                1 => random.entry(),
                2 => store.slots[k] ^ TIED,
                3 => store.slots[k] ^ RETIRED,
                _ => store.slots[k].wrapping_add(1),
            };
            all_calls(seed, &store);
        }
    }
}

/// Number 0 and the words from the leaves on too, which are zero on a sheet.
#[test]
fn every_word_of_the_third_slice_changed() {
    for (seed, n) in [(6021, 0), (6022, 5), (6023, 64), (6024, 70), (6025, 300), (6026, 1024)] {
        let before = sheet(seed, n);
        for k in 0..BALANCE {
            let held = before.balance[k];
            for wrong in [held ^ 1, held ^ BITS[k % 3], 0].into_iter().filter(|wrong| *wrong != held) {
                let mut store = before.clone();
                store.balance[k] = wrong;
                assert_eq!(all_calls(seed, &store), REFUSED_11, "N {n} word {k}");
            }
        }
    }
}

/// The third slices of other sheets of the same list, and a slice in tree order.
#[test]
fn another_third_slice() {
    let mut random = SplitMix64::new(6030);
    for n in [65, 100, 300, 1024] {
        for m in [n, 2 * n - 1] {
            let list = rising(n, Bits::SOME, &mut random);
            let sheet = Store::of_size(&list, m, &mut random);
            let levels = Size::new(m).height() + 1;
            let mut in_tree_order = vec![0; BALANCE];
            for k in 1..1 << levels {
                in_tree_order[place(k, levels)] = sheet.balance[k];
            }
            let of_another = Store::of_size(&list, m, &mut random).balance;
            let of_another_size = Store::of_size(&list, n + 1, &mut random).balance;
            for balance in [vec![0; BALANCE], in_tree_order, of_another, of_another_size] {
                assert!(balance != sheet.balance);
                let store = Store { balance, ..sheet.clone() };
                assert_eq!(all_calls(6030, &store), REFUSED_11, "N {n} M {m}");
            }
        }
    }
}

/// Counts in number order are no sheet where M > 64, whatever the third slice.
#[test]
fn number_order() {
    let mut random = SplitMix64::new(6035);
    for n in [65, 100, 300, 1024] {
        for m in [n, n + random.below(n), 2 * n - 1] {
            let mut store = Store::of_size(&rising(n, Bits::SOME, &mut random), m, &mut random);
            assert_eq!(to_number_order(&mut store.counts).number(), 0);
            assert_eq!(all_calls(6035, &store), REFUSED_2, "N {n} M {m}");
        }
    }
}

/// Neighbours whose keys fall or are equal, anywhere, in one leaf or in two,
/// whatever their bits; the third slice is that of their own balance entries.
#[test]
fn entries_that_do_not_rise() {
    let mut random = SplitMix64::new(6040);
    for (n, step) in [(2, 1), (5, 1), (64, 1), (70, 1), (300, 1), (1024, 3)] {
        for rank in (1..n).step_by(step) {
            let list = rising(n, Bits::SOME, &mut random);
            let (mut falls, mut stays, mut ties) = (list.clone(), list.clone(), list);
            falls.swap(rank - 1, rank);
            stays[rank] = stays[rank - 1];
            // With the bits these two entries rise.
            ties[rank - 1] &= !TIED & !RETIRED;
            ties[rank] = ties[rank - 1] | BITS[rank % 3];
            let m = n + random.below(n);
            for list in [falls, stays, ties] {
                let store = Store::of_size(&list, m, &mut random);
                assert_eq!(all_calls(6040, &store), NOT_MENDABLE, "N {n} M {m} rank {rank}");
            }
        }
    }
}

/// Zero without bits 63 and 62 at rank 0: a plain sheet, and no timed one.
#[test]
fn entries_without_a_key() {
    let mut random = SplitMix64::new(6045);
    for n in [1, 2, 5, 64, 70, 300, 1024] {
        for (m, bits) in [n, n + random.below(n), 2 * n - 1].into_iter().flat_map(|m| BITS.map(|bits| (m, bits))) {
            let mut list = rising(n, Bits::SOME, &mut random);
            list[0] = bits;
            let store = Store::of_size(&list, m, &mut random);
            assert_eq!(all_calls(6045, &store), NOT_MENDABLE, "N {n} M {m}");
            let check = Both::new(6045, store.plain()).call(agreement::Call::Check);
            assert_eq!(check, [0, n as u64, 0, 0], "N {n} M {m}");
        }
    }
}

/// The order 1, 2, 11, 3, 10, 5, 7 of an insert, and 1, 2, 11, 3 of a find.
#[test]
fn order_of_causes() {
    let full = sheet(6050, 1024);
    let there = full.entries().nth(500).unwrap();
    let causes = |store: &Store, there: u64| {
        [0, TIED, RETIRED, there, there ^ TIED, there ^ RETIRED, LOWEST].map(|entry| {
            let mut both = Both::new(6050, store.clone());
            let returned = both.call(Call::Insert { entry, tape: vec![] });
            assert_eq!(returned[1..], [0; 3]);
            returned[0]
        })
    };
    let find = |store: &Store, entry| Both::new(6050, store.clone()).call(Call::Find { entry });
    assert_eq!(causes(&full, there), [3, 3, 3, 10, 10, 10, 5]);
    assert_eq!([0, TIED, RETIRED].map(|entry| find(&full, entry)), [[3, 0, 0, 0]; 3]);
    let some = sheet(6051, 100);
    assert_eq!(causes(&some, some.entries().last().unwrap()), [3, 3, 3, 10, 10, 10, 7]);
    let mut store = full;
    store.balance[255] = 1;
    assert_eq!(causes(&store, there), [11; 7]);
    assert_eq!(find(&store, 0), [11, 0, 0, 0]);
    store.tallies[0] = 1;
    assert_eq!(causes(&store, there), [2; 7]);
    assert_eq!(find(&store, 0), [2, 0, 0, 0]);
    store.tallies[0] = 0;
    store.counts[200] += 1;
    assert_eq!(causes(&store, there), [2; 7]);
    assert_eq!(find(&store, 0), [2, 0, 0, 0]);
    store.tallies.pop();
    assert_eq!(causes(&store, there), [1; 7]);
    assert_eq!(find(&store, 0), [1, 0, 0, 0]);
    store.balance.pop();
    assert_eq!(causes(&store, there), [1; 7]);
    assert_eq!(find(&store, 0), [1, 0, 0, 0]);
}

/// Every entry of a sheet, full or not, with its bits 63 and 62 and with others; and
/// zero but for them.
#[test]
fn entries_that_are_there() {
    for (seed, n) in [(6061, 1), (6062, 64), (6063, 100), (6064, 1024)] {
        let before = sheet(seed, n);
        let mut both = Both::new(seed, before.clone());
        let mut insert = |entry| both.call(Call::Insert { entry, tape: vec![1; 2048] });
        for (entry, bits) in before.entries().zip(BITS.into_iter().cycle()) {
            assert_eq!([entry, entry ^ bits].map(&mut insert), [[10, 0, 0, 0]; 2], "N {n}");
        }
        assert_eq!(insert(0), [3, 0, 0, 0], "N {n}");
        assert_eq!(BITS.map(&mut insert), [[3, 0, 0, 0]; 3], "N {n}");
        assert!(both.store == before);
    }
}

#[test]
fn wrong_lengths() {
    let sheets = [sheet(6071, 40), sheet(6072, 200), Store::unused()];
    let lengths = [
        (4223, 256, 256, 256),
        (4225, 256, 256, 256),
        (4224, 255, 256, 256),
        (4224, 257, 256, 256),
        (4224, 256, 255, 256),
        (4224, 256, 257, 256),
        (4224, 256, 256, 255),
        (4224, 256, 256, 257),
        (4224, 256, 256, 0),
        (4224, 256, 0, 256),
        (4224, 0, 256, 256),
        (0, 256, 256, 256),
        (0, 0, 0, 0),
    ];
    for before in sheets {
        for (slots, counts, tallies, balance) in lengths {
            let mut store = before.clone();
            store.slots.resize(slots, 0);
            store.counts.resize(counts, 0);
            store.tallies.resize(tallies, 0);
            store.balance.resize(balance, 0);
            assert_eq!(all_calls(6071, &store), [1; 9], "{slots} slots, {counts} counts, {tallies} tallies, {balance} words");
        }
    }
}

#[test]
fn tapes_that_end() {
    for (seed, n) in [(6081, 1), (6082, 3), (6083, 64), (6084, 80), (6085, 200)] {
        let before = sheet(seed, n);
        let mut random = SplitMix64::new(seed);
        for _ in 0..20 {
            let words = tape(&mut random);
            let (rank, entry) = (random.below(n), random.entry());
            for call in [0, 1] {
                let made = |length: usize| match call {
                    0 => Call::Insert { entry, tape: words[..length].to_vec() },
                    _ => Call::Delete { rank, tape: words[..length].to_vec() },
                };
                let [_, _, read, _] = Both::new(seed, before.clone()).call(made(words.len()));
                for length in 0..read as usize {
                    let mut both = Both::new(seed, before.clone());
                    assert_eq!(both.call(made(length)), [7, 0, 0, 0]);
                    assert!(both.store == before);
                }
            }
        }
    }
}

#[test]
fn short_outputs() {
    let before = sheet(6091, 100);
    for (first, last) in [(0, 0), (0, 99), (40, 60), (99, 99), (50, 100), (60, 50)] {
        for room in 0..102 {
            let mut both = Both::new(6091, before.clone());
            both.call(Call::Read { first, last, output: vec![5; room] });
            assert!(both.store == before);
        }
    }
}
