//! Mending a spoiled sheet (02, F-13), plain and timed: counts, tallies and third
//! slices spoiled, slots and M changed, beside a search over all sheets; causes 1 and
//! 18, and that a refused store stays.

mod common;

use common::mending::*;
use common::*;
use reference::calls::{self, Answer, Cause};
use reference::layout::{COUNTS, SIZE, SLOTS, TALLIES};
use reference::places::{RETIRED, TIED};
use reference::random::SplitMix64;
use reference::spoils::{change_slots, NUMBERS, SIZES};
use reference::timed::{self, BALANCE};
use reference::timed_shares::Store;

/// A timed sheet of n boats and this size, with random balance entries.
fn sheet_of_size(n: usize, m: usize, random: &mut SplitMix64) -> Store {
    boats_in(n, m, random)
}

/// Such sheets of all the sizes.
fn sheets(seed: u64) -> impl Iterator<Item = Store> {
    let mut random = SplitMix64::new(seed);
    SIZES
        .into_iter()
        .map(move |(n, m)| sheet_of_size(n, m, &mut random))
}

/// A store with these slots and this M, all else spoiled.
fn of_slots(slots: &[u64], m: u16) -> Store {
    let mut store = Store::cleared();
    store.plain.slots[..slots.len()].copy_from_slice(slots);
    numbers(&mut store).fill(|| 9);
    store.plain.counts[SIZE] = m;
    store
}

/// M = 3: two entries stand in slots 0 and 2, three in slots 0, 1 and 2.
#[test]
fn small_stores_by_hand() {
    let mut store = of_slots(&[10 | RETIRED, 0, 20], 3);
    let (mut timed, mut sheet) = (store.clone(), Store::cleared());
    sheet.plain.slots[..3].copy_from_slice(&[10 | RETIRED, 0, 20]);
    sheet.plain.counts[..2].copy_from_slice(&[3, 2]);
    sheet.plain.tallies[..2].copy_from_slice(&[0, 1]);
    let answers = [mend(&mut store.plain), timed_mend(&mut timed)];
    assert_eq!(answers.map(Answer::values), [[2, 0, 0]; 2]);
    assert_eq!(answers.map(Answer::number), [0; 2]);
    assert!(store.plain == sheet.plain && timed == sheet);
    for slots in [[10, 20, 0], [0, 10, 20], [10, 0, 0], [0, 0, 0]] {
        refused(&of_slots(&slots, 3));
    }
    // Three entries that do not rise.
    let mut store = of_slots(&[10, 5, 20], 3);
    assert_eq!(timed_mend(&mut store).number(), 18);
    assert_eq!(mend(&mut store.plain), Answer::Mended { n: 3 });
    assert_eq!(store.plain.counts[..3], [3, 3, 0]);
}

#[test]
fn a_good_sheet_comes_through_unaltered() {
    let mut random = SplitMix64::new(130);
    for n in 0..=1024 {
        for m in [n, n + random.below(n.max(1)), (2 * n).max(1) - 1] {
            let sheet = sheet_of_size(n, m, &mut random);
            mends_to(&sheet, &sheet);
        }
    }
}

#[test]
fn every_number_spoiled_alone() {
    let mut random = SplitMix64::new(131);
    for sheet in sheets(131) {
        for number in 0..NUMBERS {
            for bits in [1, 1 << 15, random.next_u64() | 2] {
                let mut store = sheet.clone();
                numbers(&mut store).turn(number, bits);
                assert!(store != sheet);
                mends_to(&store, &sheet);
            }
        }
    }
}

/// Random values, zeros, the largest values, and one more than a list can have.
#[test]
fn all_numbers_spoiled_at_once() {
    let mut random = SplitMix64::new(132);
    for sheet in sheets(132) {
        for _ in 0..20 {
            mends_to(&spoiled(&sheet, &mut random), &sheet);
        }
        for value in [0, u64::MAX, 1025] {
            let mut store = sheet.clone();
            numbers(&mut store).fill(|| value);
            mends_to(&store, &sheet);
        }
    }
}

/// The counts, tallies and third slice of another sheet of the list, of this size and
/// of the next one.
#[test]
fn the_numbers_of_another_sheet() {
    let mut random = SplitMix64::new(133);
    for (n, m) in SIZES.into_iter().filter(|&(n, m)| m > 64 && m < 2 * n - 1) {
        let sheet = sheet_of_size(n, m, &mut random);
        for size in [m, m + 1] {
            let mut store = sheet_of_size(n, size, &mut random);
            assert!(store.plain.counts != sheet.plain.counts);
            store.plain.slots = sheet.plain.slots.clone();
            store.plain.counts[SIZE] = m as u16;
            mends_to(&store, &sheet);
        }
    }
}

/// Stores from before the tree order, and from before the tallies.
#[test]
fn former_stores() {
    let mut random = SplitMix64::new(134);
    for (n, m) in SIZES {
        let seed = random.next_u64();
        let in_order = |order| {
            let mut random = SplitMix64::new(seed);
            lay_out_in(order, &boats(n as u64), m, |_, _, c| random.below(c))
        };
        let sheet = with_third_slice(in_order(Order::Tree));
        let mut store = sheet.clone();
        store.plain = in_order(Order::Number);
        assert_eq!(store == sheet, m <= 64);
        mends_to(&store, &sheet);
        store.plain.tallies.fill(0);
        mends_to(&store, &sheet);
    }
}

/// No two sheets of one list and one M have the same slots, not even where all entries
/// are equal; each is mended to itself.
#[test]
fn every_sheet_of_some_sizes() {
    let mut random = SplitMix64::new(135);
    for m in (0..=64).chain([65, 66, 84, 85, 111, 112, 127, 128, 129]) {
        for n in (0..=m).filter(|&n| allows(m, n)).step_by(1 + m / 20) {
            let trees = all_sheets::<u16, _>(&vec![7; n], m, Some);
            let mut slots: Vec<_> = trees.iter().map(|sheet| &sheet.slots[..]).collect();
            slots.sort_unstable();
            assert!(slots.windows(2).all(|two| two[0] != two[1]), "N {n} M {m}");
            for mut sheet in trees {
                // The same places, with entries that rise.
                let held = sheet.slots.iter_mut().filter(|slot| **slot != 0);
                for (slot, entry) in held.zip(boats(n as u64)) {
                    *slot = entry;
                }
                let sheet = with_third_slice(laid_out_again(&sheet).unwrap());
                mends_to(&spoiled(&sheet, &mut random), &sheet);
            }
        }
    }
}

/// Among the slots of the leaves, those behind them, and all slots.
#[test]
fn random_changes_of_slots() {
    let mut random = SplitMix64::new(136);
    let mut met = Met::default();
    for (n, m) in SIZES {
        for _ in 0..if m <= 64 { 200 } else { 30 } {
            let sheet = sheet_of_size(n, m, &mut random);
            let used = leaf_slots(m) << height(m);
            for end in [used, used + 2, SLOTS] {
                let end = end.clamp(1, SLOTS);
                let mut store = spoiled(&sheet, &mut random);
                change_slots(&mut store.plain.slots[..end], &mut random);
                met.note(as_searched(&store));
            }
        }
    }
    met.assert_met(300, 1000);
}

/// Each entry of small sheets taken out, and moved to each slot; an entry put into
/// each slot that holds none. With N = M all slots are held, and with N = M − 1 one is
/// not.
#[test]
fn every_small_change_of_slots() {
    let mut met = Met::default();
    for m in 1..=10 {
        for n in (1..=m).filter(|&n| allows(m, n)) {
            let sheet = lay_out_timed(&boats(n as u64), m, |_, _, _| 0);
            for one in 0..m + 2 {
                for entry in [0, 1, 500 + 1000 * one as u64] {
                    let mut store = sheet.clone();
                    store.plain.slots[one] = entry;
                    met.note(as_searched(&store));
                }
                for other in (0..m + 2).chain([SLOTS - 1]) {
                    let mut store = sheet.clone();
                    store.plain.slots.swap(one, other);
                    met.note(as_searched(&store));
                }
            }
        }
    }
    met.assert_met(100, 1000);
}

/// Whether such a store is a sheet depends on the candidates alone: it is mended to
/// another sheet of the list, or refused.
#[test]
fn entries_moved_between_leaves() {
    let mut random = SplitMix64::new(137);
    let mut met = Met::default();
    for (n, m) in SIZES.into_iter().filter(|&(_, m)| m > 64) {
        for _ in 0..10 {
            let sheet = sheet_of_size(n, m, &mut random);
            for _ in 0..4 {
                let mut store = sheet.clone();
                let leaf = random.below((1 << height(m)) - 1);
                let on = random.below(2) == 0;
                move_between_leaves(&mut store.plain, leaf, on);
                assert_eq!(entries(&store.plain), boats(n as u64));
                met.note(as_searched(&store));
            }
        }
    }
    met.assert_met(20, 200);
}

/// The M of a sheet is changed to each of these numbers: how many stores are mended,
/// and how many refused.
fn with_other_sizes(sheet: &Store, sizes: impl IntoIterator<Item = u16>) -> Met {
    let mut met = Met::default();
    for size in sizes {
        let mut store = sheet.clone();
        store.plain.counts[SIZE] = size;
        met.note(as_searched(&store));
    }
    met
}

/// Up to 64 no other M has these slots; above, there may be many. M stays what it is
/// in the store.
#[test]
fn m_changed() {
    let mut random = SplitMix64::new(138);
    for (n, m) in [(0, 0), (1, 1), (2, 3), (5, 7), (33, 64), (64, 64)] {
        let sheet = sheet_of_size(n, m, &mut random);
        let met = with_other_sizes(&sheet, (0..=200).chain([2047, 2048, 65535]));
        assert_eq!((met.mended, met.refused), (1, 203), "N {n} M {m}");
    }
    for (n, m) in [(33, 65), (64, 100), (65, 65), (70, 129), (100, 150)] {
        let sheet = spoiled(&sheet_of_size(n, m, &mut random), &mut random);
        let met = with_other_sizes(&sheet, (0..=200).chain([2047, 2048, 65535]));
        met.assert_met(if n == 33 { 1 } else { 2 }, 100);
    }
}

/// 2,048 has the shape of 2,047. From 1,024 to 1,025 the leaves become longer.
#[test]
fn m_changed_on_a_full_sheet() {
    let mut random = SplitMix64::new(139);
    for (m, mended) in [(1024, 1), (1407, 2), (1408, 2), (2047, 2)] {
        let sheet = sheet_of_size(1024, m, &mut random);
        let sizes = (1020..=2060).chain([0, 1, 64, 65, 4095, 4096, 32768 + m as u16, 65535]);
        let met = with_other_sizes(&sheet, sizes);
        met.assert_met(mended, 400);
    }
}

/// M = 0: mended exactly when every slot is zero, and then M is no other number.
#[test]
fn m_0() {
    let mut random = SplitMix64::new(140);
    let empty = spoiled(&Store::cleared(), &mut random);
    mends_to(&empty, &Store::cleared());
    for slot in 0..SLOTS {
        let mut store = empty.clone();
        store.plain.slots[slot] = random.entry();
        refused(&store);
    }
    for m in 1..=u16::MAX {
        let mut store = empty.plain.clone();
        store.counts[SIZE] = m;
        assert_eq!(mend(&mut store), REFUSED, "M {m}");
    }
}

/// By the size rules alone such lists would have sheets.
#[test]
fn more_than_1024_entries() {
    let mut random = SplitMix64::new(141);
    for n in [1025, 1026, 1100, 1500, 2000, 2047] {
        for m in [n, 2046, 2047] {
            refused(&sheet_of_size(n, m.max(n), &mut random));
        }
    }
    let mut full = Store::cleared();
    full.plain.slots.fill(7);
    for m in 0..=2048 {
        full.plain.counts[SIZE] = m;
        refused(&full);
    }
}

/// Neighbours whose keys fall or are equal, whatever their bits, and a first entry
/// without a key: only the plain store is mended.
#[test]
fn lists_that_do_not_rise() {
    let mut random = SplitMix64::new(142);
    for (n, m) in SIZES.into_iter().filter(|&(n, _)| n > 1) {
        for rank in (1..n).step_by(1 + n / 100) {
            let mut falls = boats(n as u64);
            falls.swap(rank - 1, rank);
            let mut without = boats(n as u64);
            without[0] = [TIED, RETIRED, TIED | RETIRED][rank % 3];
            let equal = [0, TIED, RETIRED, TIED | RETIRED].map(|bits| {
                let mut list = boats(n as u64);
                list[rank] = list[rank - 1] ^ bits;
                list
            });
            for list in [falls, without].into_iter().chain(equal) {
                let sheet = lay_out_timed(&list, m, |_, _, c| random.below(c));
                assert_eq!(check(&sheet.plain), Answer::Checked { n });
                comes_to(&sheet, Some(&sheet.plain), None);
                let store = spoiled(&sheet, &mut random);
                comes_to(&store, Some(&sheet.plain), None);
            }
        }
    }
}

/// Other lengths, each slice by itself: of good sheets and of stores that 18 would
/// refuse. Nothing changes.
#[test]
fn cause_1_before_18() {
    let right = [SLOTS, COUNTS, TALLIES, BALANCE];
    let wrong = (0..4).flat_map(|slice| {
        let lengths = [0, right[slice] - 1, right[slice] + 1, 5000];
        lengths.map(|length| (slice, length))
    });
    for ((slice, length), value) in wrong.flat_map(|wrong| [(wrong, 0), (wrong, 7)]) {
        let mut lengths = right;
        lengths[slice] = length;
        let [slots, counts, tallies, balance] = lengths;
        let (slots, mut balance) = (vec![value; slots], vec![value; balance]);
        let mut counts = vec![value as u16; counts];
        let mut tallies = vec![value as u16; tallies];
        let before = (counts.clone(), tallies.clone(), balance.clone());
        let timed = timed::mend(&slots, &mut counts, &mut tallies, &mut balance);
        assert_eq!(timed, Answer::Refused(Cause::Lengths), "{lengths:?}");
        if slice < 3 {
            let plain = calls::mend(&slots, &mut counts, &mut tallies);
            assert_eq!(plain, Answer::Refused(Cause::Lengths), "{lengths:?}");
        }
        assert!((counts, tallies, balance) == before, "{lengths:?}");
    }
}

/// 02, F-13: "in place of 2 and 11".
#[test]
fn cause_18_where_check_meets_2_or_11() {
    let sheet = sheet_of_size(34, 65, &mut SplitMix64::new(143));
    let mut store = sheet.clone();
    store.plain.slots[SLOTS - 1] = 1;
    assert_eq!(check(&store.plain).number(), 2);
    assert_eq!(timed_check(&store).number(), 2);
    refused(&store);
    let mut list = boats(34);
    list.swap(3, 4);
    let store = lay_out_timed(&list, 65, |_, _, _| 0);
    assert_eq!(timed_check(&store).number(), 11);
    comes_to(&store, Some(&store.plain), None);
}
