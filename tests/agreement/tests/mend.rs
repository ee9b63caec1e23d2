//! Mending (document 02, F-13) on both, of stores without a third slice and with one:
//! counts, tallies and third slices spoiled, slots and M changed, entries that do not
//! rise, wrong lengths, and sheets that are mended between other calls.

use agreement::histories::Bits;
use agreement::stores::{rising, sheet_of_size, split_by, tape};
use agreement::timed::{self, Store};
use agreement::{say, Both, Call, Lent, Returned};
use reference::layout::{SIZE, SLOTS};
use reference::places::{RETIRED, TIED};
use reference::random::SplitMix64;
use reference::sizes::Size;
use reference::spoils::{change_slots, Numbers, NUMBERS, SIZES};
use reference::timed::BALANCE;

const SEED: u64 = 7300;
const REFUSED: Returned = [18, 0, 0, 0];

/// A timed sheet of n entries and this size.
fn sheet(n: usize, m: usize, random: &mut SplitMix64) -> Store {
    Store::of_size(&rising(n, Bits::SOME, random), m, random)
}

/// What mending may write.
fn numbers(store: &mut Store) -> Numbers<'_> {
    let Store { counts, tallies, balance, .. } = store;
    Numbers { counts, tallies, balance }
}

/// The store with all that random.
fn spoiled(store: &Store, random: &mut SplitMix64) -> Store {
    let mut store = store.clone();
    numbers(&mut store).fill(|| random.next_u64());
    store
}

/// The call on a copy of the store, on both: what it returns, and the copy.
fn called<S: Lent>(store: &S, call: S::Call) -> (Returned, S) {
    let mut both = Both::new(SEED, store.clone());
    (both.call(call), both.store)
}

/// The store is mended to this sheet, with its third slice and without.
fn mends_to(store: &Store, sheet: &Store) {
    let mended = [0, sheet.n() as u64, 0, 0];
    assert!(called(store, timed::Call::Mend) == (mended, sheet.clone()), "M {}", store.counts[SIZE]);
    assert!(called(&store.plain(), Call::Mend) == (mended, sheet.plain()), "M {}", store.counts[SIZE]);
}

/// Whether the store is mended: check accepts it then, with the same N. One that is
/// refused stays.
fn is_mended<S: Lent>(store: &S, mend: S::Call, check: S::Call) -> bool {
    let (returned, after) = called(store, mend);
    let mended = returned[0] == 0;
    if mended {
        assert_eq!(called(&after, check).0, returned);
    } else {
        assert!(returned == REFUSED && after == *store);
    }
    mended
}

/// How many stores were tried, how many of them were mended without their third slice,
/// and how many with it.
#[derive(Debug, Default)]
struct Met {
    tried: u64,
    plain: u64,
    timed: u64,
}

impl Met {
    fn try_to_mend(&mut self, store: &Store) {
        let plain = is_mended(&store.plain(), Call::Mend, Call::Check);
        let timed = is_mended(store, timed::Call::Mend, timed::Call::Check);
        assert!(plain || !timed, "a timed sheet is a sheet");
        self.tried += 1;
        self.plain += u64::from(plain);
        self.timed += u64::from(timed);
    }

    /// Stores were refused, mended without the third slice alone, and mended with it, at
    /// least so many of each.
    fn assert_met(&self, refused: u64, plain_alone: u64, timed: u64) {
        let met = [self.tried - self.plain, self.plain - self.timed, self.timed];
        let least = [refused, plain_alone, timed];
        assert!(met.iter().zip(least).all(|(met, least)| *met >= least), "{self:?}");
        say(&format!("{} calls", 2 * self.tried));
    }
}

#[test]
fn good_sheets_come_through_unaltered() {
    let mut random = SplitMix64::new(7300);
    for n in 0..=1024 {
        for m in [n, n + random.below(n.max(1)), (2 * n).max(1) - 1] {
            let sheet = sheet(n, m, &mut random);
            mends_to(&sheet, &sheet);
        }
    }
}

#[test]
fn every_number_spoiled_alone() {
    let mut random = SplitMix64::new(7301);
    for (n, m) in SIZES {
        let sheet = sheet(n, m, &mut random);
        for number in 0..NUMBERS {
            for bits in [1, 1 << 15, random.next_u64() | 2] {
                let mut store = sheet.clone();
                numbers(&mut store).turn(number, bits);
                mends_to(&store, &sheet);
            }
        }
    }
}

/// Random values, zeros, the largest ones, and those of another sheet of the list.
#[test]
fn all_numbers_spoiled_at_once() {
    let mut random = SplitMix64::new(7302);
    for n in (0..=140).chain((141..=1024).step_by(9)).chain([1024]) {
        for m in [n, n + random.below(n.max(1)), (2 * n).max(1) - 1] {
            let list = rising(n, Bits::SOME, &mut random);
            let sheet = Store::of_size(&list, m, &mut random);
            for value in [0, u64::MAX] {
                let mut store = sheet.clone();
                numbers(&mut store).fill(|| value);
                mends_to(&store, &sheet);
            }
            mends_to(&spoiled(&sheet, &mut random), &sheet);
            let slots = sheet.slots.clone();
            mends_to(&Store { slots, ..Store::of_size(&list, m, &mut random) }, &sheet);
        }
    }
}

/// Among the slots of the leaves, with the next ones, and among all.
#[test]
fn slots_changed() {
    let mut random = SplitMix64::new(7303);
    let mut met = Met::default();
    for (n, m) in SIZES {
        let used = Size::new(m).slots() as usize;
        for end in [used, used + 2, SLOTS].map(|end| end.clamp(1, SLOTS)) {
            let sheet = sheet(n, m, &mut random);
            for _ in 0..200 {
                let mut store = spoiled(&sheet, &mut random);
                change_slots(&mut store.slots[..end], &mut random);
                met.try_to_mend(&store);
            }
        }
    }
    met.assert_met(1000, 1000, 1000);
}

/// The balance entries of some ranges stand directly before or behind their candidates.
/// Each leaf is spread by its number, but where there is such a range it is no sheet.
#[test]
fn balance_entries_that_are_no_candidates() {
    let mut random = SplitMix64::new(7304);
    let (mut met, mut sheets) = (Met::default(), 0);
    for (n, m) in SIZES.into_iter().filter(|(_, m)| *m > 64) {
        let ranges = Size::new(m).leaves();
        for _ in 0..100 {
            let mut no_candidates = 0;
            let plain = split_by(&rising(n, Bits::SOME, &mut random), m, |_, candidates| {
                let beside = random.below(2 * ranges);
                no_candidates += u64::from(beside < 2);
                match beside {
                    0 => candidates.start - 1,
                    1 => candidates.end,
                    _ => candidates.start + random.below(candidates.len()),
                }
            });
            let balance = vec![0; BALANCE];
            let agreement::Store { slots, counts, tallies } = plain;
            met.try_to_mend(&Store { slots, counts, tallies, balance });
            sheets += u64::from(no_candidates == 0);
        }
    }
    assert_eq!([met.plain, met.timed], [sheets; 2]);
    met.assert_met(100, 0, 100);
}

/// Every M that a sheet can have, and others.
#[test]
fn m_changed() {
    let mut random = SplitMix64::new(7305);
    let mut met = Met::default();
    for (n, m) in SIZES {
        let sheet = sheet(n, m, &mut random);
        for size in (0..=2050).chain([2112, 4095, 4096, 4224, 1 << 15, 1 << 15 | m as u16, u16::MAX]) {
            let mut store = spoiled(&sheet, &mut random);
            store.counts[SIZE] = size;
            met.try_to_mend(&store);
        }
    }
    met.assert_met(1000, 0, 1000);
}

/// M = 0: mended exactly where every slot is zero.
#[test]
fn an_entry_in_every_slot() {
    let mut random = SplitMix64::new(7306);
    let empty = sheet(0, 0, &mut random);
    for slot in 0..SLOTS {
        let mut store = spoiled(&empty, &mut random);
        mends_to(&store, &empty);
        store.slots[slot] = random.entry();
        assert!(called(&store, timed::Call::Mend) == (REFUSED, store.clone()));
        assert!(called(&store.plain(), Call::Mend) == (REFUSED, store.plain()));
    }
}

/// Neighbours whose keys fall or are equal, whatever their bits, and a first entry
/// without a key: the store is mended without its third slice alone.
#[test]
fn entries_that_do_not_rise() {
    let mut random = SplitMix64::new(7307);
    let bits = [TIED, RETIRED, TIED | RETIRED];
    for (n, m) in SIZES.into_iter().filter(|(n, _)| *n > 1) {
        for rank in (1..n).step_by(1 + n / 100) {
            let list = rising(n, Bits::SOME, &mut random);
            let (mut falls, mut stays, mut ties, mut without) = (list.clone(), list.clone(), list.clone(), list);
            falls.swap(rank - 1, rank);
            stays[rank] = stays[rank - 1];
            ties[rank] = ties[rank - 1] ^ bits[rank % 3];
            without[0] = bits[rank % 3];
            for list in [falls, stays, ties, without] {
                let sheet = Store::of_size(&list, m, &mut random);
                for store in [spoiled(&sheet, &mut random), sheet.clone()] {
                    assert!(called(&store.plain(), Call::Mend) == ([0, n as u64, 0, 0], sheet.plain()));
                    assert!(called(&store, timed::Call::Mend) == (REFUSED, store));
                }
            }
        }
    }
}

/// By the size rules alone such lists would have sheets.
#[test]
fn more_than_1024_entries() {
    let mut random = SplitMix64::new(7308);
    let mut met = Met::default();
    for n in 1020..=1030 {
        for m in [1030, 1407, 1408, 2038] {
            let agreement::Store { slots, counts, tallies } = sheet_of_size(&rising(n, Bits::SOME, &mut random), m, &mut random);
            met.try_to_mend(&Store { slots, counts, tallies, balance: vec![0; BALANCE] });
        }
    }
    let full = Store { slots: vec![7; SLOTS], ..sheet(0, 0, &mut random) };
    for m in 0..=2048 {
        let mut store = full.clone();
        store.counts[SIZE] = m;
        met.try_to_mend(&store);
    }
    assert_eq!([met.plain, met.timed], [5 * 4; 2]);
}

/// Each slice by itself has another length: cause 1 comes first, on stores that would be
/// mended and on others.
#[test]
fn wrong_lengths() {
    let mut random = SplitMix64::new(7309);
    let sheet = sheet(100, 150, &mut random);
    for before in [sheet.clone(), spoiled(&sheet, &mut random), Store::unused()] {
        for length in [0, 1, 255, 257, 4223, 4225] {
            let mut stores = [before.clone(), before.clone(), before.clone(), before.clone()];
            stores[0].slots.resize(length, 0);
            stores[1].counts.resize(length, 0);
            stores[2].tallies.resize(length, 0);
            stores[3].balance.resize(length, 0);
            for store in &stores {
                assert!(called(store, timed::Call::Mend) == ([1, 0, 0, 0], store.clone()), "{length}");
            }
            for store in &stores[..3] {
                assert!(called(&store.plain(), Call::Mend) == ([1, 0, 0, 0], store.plain()), "{length}");
            }
        }
    }
}

/// Inserts and deletes, between which the sheet is spoiled and mended.
#[test]
fn mended_amid_a_history() {
    let mut random = SplitMix64::new(7310);
    let mut sheet = sheet(0, 0, &mut random);
    for target in [40, 0, 70, 30, 130, 60, 300, 1024, 900] {
        while sheet.n() != target {
            let mut both = Both::new(7310, spoiled(&sheet, &mut random));
            assert_eq!(both.call(timed::Call::Mend), [0, sheet.n() as u64, 0, 0]);
            assert!(both.store == sheet);
            let tape = tape(&mut random);
            both.call(if sheet.n() < target {
                timed::Call::Insert { entry: random.entry(), tape }
            } else {
                timed::Call::Delete { rank: random.below(sheet.n()), tape }
            });
            sheet = both.store;
        }
    }
}
