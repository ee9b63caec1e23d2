//! Mending (document 02, F-13), of stores with a third slice and without one.

use crate::{called, sheet, sheet_of, some_size, tape, Store, Timed, FULL, LENGTHS};
use agreement::histories::Bits;
use agreement::stores::rising;
use agreement::{say, timed, Both, Call, Returned};
use reference::capacity::FEDERATION;
use reference::layout::{Shape, SIZE};
use reference::random::SplitMix64;
use reference::spoils::{change_slots, numbers_of, Numbers};

const REFUSED: Returned = [18, 0, 0, 0];

/// What mending may write.
fn numbers(store: &mut Timed) -> Numbers<'_, u32> {
    let Timed { counts, tallies, balance, .. } = store;
    Numbers { counts, tallies, balance }
}

/// The store with all that random.
fn spoiled(store: &Timed, random: &mut SplitMix64) -> Timed {
    let mut store = store.clone();
    numbers(&mut store).fill(|| random.next_u64());
    store
}

/// The store is mended to this sheet, with its third slice and without.
fn mends_to(store: &Timed, sheet: &Timed) {
    let mended = [0, sheet.n() as u64, 0, 0];
    assert!(called(store, timed::Call::Mend) == (mended, sheet.clone()), "M {}", store.counts[SIZE]);
    assert!(called(&store.plain(), Call::Mend) == (mended, sheet.plain()), "M {}", store.counts[SIZE]);
}

/// Whether the store is mended without its third slice, and with it; check accepts what is mended, with
/// the same N.
fn is_mended(store: &Timed) -> [bool; 2] {
    let (plain, timed) = (called(&store.plain(), Call::Mend), called(store, timed::Call::Mend));
    if plain.0 != REFUSED {
        assert_eq!(called(&plain.1, Call::Check).0, plain.0);
    }
    if timed.0 != REFUSED {
        assert_eq!(called(&timed.1, timed::Call::Check).0, timed.0);
    }
    [plain.0[0] == 0, timed.0[0] == 0]
}

/// Good sheets stay; all numbers are spoiled at once, by random ones, zeros, the largest and one entry too
/// many.
#[test]
fn spoiled_numbers() {
    let mut random = SplitMix64::new(8400);
    for n in LENGTHS {
        for m in [n, some_size(n, &mut random), (2 * n).max(1) - 1] {
            let sheet = sheet_of(n, m, &mut random);
            mends_to(&sheet, &sheet);
            mends_to(&spoiled(&sheet, &mut random), &sheet);
            for value in [0, u64::MAX, FULL as u64 + 1] {
                let mut store = sheet.clone();
                numbers(&mut store).fill(|| value);
                mends_to(&store, &sheet);
            }
        }
    }
}

/// Single numbers, used ones and unused ones, also by bits that 16 bits do not have.
#[test]
fn each_number_spoiled_alone() {
    let mut random = SplitMix64::new(8401);
    let all = numbers_of(FEDERATION);
    for n in LENGTHS {
        let sheet = sheet(n, &mut random);
        let some: Vec<usize> = (0..8).map(|_| random.below(all)).collect();
        for number in [0, 8190, 8191, 16_382, 16_383, all - 1].into_iter().chain(some) {
            let mut store = sheet.clone();
            numbers(&mut store).turn(number, 1 << random.below(32));
            assert!(store != sheet);
            mends_to(&store, &sheet);
        }
    }
}

/// How many stores were refused, mended without the third slice alone, and mended with it: at least so
/// many of each.
fn assert_met(tried: &[[bool; 2]], least: [usize; 3]) {
    let met = [[false, false], [true, false], [true, true]].map(|kind| tried.iter().filter(|mended| **mended == kind).count());
    assert_eq!(met.iter().sum::<usize>(), tried.len(), "a timed sheet is a sheet");
    assert!(met.iter().zip(least).all(|(met, least)| *met >= least), "{met:?}");
    say(&format!("{} stores", tried.len()));
}

/// Entries that go out, change place or come in, among the slots of the leaves and among all; and others
/// that stand in their slot in place of the right ones, so that a plain sheet stays one.
#[test]
fn slots_changed() {
    let mut random = SplitMix64::new(8410);
    let mut tried = Vec::new();
    for n in LENGTHS.into_iter().filter(|n| *n > 0) {
        for trial in 0..24 {
            let sheet = sheet(n, &mut random);
            let used = Shape::of(sheet.counts[SIZE] as usize).slots();
            let mut store = if trial % 2 == 0 { spoiled(&sheet, &mut random) } else { sheet };
            match trial % 3 {
                0 => change_slots(&mut store.slots[..used], &mut random),
                1 => change_slots(&mut store.slots, &mut random),
                _ => {
                    let mut held = store.slots.iter_mut().filter(|slot| **slot != 0);
                    *held.nth(random.below(n)).unwrap() = random.entry();
                }
            }
            tried.push(is_mended(&store));
        }
    }
    assert_met(&tried, [60, 40, 20]);
}

/// Balance entries directly before or behind the candidates of their range, in one range of a tree of up to
/// 13 levels: each leaf is spread by its number, and it is no sheet.
#[test]
fn balance_entries_that_are_no_candidates() {
    let mut random = SplitMix64::new(8411);
    for n in LENGTHS.into_iter().filter(|n| *n > 64) {
        for behind in [false, true] {
            let m = some_size(n, &mut random);
            let range = 1 + random.below(Shape::of(m).leaves() - 1);
            let list = rising(n, Bits::SOME, &mut random);
            let store = Store::split_by(&list, m, |node, candidates| match node.number == range {
                true if behind => candidates.end,
                true => candidates.start - 1,
                false => candidates.start + random.below(candidates.len()),
            });
            assert_eq!(called(&store, Call::Check).0[0], 2, "N {n} M {m} range {range}");
            assert_eq!(is_mended(&Timed::with_slice(store, vec![0; 8192])), [false; 2], "N {n} M {m} range {range}");
        }
    }
}

/// Other M: those beyond 131,071 whatever their lower bits, those that the list cannot have, and those beside
/// the right one, which may have the same shape.
#[test]
fn m_changed() {
    let mut random = SplitMix64::new(8412);
    let mut beside = Vec::new();
    for n in [65, 1025, 2047, 4096, 32_769, FULL] {
        for m in [n, some_size(n, &mut random), 2 * n - 1] {
            let sheet = sheet_of(n, m, &mut random);
            let with = |size: usize| {
                let mut store = sheet.clone();
                store.counts[SIZE] = size as u32;
                is_mended(&store)
            };
            let beyond = [131_072, m + (1 << 17), m + (1 << 18), 1 << 31 | m, u32::MAX as usize];
            for size in [0, 1, n - 1, 2 * n].into_iter().chain(beyond) {
                assert_eq!(with(size), [false; 2], "N {n} M {m}, now {size}");
            }
            beside.extend([m - 1, m + 1].map(with));
        }
    }
    assert_met(&beside, [6, 0, 6]);
}

/// By the size rules alone such lists would have sheets.
#[test]
fn more_than_65536_entries() {
    let mut random = SplitMix64::new(8413);
    for n in [FULL - 1, FULL, FULL + 1, FULL + 2] {
        for m in [FULL + 2, 100_000, 131_069] {
            let store = Store::of_size(&rising(n, Bits::SOME, &mut random), m, &mut random);
            assert_eq!(is_mended(&Timed::with_slice(store, vec![0; 8192])), [n <= FULL; 2], "N {n} M {m}");
        }
    }
}

/// Inserts and deletes, between which the sheet is spoiled and mended.
#[test]
fn mended_amid_a_history() {
    let mut random = SplitMix64::new(8420);
    for (start, targets) in [(0, [70, 60]), (1020, [1030, 1020]), (4090, [4100, 4090]), (FULL - 8, [FULL, FULL - 8])] {
        let mut sheet = sheet(start, &mut random);
        for target in targets {
            while sheet.n() != target {
                let mut both = Both::new(8420, spoiled(&sheet, &mut random));
                assert_eq!(both.call(timed::Call::Mend), [0, sheet.n() as u64, 0, 0]);
                assert!(both.store == sheet);
                let tape = tape(&mut random);
                both.call(if sheet.n() < target {
                    timed::Call::Insert { entry: random.entry(), tape }
                } else {
                    timed::Call::Delete { rank: random.below(sheet.n()), tape }
                });
                sheet = both.store;
            }
        }
    }
}
