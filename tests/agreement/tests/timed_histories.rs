//! Long random timed histories on both, with refused calls among them; finds of
//! every entry and beside every entry.

use agreement::histories::{Bits, Met, BORDER, FULL, SHORT};
use agreement::stores::{rising, tape};
use agreement::timed::{Call, Store};
use agreement::timed_histories::history;
use agreement::{say, Both};
use reference::places::{RETIRED, TIED};
use reference::random::SplitMix64;

/// Histories of `calls` calls each; every one of these causes was met.
fn histories(seeds: std::ops::Range<u64>, calls: u64, targets: &[usize], causes: &[usize]) {
    let mut met = Met::default();
    for seed in seeds {
        met.add(history(seed, calls, targets));
    }
    say(&format!("{} calls", met.calls()));
    met.assert_met(causes);
}

#[test]
fn short_lists() {
    histories(5000..5010, 5_000, SHORT, &[0, 2, 3, 4, 7, 10, 16]);
}

#[test]
fn from_one_range_to_many() {
    histories(5100..5110, 5_000, BORDER, &[0, 2, 3, 4, 6, 7, 10, 16]);
}

#[test]
fn full_and_back() {
    histories(5203..5207, 20_000, FULL, &[0, 2, 3, 4, 5, 6, 7, 10, 16]);
}

/// The list of a sheet does not depend on the order of the inserts.
#[test]
fn inserts_in_any_order() {
    let mut random = SplitMix64::new(5300);
    for n in [3, 40, 150, 1024] {
        let list = rising(n, Bits::SOME, &mut random);
        let mut both = Both::new(5300, Store::unused());
        both.call(Call::Clear);
        let mut left = list.clone();
        while !left.is_empty() {
            let entry = left.swap_remove(random.below(left.len()));
            let tape = tape(&mut random);
            let [number, n, ..] = both.call(Call::Insert { entry, tape });
            assert_eq!((number, n as usize), (0, list.len() - left.len()));
        }
        assert!(both.store.entries().eq(list), "N {n}");
    }
}

/// Each entry, balance entries among them, and its neighbours, with their own bits 63
/// and 62 and with others; sizes from N to 2N − 1.
#[test]
fn every_find() {
    let mut random = SplitMix64::new(5400);
    for n in [0, 1, 2, 5, 33, 64, 65, 130, 300, 700, 1024] {
        for m in [n, n + random.below(n.max(1)), (2 * n).max(1) - 1] {
            let list = rising(n, Bits::SOME, &mut random);
            let mut both = Both::new(5400, Store::of_size(&list, m, &mut random));
            for (rank, &entry) in list.iter().enumerate() {
                let rank = rank as u64;
                for entry in [entry, entry ^ (1 + rank % 3) << 62] {
                    assert_eq!(both.call(Call::Find { entry }), [0, 1, rank, 0], "N {n} M {m}");
                    assert_eq!(both.call(Call::Find { entry: entry - 1 }), [0, 0, rank, 0], "N {n} M {m}");
                    assert_eq!(both.call(Call::Find { entry: entry + 1 }), [0, 0, rank + 1, 0], "N {n} M {m}");
                }
            }
            for bits in [0, TIED, RETIRED, TIED | RETIRED] {
                assert_eq!(both.call(Call::Find { entry: 1 | bits }), [0, 0, 0, 0], "N {n} M {m}");
                assert_eq!(both.call(Call::Find { entry: (RETIRED - 1) | bits }), [0, 0, n as u64, 0], "N {n} M {m}");
            }
        }
    }
}
