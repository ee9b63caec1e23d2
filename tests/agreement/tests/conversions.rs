//! The two conversions of the order of the counts, on both: any contents, other
//! lengths, and sizes about the largest.

use agreement::{Both, Call, Store};
use reference::layout::COUNTS;
use reference::random::SplitMix64;

const LARGEST: u16 = 2047;

/// A store with this M whose other counts are random.
fn store(m: u16, random: &mut SplitMix64) -> Store {
    let mut store = Store::unused();
    store.counts.fill_with(|| random.next_u32() as u16);
    store.counts[0] = m;
    store
}

/// One conversion by both, then the other one, leads back.
fn there_and_back(store: Store, there: Call, back: Call) {
    let m = u64::from(store.counts[0]);
    let mut both = Both::new(m, store.clone());
    assert_eq!(both.call(there), [0, m, 0, 0]);
    assert_eq!(both.store == store, m <= 64, "M {m}");
    assert_eq!(both.call(back), [0, m, 0, 0]);
    assert!(both.store == store, "M {m}");
}

#[test]
fn any_contents_of_every_size() {
    let mut random = SplitMix64::new(3000);
    for m in 0..=LARGEST {
        let store = store(m, &mut random);
        there_and_back(store.clone(), Call::ToTreeOrder, Call::ToNumberOrder);
        there_and_back(store, Call::ToNumberOrder, Call::ToTreeOrder);
    }
}

/// The same conversion again and again, or now one and now the other.
#[test]
fn one_after_the_other() {
    let mut random = SplitMix64::new(3001);
    for seed in 0..60 {
        let m = random.below(usize::from(LARGEST) + 1) as u16;
        let mut both = Both::new(seed, store(m, &mut random));
        for _ in 0..40 {
            let call = [Call::ToTreeOrder, Call::ToNumberOrder][random.below(2)].clone();
            assert_eq!(both.call(call), [0, u64::from(m), 0, 0]);
        }
    }
}

/// Cause 1 comes before cause 2.
#[test]
fn refused() {
    let mut random = SplitMix64::new(3002);
    let lengths = [0, 1, 2, 16, 255, 257, 512, 4224];
    for m in [0, 65, LARGEST, LARGEST + 1, LARGEST + 2, 4096, 32_768, u16::MAX] {
        for length in lengths.into_iter().chain([COUNTS]) {
            let mut store = store(m, &mut random);
            store.counts.resize(length, m);
            let cause = match length {
                COUNTS if m <= LARGEST => continue,
                COUNTS => 2,
                _ => 1,
            };
            for call in [Call::ToTreeOrder, Call::ToNumberOrder] {
                let mut both = Both::new(u64::from(m), store.clone());
                assert_eq!(both.call(call), [cause, 0, 0, 0], "M {m}, {length} counts");
                assert!(both.store == store, "M {m}, {length} counts");
            }
        }
    }
}
