//! Random timed histories, with refused calls, boats that retire and mending of good
//! sheets among them.

use crate::boards::board;
use crate::histories::{rank, tape, with_bits, Bits, Met};
use crate::timed::{Call, Linked, Store, StoreOf};
use crate::{stores, Both, Returned};
use reference::capacity::Number;
use reference::places::RETIRED;
use reference::random::SplitMix64;

/// An entry: at times zero or the highest but for bits 63 and 62; often one that is
/// there or stands beside one that is, or a finish of a few times and sail numbers.
fn entry<T: Number>(random: &mut SplitMix64, store: &StoreOf<T>, bits: Bits) -> u64 {
    let entry = match random.below(60) {
        0 => 0,
        1 => u64::MAX,
        2..=9 if store.n() > 0 => {
            let there = store.entries().nth(random.below(store.n())).unwrap();
            there.wrapping_add(random.below(3) as u64).wrapping_sub(1)
        }
        2..=29 => (random.below(600) as u64) << 32 | random.below(5) as u64,
        _ => random.entry(),
    };
    with_bits(random, entry, bits)
}

/// A call that as a rule brings the number of entries nearer to `target`.
fn some_call<T: Number>(random: &mut SplitMix64, store: &StoreOf<T>, target: usize, bits: Bits) -> Call {
    let n = store.n();
    match random.below(40) {
        0 | 1 => Call::Read {
            first: rank(random, n),
            last: rank(random, n),
            output: vec![5; random.below(80)],
        },
        2..=5 => Call::Place { rank: rank(random, n) },
        6 => Call::Check,
        7 if random.below(60) == 0 => Call::Clear,
        7..=11 => Call::Find { entry: entry(random, store, bits) },
        12 => {
            let (ranks, output) = board(random, n);
            Call::Board { ranks, output }
        }
        13 => Call::Mend,
        _ if (n < target) == (random.below(8) != 0) => Call::Insert {
            entry: entry(random, store, bits),
            tape: tape::<T>(random),
        },
        _ => Call::Delete {
            rank: rank(random, n),
            tape: tape::<T>(random),
        },
    }
}

/// A boat retires, or is taken back: her entry goes out and comes in again with the
/// other bit 62, then her place is asked for. What the calls returned.
fn retire<T: Linked>(both: &mut Both<StoreOf<T>>, random: &mut SplitMix64) -> [Returned; 3] {
    let rank = random.below(both.store.n());
    let entry = both.store.entries().nth(rank).unwrap() ^ RETIRED;
    let calls = [
        Call::Delete { rank, tape: stores::tape_for::<T>(random) },
        Call::Insert { entry, tape: stores::tape_for::<T>(random) },
        Call::Place { rank },
    ];
    let returned = calls.map(|call| both.call(call));
    assert_eq!(returned.map(|of_call| of_call[0]), [0; 3]);
    assert_eq!(returned[2] == [0, 0, 0, 1], entry & RETIRED != 0);
    returned
}

/// A timed history of so many calls on the clubs' store, by way of the targets.
pub fn history(seed: u64, calls: u64, targets: &[usize]) -> Met {
    history_from(Store::unused(), seed, calls, targets)
}

/// The same from a store of either width, which is cleared first where it is no timed
/// sheet.
pub fn history_from<T: Linked>(store: StoreOf<T>, seed: u64, calls: u64, targets: &[usize]) -> Met {
    let mut met = Met::default();
    let mut random = SplitMix64::new(seed);
    let mut both = Both::new(seed, store);
    let checked = both.call(Call::Check);
    met.note(checked);
    if checked[0] != 0 {
        met.note(both.call(Call::Clear));
    }
    let mut target = targets[random.below(targets.len())];
    while both.made() < calls {
        if both.store.n() == target || random.below(3000) == 0 {
            target = targets[random.below(targets.len())];
        }
        if both.store.n() > 0 && random.below(100) == 0 && both.made() + 3 <= calls {
            retire(&mut both, &mut random).into_iter().for_each(|returned| met.note(returned));
            continue;
        }
        let call = some_call(&mut random, &both.store, target, Bits::of_seed(seed));
        met.note(both.call(call));
    }
    met
}
