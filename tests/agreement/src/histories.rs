//! Random histories of calls, with refused calls, boats that retire, conversions of
//! the order of the counts and mending of good sheets among them.

use crate::boards::board;
use crate::proved::Linked;
use crate::{stores, Both, Call, Returned, Store, StoreOf};
use reference::capacity::{Number, CLUBS};
use reference::places::{RETIRED, TIED};
use reference::random::SplitMix64;

/// What a history leads through, by turns: numbers of entries.
pub const SHORT: &[usize] = &[0, 1, 2, 3, 5, 40];
pub const BORDER: &[usize] = &[30, 60, 64, 65, 66, 70, 130];
pub const FULL: &[usize] = &[0, 300, 700, 1024, 1024];

/// A tape: long enough as a rule, at times too short.
pub fn tape<T: Number>(random: &mut SplitMix64) -> Vec<u32> {
    let length = match random.below(40) {
        0 => random.below(6),
        1 | 2 => random.below(200),
        _ => stores::words_for::<T>(),
    };
    let mut words = vec![0; length];
    random.fill(&mut words);
    words
}

/// Of how many entries in 16 bit 63 is set, and of how many bit 62.
#[derive(Clone, Copy, Debug)]
pub struct Bits {
    pub tied: usize,
    pub retired: usize,
}

impl Bits {
    pub const NONE: Bits = Bits::new(0, 0);
    pub const SOME: Bits = Bits::new(8, 4);

    pub const fn new(tied: usize, retired: usize) -> Self {
        Bits { tied, retired }
    }

    /// Those of the history of this seed: both occur in all of them.
    pub fn of_seed(seed: u64) -> Self {
        [Bits::new(2, 1), Bits::SOME, Bits::new(14, 8), Bits::new(15, 14)][(seed % 4) as usize]
    }
}

/// The entry with each of the bits 63 and 62 set so often, else without it.
pub fn with_bits(random: &mut SplitMix64, entry: u64, bits: Bits) -> u64 {
    let mut bit = |bit, often| if random.below(16) < often { bit } else { 0 };
    entry & !TIED & !RETIRED | bit(TIED, bits.tied) | bit(RETIRED, bits.retired)
}

/// An entry, at times zero but for bits 63 and 62, often one of a few.
pub fn entry(random: &mut SplitMix64, bits: Bits) -> u64 {
    let entry = match random.below(60) {
        0 => 0,
        1 => u64::MAX,
        2..=20 => 1 + random.below(4) as u64,
        _ => random.entry(),
    };
    with_bits(random, entry, bits)
}

/// A rank, at times past the end.
pub fn rank(random: &mut SplitMix64, n: usize) -> usize {
    match random.below(30) {
        0 => n + random.below(3),
        1 => usize::MAX,
        _ => random.below(n + 1),
    }
}

/// A call that as a rule brings the number of entries nearer to `target`.
fn some_call<T: Number>(random: &mut SplitMix64, n: usize, target: usize, bits: Bits) -> Call {
    match random.below(40) {
        0 | 1 => Call::Read {
            first: rank(random, n),
            last: rank(random, n),
            output: vec![5; random.below(80)],
        },
        2..=5 => Call::Place { rank: rank(random, n) },
        6 => Call::Check,
        7 if random.below(60) == 0 => Call::Clear,
        8 => {
            let (ranks, output) = board(random, n);
            Call::Board { ranks, output }
        }
        9 => Call::Mend,
        _ if (n < target) == (random.below(8) != 0) => Call::Insert {
            rank: rank(random, n),
            entry: entry(random, bits),
            tape: tape::<T>(random),
        },
        _ => Call::Delete {
            rank: rank(random, n),
            tape: tape::<T>(random),
        },
    }
}

/// The counts go to number order and back. In number order the store is no sheet
/// where M > 64: some range has another count than its halves together. What the
/// calls returned.
fn to_and_fro<T: Linked>(both: &mut Both<StoreOf<T>>) -> [Returned; 3] {
    let sheet = both.store.clone();
    let there = both.call(Call::ToNumberOrder);
    let between = both.call(Call::Check);
    let m = there[1];
    assert_eq!((there[0], between[0]), (0, if m > 64 { 2 } else { 0 }), "M {m}");
    let back = both.call(Call::ToTreeOrder);
    assert!(both.store == sheet, "M {m}");
    [there, between, back]
}

/// A boat retires, or is taken back: her entry goes out and comes in again at her
/// rank with the other bit 62, then her place is asked for. What the calls returned.
fn retire<T: Linked>(both: &mut Both<StoreOf<T>>, random: &mut SplitMix64) -> [Returned; 3] {
    let rank = random.below(both.store.n());
    // Bit 62 alone is no entry without it.
    let entry = (both.store.entries().nth(rank).unwrap() ^ RETIRED).max(1);
    let scoring = both.store.tallies[1].value();
    let out = both.call(Call::Delete { rank, tape: stores::tape_for::<T>(random) });
    let back = both.call(Call::Insert { rank, entry, tape: stores::tape_for::<T>(random) });
    assert_eq!((out[0], back[0]), (0, 0));
    let place = both.call(Call::Place { rank });
    let retired = entry & RETIRED != 0;
    assert_eq!(both.store.tallies[1].value(), if retired { scoring - 1 } else { scoring + 1 });
    assert_eq!(place == [0, 0, 0, 1], retired);
    [out, back, place]
}

/// What histories met: how many calls returned each number, and how many places
/// were those of tied and of retired boats.
#[derive(Debug, Default)]
pub struct Met {
    pub numbers: [u64; 17],
    pub tied: u64,
    pub retired: u64,
}

impl Met {
    pub fn note(&mut self, returned: Returned) {
        let [number, .., t] = returned;
        self.numbers[number as usize] += 1;
        self.tied += u64::from(t > 1);
        self.retired += u64::from(returned == [0, 0, 0, 1]);
    }

    pub fn add(&mut self, other: Met) {
        for (sum, number) in self.numbers.iter_mut().zip(other.numbers) {
            *sum += number;
        }
        self.tied += other.tied;
        self.retired += other.retired;
    }

    pub fn calls(&self) -> u64 {
        self.numbers.iter().sum()
    }

    /// Every one of these numbers was returned, and boats tied and retired.
    pub fn assert_met(&self, numbers: &[usize]) {
        assert!(numbers.iter().all(|number| self.numbers[*number] > 0), "{self:?}");
        assert!(self.tied > 0 && self.retired > 0, "{self:?}");
    }
}

/// A history of so many calls on the clubs' store, by way of the targets.
pub fn history(seed: u64, calls: u64, targets: &[usize]) -> Met {
    history_from(Store::unused(), seed, calls, targets)
}

/// The same from a store of either width, which is cleared first where it is no sheet.
pub fn history_from<T: Linked>(store: StoreOf<T>, seed: u64, calls: u64, targets: &[usize]) -> Met {
    let mut met = Met::default();
    let mut random = SplitMix64::new(seed);
    let mut both = Both::new(seed, store);
    let checked = both.call(Call::Check);
    met.note(checked);
    if checked[0] != 0 {
        met.note(both.call(Call::Clear));
    }
    let mut target = targets[random.below(targets.len())];
    while both.made() < calls {
        if both.store.n() == target || random.below(3000) == 0 {
            target = targets[random.below(targets.len())];
        }
        if random.below(50) == 0 && both.made() + 3 <= calls {
            let retires = both.store.n() > 0 && random.below(2) == 0;
            if retires || T::CAPACITY == CLUBS {
                let three = if retires { retire(&mut both, &mut random) } else { to_and_fro(&mut both) };
                three.into_iter().for_each(|returned| met.note(returned));
                continue;
            }
        }
        let call = some_call::<T>(&mut random, both.store.n(), target, Bits::of_seed(seed));
        met.note(both.call(call));
    }
    met
}
