//! What the tests of mending (02, F-13) spoil.

use crate::capacity::{Capacity, Number, CLUBS};
use crate::layout::SIZE;
use crate::places::{RETIRED, TIED};
use crate::random::SplitMix64;

/// N and M of some sheets that the clubs can have: the smallest, and those before and
/// behind the sizes where the shape changes.
pub const SIZES: [(usize, usize); 22] = [
    (0, 0),
    (1, 1),
    (2, 2),
    (2, 3),
    (5, 7),
    (33, 64),
    (33, 65),
    (64, 64),
    (64, 111),
    (64, 112),
    (65, 65),
    (65, 128),
    (65, 129),
    (200, 200),
    (200, 256),
    (200, 257),
    (200, 399),
    (700, 1024),
    (1024, 1024),
    (1024, 1407),
    (1024, 1408),
    (1024, 2047),
];

/// How many numbers mending may write into a store: the counts without count 0, the
/// tallies and the words of the third slice.
pub const fn numbers_of(capacity: Capacity) -> usize {
    counts_and_tallies(capacity) + capacity.counts
}

const fn counts_and_tallies(capacity: Capacity) -> usize {
    capacity.counts - 1 + capacity.counts
}

/// How many they are in a clubs' store.
pub const NUMBERS: usize = numbers_of(CLUBS);

/// The slices of a timed store in which they stand.
pub struct Numbers<'a, T = u16> {
    pub counts: &'a mut [T],
    pub tallies: &'a mut [T],
    pub balance: &'a mut [u64],
}

impl<T: Number> Numbers<'_, T> {
    /// Turns bits of one of the numbers, which are taken in this order.
    pub fn turn(self, number: usize, bits: u64) {
        let counts = self.counts[SIZE + 1..].iter_mut();
        match counts.chain(self.tallies).nth(number) {
            Some(held) => *held = T::low_bits(held.value() as u64 ^ bits),
            None => self.balance[number - counts_and_tallies(T::CAPACITY)] ^= bits,
        }
    }

    /// Gives each of them the value that `value` tells.
    pub fn fill(self, mut value: impl FnMut() -> u64) {
        let counts = self.counts[SIZE + 1..].iter_mut();
        for number in counts.chain(self.tallies) {
            *number = T::low_bits(value());
        }
        self.balance.fill_with(value);
    }
}

/// One to three changes among these slots: an entry goes out, changes place with
/// another slot, comes in, or gets other bits 63 and 62.
pub fn change_slots(slots: &mut [u64], random: &mut SplitMix64) {
    for _ in 0..=random.below(3) {
        let (one, other) = (random.below(slots.len()), random.below(slots.len()));
        match random.below(4) {
            0 => slots[one] = 0,
            1 => slots.swap(one, other),
            2 => slots[one] = random.entry(),
            _ if slots[one] & !TIED & !RETIRED != 0 => slots[one] ^= TIED | RETIRED,
            _ => {}
        }
    }
}
