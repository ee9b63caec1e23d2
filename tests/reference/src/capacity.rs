//! How much a store holds, and how wide its counts are: the clubs' store of 01 and the
//! federation's of 02, F-14. Everything else is written once for both.

use crate::sizes::Size;
use std::fmt::Debug;
use std::ops::BitOr;

/// The longest list of a sheet, and the lengths of the slices lent for it.
#[derive(Clone, Copy, Debug, PartialEq, Eq)]
pub struct Capacity {
    pub entries: usize,
    pub slots: usize,
    /// The counts; the tallies and the words of a third slice are as many.
    pub counts: usize,
}

/// 01: "N is its length, at most 1,024", "4,224 slots of 64 bits and 256 counts of 16
/// bits." 02, F-11: "a further slice of 256 16-bit numbers"; F-1: "A third slice of 256
/// 64-bit words".
pub const CLUBS: Capacity = Capacity {
    entries: 1024,
    slots: 4224,
    counts: 256,
};

/// 02, F-14: "The federation holds up to 65,536 entries in one sheet", "208,896 slots and
/// 8,192 counts of 32 bits, the tallies (32 bits here) and third slice 8,192 long as
/// well".
pub const FEDERATION: Capacity = Capacity {
    entries: 65_536,
    slots: 208_896,
    counts: 8192,
};

impl Capacity {
    /// The largest M of a sheet. 01: "N ≤ M ≤ 2N − 1." 02, F-14: "M goes to 131,071 by
    /// the same size rules."
    pub const fn largest_m(self) -> usize {
        2 * self.entries - 1
    }

    /// The height of a sheet with that M; no smaller one is higher.
    pub const fn height(self) -> usize {
        Size::new(self.largest_m()).height()
    }
}

/// A count or a tally. Its width tells which store it belongs to: 16 bits the clubs', 32
/// bits the federation's. So a call on slices takes either store.
pub trait Number: Copy + Debug + Default + Ord + BitOr<Output = Self> + 'static {
    /// What a store with counts of this width holds.
    const CAPACITY: Capacity;

    /// The number in this width, which has room for M and for every count and tally.
    fn of(number: usize) -> Self;

    fn value(self) -> usize;

    /// As many of the low bits of a word as this width has.
    fn low_bits(word: u64) -> Self;
}

impl Number for u16 {
    const CAPACITY: Capacity = CLUBS;

    fn of(number: usize) -> u16 {
        number.try_into().expect("a number of 16 bits")
    }

    fn value(self) -> usize {
        self.into()
    }

    fn low_bits(word: u64) -> u16 {
        word as u16
    }
}

impl Number for u32 {
    const CAPACITY: Capacity = FEDERATION;

    fn of(number: usize) -> u32 {
        number.try_into().expect("a number of 32 bits")
    }

    fn value(self) -> usize {
        self as usize
    }

    fn low_bits(word: u64) -> u32 {
        word as u32
    }
}

#[cfg(test)]
mod tests {
    use super::*;

    #[test]
    fn marks_of_both_stores() {
        assert_eq!(
            [CLUBS, FEDERATION].map(Capacity::largest_m),
            [2047, 131_071]
        );
        assert_eq!([CLUBS, FEDERATION].map(Capacity::height), [7, 12]);
        assert_eq!(u16::CAPACITY, CLUBS);
        assert_eq!(u32::CAPACITY, FEDERATION);
    }

    /// Number 0 is M and stands before the ranges of the highest tree.
    #[test]
    fn the_counts_are_those_of_the_highest_tree() {
        for capacity in [CLUBS, FEDERATION] {
            assert_eq!(capacity.counts, 2 << capacity.height());
        }
    }

    #[test]
    fn every_number_of_a_store_has_room() {
        for m in [0, 1, 1024, 2047, 4224] {
            assert_eq!(u16::of(m).value(), m);
        }
        for m in [0, 1, 65_535, 65_536, 131_071, 208_896] {
            assert_eq!(u32::of(m).value(), m);
        }
        assert_eq!(u16::low_bits(0x1_2345_6789), 0x6789);
        assert_eq!(u32::low_bits(0x1_2345_6789), 0x2345_6789);
    }

    #[test]
    #[should_panic]
    fn no_number_is_cut() {
        u16::of(65_536);
    }
}
