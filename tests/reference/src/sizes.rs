//! Size rules (01, "Size rules"), for any M.

use crate::capacity::CLUBS;
use std::ops::Range;

/// The longest list of the clubs.
pub const MAX_ENTRIES: usize = CLUBS.entries;
/// The largest M of a clubs' sheet.
pub const MAX_SIZE: usize = CLUBS.largest_m();

/// The size parameter M. It gives its own g, height, slots and candidates.
#[derive(Clone, Copy, Debug, PartialEq, Eq, PartialOrd, Ord)]
pub struct Size(usize);

impl Size {
    pub const fn new(m: usize) -> Self {
        Size(m)
    }

    pub const fn m(self) -> usize {
        self.0
    }

    /// 01: "N = 0 has M = 0. Otherwise N ≤ M ≤ 2N − 1."
    pub const fn allows(self, n: usize) -> bool {
        if n == 0 {
            self.0 == 0
        } else {
            // M ≤ 2N − 1, without a sum that could overflow.
            n <= self.0 && self.0 - n < n
        }
    }

    /// 01: "M ≤ 64: one range, M slots."
    const fn is_one_range(self) -> bool {
        self.0 <= 64
    }

    /// 01: "g is the number of binary digits of M − 1". The rules use it for
    /// M > 64 only; 0 has no digits here, and M = 0 gives 0.
    pub const fn g(self) -> usize {
        (usize::BITS - self.0.saturating_sub(1).leading_zeros()) as usize
    }

    /// 01: "The height h is the largest whole number with g × 2^h ≤ M"; 0 for
    /// a single range.
    pub const fn height(self) -> usize {
        if self.is_one_range() {
            return 0;
        }
        let mut h = 0;
        while (self.g() as u128) << (h + 1) <= self.0 as u128 {
            h += 1;
        }
        h
    }

    /// The number of leaves, 2^h.
    pub const fn leaves(self) -> usize {
        1 << self.height()
    }

    /// Slots of each leaf: 3g, or M for a single range.
    pub const fn leaf_slots(self) -> usize {
        if self.is_one_range() {
            self.0
        } else {
            3 * self.g()
        }
    }

    /// Slots of the sheet: 3g × 2^h, or M for a single range.
    pub const fn slots(self) -> u128 {
        self.leaf_slots() as u128 * self.leaves() as u128
    }

    /// 01: "A range above the leaves at depth d has c = ⌈M / (4g × 2^d)⌉
    /// candidates." A leaf has none.
    pub const fn candidates(self, depth: usize) -> usize {
        if depth >= self.height() {
            return 0;
        }
        let unit = (4 * self.g() as u128) << depth;
        ((self.0 as u128 + unit - 1) / unit) as usize
    }
}

/// The positions, from 0, of the `c` candidates among `n` entries; none where
/// they do not fit.
///
/// 01: "candidates are its entries number 1 + ⌈n/2⌉ − ⌈c/2⌉ onward, c of them,
/// counted from 1. They fit exactly when c ≤ n."
pub const fn candidate_positions(n: usize, c: usize) -> Option<Range<usize>> {
    if c > n {
        return None;
    }
    // ⌈n/2⌉ is n − ⌊n/2⌋.
    let first = (n - n / 2) - (c - c / 2);
    Some(first..first + c)
}

/// 02, F-2: "Entry k of n in s slots now stands in slot ⌊(2k + 1) × s / (2n)⌋."
/// These slots in order, k from 0 to n − 1: the first is s / (2n) with its
/// remainder, and each step adds twice that, so with one division for the whole
/// leaf.
#[derive(Clone, Copy, Debug)]
pub struct Spread {
    left: usize,
    divisor: usize,
    slot: usize,
    remainder: usize,
    slot_step: usize,
    remainder_step: usize,
}

impl Spread {
    pub fn new(entries: usize, slots: usize) -> Self {
        let divisor = 2 * entries.max(1);
        let (slot, remainder) = (slots / divisor, slots % divisor);
        let carry = usize::from(2 * remainder >= divisor);
        Spread {
            left: entries,
            divisor,
            slot,
            remainder,
            slot_step: 2 * slot + carry,
            remainder_step: 2 * remainder - carry * divisor,
        }
    }
}

impl Iterator for Spread {
    type Item = usize;

    #[inline]
    fn next(&mut self) -> Option<usize> {
        if self.left == 0 {
            return None;
        }
        self.left -= 1;
        let slot = self.slot;
        self.slot += self.slot_step;
        self.remainder += self.remainder_step;
        if self.remainder >= self.divisor {
            self.remainder -= self.divisor;
            self.slot += 1;
        }
        Some(slot)
    }
}

#[cfg(test)]
mod tests {
    use super::*;

    fn candidates_by_depth(m: usize) -> Vec<usize> {
        let size = Size::new(m);
        (0..size.height()).map(|d| size.candidates(d)).collect()
    }

    #[test]
    fn marks_of_sizes() {
        let size = Size::new(64);
        assert_eq!((size.slots(), size.leaves(), size.height()), (64, 1, 0));

        let size = Size::new(65);
        assert_eq!((size.g(), size.height(), size.slots()), (7, 3, 168));
        assert_eq!(candidates_by_depth(65), [3, 2, 1]);

        assert_eq!(Size::new(128).slots(), 336);

        let size = Size::new(129);
        assert_eq!((size.g(), size.height(), size.slots()), (8, 4, 384));

        assert_eq!(Size::new(1407).slots(), 2112);
        assert_eq!(Size::new(1408).slots(), 4224);

        let size = Size::new(2047);
        assert_eq!((size.g(), size.height(), size.candidates(0)), (11, 7, 47));
    }

    #[test]
    fn marks_of_candidates() {
        // Entries 4 to 6 and 5 to 7, counted from 1.
        assert_eq!(candidate_positions(10, 3), Some(3..6));
        assert_eq!(candidate_positions(11, 3), Some(4..7));
        // With c even: entries 5 and 6 of 10, 6 and 7 of 11.
        assert_eq!(candidate_positions(10, 2), Some(4..6));
        assert_eq!(candidate_positions(11, 2), Some(5..7));
    }

    #[test]
    fn candidates_fit_exactly_up_to_n() {
        for n in 0..60 {
            for c in 0..60 {
                match candidate_positions(n, c) {
                    Some(positions) => {
                        assert!(c <= n);
                        assert!(positions.end <= n && positions.len() == c);
                    }
                    None => assert!(c > n),
                }
            }
        }
    }

    #[test]
    fn allowed_lengths() {
        assert!(Size::new(0).allows(0) && !Size::new(1).allows(0));
        for n in 1..50 {
            for m in 0..120 {
                assert_eq!(Size::new(m).allows(n), n <= m && m < 2 * n);
            }
        }
        assert!(Size::new(usize::MAX).allows(usize::MAX));
        assert!(!Size::new(usize::MAX - 1).allows(usize::MAX));
    }

    /// Each derived number against its sentence, read with other arithmetic.
    #[test]
    fn derived_numbers_by_their_sentences() {
        for m in 65..5000 {
            let size = Size::new(m);
            let g = format!("{:b}", m - 1).len();
            assert_eq!(size.g(), g);
            let h = (0..20).filter(|&h| g * (1 << h) <= m).max().unwrap();
            assert_eq!(size.height(), h);
            assert_eq!(size.slots(), (3 * g * (1 << h)) as u128);
            for d in 0..h {
                let unit = 4 * g * (1 << d);
                let c = size.candidates(d);
                assert!(c * unit >= m && (c - 1) * unit < m);
            }
        }
    }

    #[test]
    fn the_largest_size_does_not_overflow() {
        let size = Size::new(usize::MAX);
        assert_eq!(size.g(), 64);
        assert_eq!(size.height(), 57);
        assert_eq!(size.slots(), 192 << 57);
        assert_eq!(size.candidates(0), 1 << 56);
        assert_eq!(size.candidates(56), 1);
        assert_eq!(size.candidates(57), 0);
    }

    fn spread(n: usize, s: usize) -> Vec<usize> {
        Spread::new(n, s).collect()
    }

    #[test]
    fn spread_by_its_formula() {
        for s in 0..70 {
            for n in 0..=s {
                let floors: Vec<usize> = (0..n).map(|k| (2 * k + 1) * s / (2 * n)).collect();
                assert_eq!(spread(n, s), floors);
            }
        }
    }

    #[test]
    fn spread_by_hand() {
        // The sheet printed in 01, with the second entry in the last slot.
        assert_eq!(spread(2, 3), [0, 2]);
        // 21/8, 63/8, 105/8 and 147/8.
        assert_eq!(spread(4, 21), [2, 7, 13, 18]);
        assert_eq!(spread(1, 1), [0]);
        assert_eq!(spread(3, 3), [0, 1, 2]);
    }

    /// 01: "for every M to 2,047 and every allowed N: candidates always fit, no
    /// leaf holds more entries than slots, and for M > 64 no leaf is empty."
    #[test]
    fn every_sheet_can_be_laid_out() {
        for m in 1..=2047 {
            let size = Size::new(m);
            for n in (1..=MAX_ENTRIES).filter(|&n| size.allows(n)) {
                // The least and most entries of a range at each depth.
                let (mut least, mut most) = (n, n);
                for d in 0..size.height() {
                    let halves = (least..=most).flat_map(|n| {
                        let left =
                            candidate_positions(n, size.candidates(d)).expect("candidates fit");
                        [left.start, left.end - 1, n - left.start, n + 1 - left.end]
                    });
                    let (low, high) = halves.fold((usize::MAX, 0), |(low, high), half| {
                        (low.min(half), high.max(half))
                    });
                    (least, most) = (low, high);
                }
                assert!(most <= size.leaf_slots(), "M {m} N {n}");
                assert!(m <= 64 || least > 0, "M {m} N {n}");
            }
        }
    }
}
