//! Van Emde Boas order (02, F-5) for trees of 1 to 13 levels: a permutation, and
//! the one of a formula that is written another way (`common::place`).

mod common;

use common::place;
use reference::order::{self, ranges};

const LEVELS: std::ops::RangeInclusive<usize> = 1..=13;

#[test]
fn every_range_stands_once() {
    for levels in LEVELS {
        let mut order = ranges(1, levels);
        order.sort_unstable();
        assert!(order.into_iter().eq(1..1 << levels), "{levels} levels");
    }
}

#[test]
fn ranges_stand_where_the_formula_says() {
    for levels in LEVELS {
        for (range, stands) in ranges(1, levels).into_iter().zip(1..) {
            assert_eq!(place(range, levels), stands, "range {range}, {levels}");
            assert_eq!(order::place(range, levels), stands);
        }
    }
}

/// The root comes first and the last leaf last; the left half of a range stands
/// behind it and before its right half.
#[test]
fn ranges_stand_before_their_halves() {
    for levels in LEVELS {
        assert_eq!(order::place(1, levels), 1);
        let last = (1 << levels) - 1;
        assert_eq!(order::place(last, levels), last);
        for range in 1..1 << (levels - 1) {
            let stands = [range, 2 * range, 2 * range + 1].map(|k| order::place(k, levels));
            assert!(stands[0] < stands[1] && stands[1] < stands[2]);
        }
    }
}

/// A place here and there, worked out by hand.
#[test]
fn places_by_hand() {
    // Four levels: behind the upper three ranges, three for each quarter.
    assert_eq!([4, 5, 6, 7].map(|k| order::place(k, 4)), [4, 7, 10, 13]);
    // Six levels: three above, of seven ranges, and eight trees of seven.
    assert_eq!([8, 9, 15].map(|k| order::place(k, 6)), [8, 15, 57]);
    // Seven levels: three above, and eight trees of four levels, 15 ranges.
    assert_eq!([8, 9, 15].map(|k| order::place(k, 7)), [8, 23, 113]);
    // Eight levels: four above, 15 ranges, and 16 trees of 15.
    assert_eq!([16, 17, 31].map(|k| order::place(k, 8)), [16, 31, 241]);
    assert_eq!([128, 129, 255].map(|k| order::place(k, 8)), [20, 21, 255]);
    // Thirteen: six above, 63 ranges, and 64 trees of seven levels, 127.
    assert_eq!([64, 65, 127].map(|k| order::place(k, 13)), [64, 191, 8065]);
}
