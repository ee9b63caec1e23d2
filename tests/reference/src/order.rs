//! Van Emde Boas order: where the counts of the ranges stand (02, F-5).

use crate::capacity::FEDERATION;

/// The ranges of the tree of `levels` levels under range `root`, in the order in
/// which their counts stand. A tree has at least one level.
///
/// 02, F-5: "A tree of one level is its range; one of H levels is its top ⌊H/2⌋
/// levels stored so, followed by each lower subtree so stored, from left to
/// right."
pub fn ranges(root: usize, levels: usize) -> Vec<usize> {
    if levels == 1 {
        return vec![root];
    }
    let top = levels / 2;
    let mut stored = ranges(root, top);
    for subtree in root << top..(root + 1) << top {
        stored.extend(ranges(subtree, levels - top));
    }
    stored
}

/// The place, from 1, of range `k` in the tree of `levels` levels under range 1:
/// the same sentence, read for one range.
pub const fn place(k: usize, levels: usize) -> usize {
    if levels == 1 {
        return 1;
    }
    let top = levels / 2;
    let depth = (usize::BITS - 1 - k.leading_zeros()) as usize;
    if depth < top {
        return place(k, top);
    }
    // The root of the lower subtree that k is in, and the number that k has if
    // that root is numbered 1.
    let below = depth - top;
    let subtree = k >> below;
    let inside = k - (subtree << below) + (1 << below);
    let subtrees_before = subtree - (1 << top);
    ranges_of(top) + subtrees_before * ranges_of(levels - top) + place(inside, levels - top)
}

/// How many ranges a tree of so many levels has.
const fn ranges_of(levels: usize) -> usize {
    (1 << levels) - 1
}

/// The levels of the highest tree, that of the federation's largest sheets.
const LEVELS: usize = FEDERATION.height() + 1;

/// The places of the ranges of all trees of 1 to 13 levels, each worked out by the rule;
/// 02, F-14: "trees of more than eight levels are worked out by the rule of F-5". Range k
/// of the tree of L levels has number 2^L + k here. 02, F-5: "Count 0 stays first".
static PLACES: [u16; 2 << LEVELS] = all_places();

/// The places of the ranges in the tree of a sheet of this height, which has one level
/// more.
pub fn places(height: usize) -> &'static [u16] {
    let numbers = ranges_of(height + 1) + 1;
    &PLACES[numbers..2 * numbers]
}

const fn all_places() -> [u16; 2 << LEVELS] {
    let mut places = [0; 2 << LEVELS];
    let mut levels = 1;
    while levels <= LEVELS {
        let mut k = 1;
        while k <= ranges_of(levels) {
            places[(1 << levels) + k] = place(k, levels) as u16;
            k += 1;
        }
        levels += 1;
    }
    places
}

#[cfg(test)]
mod tests {
    use super::*;

    /// Worked out by hand from the sentence.
    #[test]
    fn small_trees_by_hand() {
        assert_eq!(ranges(1, 1), [1]);
        assert_eq!(ranges(1, 2), [1, 2, 3]);
        assert_eq!(ranges(1, 3), [1, 2, 4, 5, 3, 6, 7]);
        assert_eq!(
            ranges(1, 4),
            [1, 2, 3, 4, 8, 9, 5, 10, 11, 6, 12, 13, 7, 14, 15]
        );
        let five_levels = [
            &[1, 2, 3][..],
            &[4, 8, 16, 17, 9, 18, 19],
            &[5, 10, 20, 21, 11, 22, 23],
            &[6, 12, 24, 25, 13, 26, 27],
            &[7, 14, 28, 29, 15, 30, 31],
        ];
        assert_eq!(ranges(1, 5), five_levels.concat());
    }

    /// The tree of 2,047: the four upper levels, then 16 trees of four levels.
    #[test]
    fn eight_levels_are_trees_of_four() {
        let order = ranges(1, 8);
        assert_eq!(order[..15], ranges(1, 4));
        for (subtree, part) in (16..32).zip(order[15..].chunks_exact(15)) {
            assert_eq!(part[..3], [subtree, 2 * subtree, 2 * subtree + 1]);
            assert_eq!(part[3..6], [4 * subtree, 8 * subtree, 8 * subtree + 1]);
            assert_eq!(part[14], 8 * subtree + 7);
        }
    }

    #[test]
    fn place_is_where_the_range_stands() {
        for levels in 1..=13 {
            for (k, stands) in ranges(1, levels).into_iter().zip(1..) {
                assert_eq!(place(k, levels), stands, "range {k} of {levels} levels");
            }
        }
    }

    #[test]
    fn tables_hold_the_places() {
        for height in 0..=FEDERATION.height() {
            let (places, order) = (places(height), ranges(1, height + 1));
            assert_eq!((places.len(), places[0]), (order.len() + 1, 0));
            for (k, stands) in order.into_iter().zip(1..) {
                assert_eq!(usize::from(places[k]), stands);
            }
        }
    }
}
