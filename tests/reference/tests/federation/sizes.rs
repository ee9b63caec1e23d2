//! The size rules for M up to 131,071 (02, F-14): what a sheet needs of the store, and that
//! every sheet can be laid out. "The fitting of candidates and leaves is shown a single
//! time for all M up to there, and the small sheet follows from it."

use crate::common::*;
use reference::calls::Answer;
use reference::capacity::{Capacity, CLUBS, FEDERATION};
use reference::layout::Shape;
use reference::random::SplitMix64;
use reference::shares::StoreOf;
use reference::sizes::Size;

/// M before and behind the sizes where the shape changes, and the largest.
const EDGES: [usize; 16] = [
    64, 65, 128, 129, 1407, 1408, 2047, 2048, 4096, 4097, 32_768, 65_536, 65_537, 69_631, 69_632,
    131_071,
];

/// The slots and the counts, count 0 among them, of a sheet of size M.
fn needed(m: usize) -> [usize; 2] {
    [leaf_slots(m) << height(m), 2 << height(m)]
}

/// The least and the greatest N of a sheet of size M. 01: "N ≤ M ≤ 2N − 1."
fn lengths(m: usize) -> [usize; 2] {
    [m / 2 + 1, m.min(FEDERATION.entries)]
}

#[test]
fn every_sheet_has_room_in_its_store() {
    for capacity in [CLUBS, FEDERATION] {
        let Capacity { slots, counts, .. } = capacity;
        let sizes = (0..=capacity.largest_m()).map(needed);
        // No more than these, and both are attained.
        let most = sizes.fold([0, 0], |[s, c], [slots, counts]| {
            [s.max(slots), c.max(counts)]
        });
        assert_eq!(most, [slots, counts]);
    }
}

#[test]
fn the_numbers_of_every_size() {
    for m in 0..=FEDERATION.largest_m() {
        let (size, shape) = (Size::new(m), Shape::of(m));
        assert_eq!([shape.slots(), 2 * shape.leaves()], needed(m), "M {m}");
        assert_eq!(size.slots(), needed(m)[0] as u128, "M {m}");
        assert_eq!((size.height(), shape.height), (height(m), height(m)));
        for depth in 0..shape.height {
            let c = candidates(m, depth);
            assert_eq!([size.candidates(depth), shape.candidates(depth)], [c; 2]);
        }
    }
}

/// g, h, slots and root candidates, worked out by hand.
#[test]
fn marks() {
    for (m, g, h, slots, c) in [
        (2048, 11, 7, 4224, 47),
        (2049, 12, 7, 4608, 43),
        (4096, 12, 8, 9216, 86),
        (65_536, 16, 12, 196_608, 1024),
        (65_537, 17, 11, 104_448, 964),
        (69_631, 17, 11, 104_448, 1024),
        (69_632, 17, 12, 208_896, 1024),
        (131_071, 17, 12, 208_896, 1928),
    ] {
        let size = Size::new(m);
        let numbers = (size.g(), size.height(), size.slots(), size.candidates(0));
        assert_eq!(numbers, (g, h, slots, c), "M {m}");
    }
}

/// The fewest and the most entries of a half, of a range with n entries and c candidates,
/// which fit.
fn halves(n: usize, c: usize) -> (usize, usize) {
    let first = first_candidate(n, c) - 1;
    let last = first + c - 1;
    (first.min(n - last), last.max(n - first))
}

/// The fewest and the most entries of a leaf of any sheet with this N and M. Candidates fit
/// in every range of the depth where they fit in the shortest.
fn leaves(n: usize, m: usize) -> (usize, usize) {
    (0..height(m)).fold((n, n), |(least, most), depth| {
        let c = candidates(m, depth);
        (halves(least, c).0, halves(most, c).1)
    })
}

/// So the shortest range of a depth has the shortest half, and the longest the longest;
/// and the least and the greatest N of an M have the shortest and the longest leaf.
#[test]
fn a_longer_range_has_longer_halves() {
    let most = candidates(FEDERATION.largest_m(), 0);
    for c in 1..=most {
        for n in c..FEDERATION.entries {
            let ((least, greatest), (least_on, greatest_on)) = (halves(n, c), halves(n + 1, c));
            assert!(least <= least_on && greatest <= greatest_on, "n {n} c {c}");
        }
    }
}

/// "candidates always fit, no leaf holds more entries than slots, and for M > 64 no leaf is
/// empty", for every M.
#[test]
fn every_sheet_can_be_laid_out() {
    for m in 1..=FEDERATION.largest_m() {
        let [least, greatest] = lengths(m);
        let allowed = [least - 1, least, greatest, greatest + 1];
        let allowed = allowed.map(|n| allows_in(FEDERATION, m, n));
        assert_eq!(allowed, [false, true, true, false], "M {m}");
        let (fewest, most) = (leaves(least, m).0, leaves(greatest, m).1);
        assert!(most <= leaf_slots(m), "M {m}");
        assert!(m <= 64 || fewest > 0, "M {m}");
    }
}

/// Every N that the sizes at the edges allow.
#[test]
fn every_length_of_some_sizes() {
    for m in EDGES {
        let [least, greatest] = lengths(m);
        for n in least..=greatest {
            let (fewest, most) = leaves(n, m);
            assert!(most <= leaf_slots(m), "M {m} N {n}");
            assert!(m <= 64 || fewest > 0, "M {m} N {n}");
        }
    }
}

/// The store is a sheet of n entries, and each leaf has at least one of them, M > 64, and
/// at most one for each slot. The counts of its leaves.
fn leaf_counts(store: &StoreOf<u32>, n: usize) -> Vec<usize> {
    assert_eq!(check(store), Answer::Checked { n });
    let (m, leaves) = (m(store), 1 << height(m(store)));
    let counts: Vec<usize> = (leaves..2 * leaves)
        .map(|range| count(store, range))
        .collect();
    let fits = |&count: &usize| count <= leaf_slots(m) && (count > 0 || m <= 64);
    assert!(counts.iter().all(fits), "M {m} N {n}");
    assert_eq!(counts.iter().sum::<usize>(), n);
    counts
}

/// Where each balance entry is the first candidate, the first leaf has the fewest entries
/// that a leaf can have, and the last one the most; and sheets where it is the last
/// candidate, or one and the other in turn.
#[test]
fn extreme_sheets() {
    for m in EDGES {
        for n in lengths(m) {
            let list = boats(n as u64);
            let first = leaf_counts(&lay_out_as(&list, m, |_, _, _| 0), n);
            assert_eq!((first[0], first[first.len() - 1]), leaves(n, m), "M {m}");
            leaf_counts(&lay_out_as(&list, m, |_, _, c| c - 1), n);
            leaf_counts(&lay_out_as(&list, m, |range, _, c| range % 2 * (c - 1)), n);
            leaf_counts(
                &lay_out_as(&list, m, |range, _, c| (range + 1) % 2 * (c - 1)),
                n,
            );
        }
    }
}

/// Random M, half of them large, with random N and random balance entries.
#[test]
fn random_sheets() {
    let mut random = SplitMix64::new(400);
    for trial in 0..120 {
        let most = [FEDERATION.largest_m(), 1 << (1 + random.below(17))][trial % 2];
        let m = 1 + random.below(most.min(FEDERATION.largest_m()));
        let [least, greatest] = lengths(m);
        let n = least + random.below(greatest - least + 1);
        let store = lay_out_as(&boats(n as u64), m, |_, _, c| random.below(c));
        leaf_counts(&store, n);
    }
}
