//! Retired boats (document 02, F-11) on both, on a plain and on a timed sheet of the
//! same list: places without them, and ties over them, in one leaf and over several.

use agreement::histories::Bits;
use agreement::say;
use agreement::sheets::Sheets;
use agreement::stores::rising;
use reference::places::{RETIRED, TIED};
use reference::random::SplitMix64;

/// What place returns for a retired boat.
const GONE: [u64; 4] = [0, 0, 0, 1];

/// The list with these bits 63 and 62, by rank.
fn with(list: &[u64], bits: impl Fn(usize) -> u64) -> Vec<u64> {
    list.iter().enumerate().map(|(rank, entry)| entry & !TIED & !RETIRED | bits(rank)).collect()
}

/// What place returns for the boats of a group of t with place p.
fn group(p: usize, t: usize) -> [u64; 4] {
    [0, p as u64, (p..p + t).sum::<usize>() as u64, t as u64]
}

/// Boats by letters: s scores, S scores and bears bit 63, r has retired, R has
/// retired and bears bit 63; place and t of each scoring boat.
#[test]
fn worked_examples() {
    let mut random = SplitMix64::new(7200);
    let cases: [(&str, &[(usize, usize)]); 12] = [
        ("S", &[(1, 1)]),
        ("r", &[]),
        ("rS", &[(1, 1)]),
        ("RS", &[(1, 1)]),
        ("srs", &[(1, 1), (2, 1)]),
        ("srS", &[(1, 1), (2, 1)]),
        ("sRs", &[(1, 1), (2, 1)]),
        ("sRS", &[(1, 2), (1, 2)]),
        ("sRrS", &[(1, 1), (2, 1)]),
        ("srRS", &[(1, 1), (2, 1)]),
        ("srsRSSRr", &[(1, 1), (2, 3), (2, 3), (2, 3)]),
        ("RRSRSrS", &[(1, 2), (1, 2), (3, 1)]),
    ];
    for (boats, places) in cases {
        let bits: Vec<u64> = boats.bytes().map(|boat| u64::from(boat < b'a') << 63 | u64::from(boat & 31 == 18) << 62).collect();
        let list = with(&rising(boats.len(), Bits::NONE, &mut random), |rank| bits[rank]);
        let mut places = places.iter().map(|(p, t)| group(*p, *t));
        let expected: Vec<_> = bits.iter().map(|bits| if bits & RETIRED != 0 { GONE } else { places.next().unwrap() }).collect();
        for m in list.len()..2 * list.len() {
            let mut sheets = Sheets::new(7200, &list, m, &mut random);
            let found: Vec<_> = (0..list.len()).map(|rank| sheets.place(rank)).collect();
            assert_eq!(found, expected, "{boats} M {m}");
        }
    }
}

/// Every pattern of both bits; every rank, and one too high.
#[test]
fn every_pattern_of_short_lists() {
    let mut random = SplitMix64::new(7201);
    let mut made = 0;
    for n in 0..=6 {
        let list = rising(n, Bits::NONE, &mut random);
        for pattern in 0..1 << (2 * n) {
            let list = with(&list, |rank| (pattern >> (2 * rank) & 3) << 62);
            let m = n + random.below(n.max(1));
            let mut sheets = Sheets::new(pattern, &list, m, &mut random);
            sheets.places(0..=n);
            made += sheets.made();
        }
    }
    say(&format!("{made} calls"));
}

/// All boats of a sheet with several leaves tie, and one has retired, with bit 63 or
/// without it: with it the others are one group, without it they are two, but where
/// she is the first or the last.
#[test]
fn one_retired_boat_in_a_group() {
    let mut random = SplitMix64::new(7202);
    let n = 70;
    let list = rising(n, Bits::NONE, &mut random);
    for gone in 0..n {
        for bit in [0, TIED] {
            let list = with(&list, |rank| if rank == gone { RETIRED | bit } else { TIED });
            let mut sheets = Sheets::new(7202, &list, n + random.below(n), &mut random);
            let apart = bit == 0 && gone > 0;
            for rank in 0..n {
                let expected = match rank {
                    _ if rank == gone => GONE,
                    _ if !apart => group(1, n - 1),
                    _ if rank < gone => group(1, gone),
                    _ => group(gone + 1, n - 1 - gone),
                };
                assert_eq!(sheets.place(rank), expected, "rank {rank}, retired {gone}, bit {bit:X}");
            }
        }
    }
}

/// A run of retired boats between two that tie, from each rank to each rank of a
/// sheet with 8 or 16 leaves: all of the run bear bit 63, or all but one.
#[test]
fn every_run_of_retired_boats() {
    let mut random = SplitMix64::new(7203);
    let n = 70;
    let list = rising(n, Bits::NONE, &mut random);
    let mut made = 0;
    for first in 1..n - 1 {
        for last in first..n - 1 {
            let without = if random.below(2) == 0 { n } else { first + random.below(last + 1 - first) };
            let list = with(&list, |rank| match rank {
                _ if rank == without => RETIRED,
                _ if first <= rank && rank <= last => RETIRED | TIED,
                _ if rank == last + 1 => TIED,
                _ => 0,
            });
            let mut sheets = Sheets::new(7203, &list, n + random.below(n), &mut random);
            let (before, behind) = if without == n { (group(first, 2), group(first, 2)) } else { (group(first, 1), group(first + 1, 1)) };
            assert_eq!(sheets.place(first - 1), before, "ranks {first} to {last}, without the bit {without}");
            assert_eq!(sheets.place(last + 1), behind, "ranks {first} to {last}, without the bit {without}");
            assert_eq!(sheets.place(first + random.below(last + 1 - first)), GONE);
            made += sheets.made();
        }
    }
    say(&format!("{made} calls"));
}

/// Every rank of long lists with many groups, short and long ones, and few or many
/// retired boats.
#[test]
fn long_lists() {
    let mut random = SplitMix64::new(7204);
    let mut made = 0;
    for n in [64, 65, 130, 300, 1024] {
        for bits in [Bits::new(4, 4), Bits::new(14, 8), Bits::new(15, 15), Bits::new(16, 1)] {
            let list = rising(n, bits, &mut random);
            let mut sheets = Sheets::new(7204, &list, n + random.below(n), &mut random);
            sheets.places(0..n);
            made += sheets.made();
        }
    }
    say(&format!("{made} calls"));
}

/// The number of the scoring boats before each rank, on the path down: no boat ties.
#[test]
fn places_on_the_path_down() {
    let mut random = SplitMix64::new(7205);
    for (n, m) in [(64, 64), (65, 129), (200, 399), (1024, 1024), (1024, 2047)] {
        let list = rising(n, Bits::new(0, 8), &mut random);
        let mut sheets = Sheets::new(7205, &list, m, &mut random);
        let mut place = 0;
        for (rank, entry) in list.into_iter().enumerate() {
            let scores = entry & RETIRED == 0;
            place += usize::from(scores);
            let expected = if scores { group(place, 1) } else { GONE };
            assert_eq!(sheets.place(rank), expected, "N {n} M {m} rank {rank}");
        }
    }
}

/// All boats of a full sheet have retired, or all but one, at some ranks; every
/// second one bears bit 63.
#[test]
fn nobody_or_one_scores() {
    let mut random = SplitMix64::new(7206);
    let bare = rising(1024, Bits::NONE, &mut random);
    for one in [1024, 0, 1, 500, 1023] {
        let list = with(&bare, |rank| if rank == one { TIED } else { RETIRED | (rank as u64 & 1) << 63 });
        let mut sheets = Sheets::new(7206, &list, 1024 + random.below(1024), &mut random);
        for rank in 0..1024 {
            let expected = if rank == one { group(1, 1) } else { GONE };
            assert_eq!(sheets.place(rank), expected, "rank {rank}, scoring {one}");
        }
    }
}

/// Every second boat of a full sheet has retired, and all the others are one group.
#[test]
fn a_full_sheet_of_one_group() {
    let mut random = SplitMix64::new(7207);
    let bare = rising(1024, Bits::NONE, &mut random);
    for (m, odd) in [(1024, 0), (1408, 1), (2047, 0)] {
        let gone = |rank: usize| rank % 2 == odd;
        let list = with(&bare, |rank| TIED | u64::from(gone(rank)) << 62);
        let mut sheets = Sheets::new(7207, &list, m, &mut random);
        for rank in 0..1024 {
            let expected = if gone(rank) { GONE } else { [0, 1, 131_328, 512] };
            assert_eq!(sheets.place(rank), expected, "M {m} rank {rank}");
        }
    }
}
