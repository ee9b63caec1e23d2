//! Dead heats (document 02, F-3) on both, on a plain and on a timed sheet of the
//! same list: every pattern of short lists, groups in one leaf and over several,
//! and the whole sheet one group.

use agreement::histories::{with_bits, Bits};
use agreement::sheets::Sheets;
use agreement::stores::rising;
use agreement::{say, Both, Call, Store};
use reference::places::TIED;
use reference::random::SplitMix64;

/// The list with bit 63 in the entries of which `tied` says so, by their ranks.
fn tied_where(list: &[u64], tied: impl Fn(usize) -> bool) -> Vec<u64> {
    let bit = |rank| if tied(rank) { TIED } else { 0 };
    list.iter().enumerate().map(|(rank, entry)| entry & !TIED | bit(rank)).collect()
}

/// Every pattern of bits, that of rank 0 among them; every rank, and one too high.
#[test]
fn every_pattern_of_short_lists() {
    let mut random = SplitMix64::new(7100);
    let mut made = 0;
    for n in 0..=8 {
        let list = rising(n, Bits::NONE, &mut random);
        for pattern in 0..1 << n {
            let list = tied_where(&list, |rank| pattern >> rank & 1 == 1);
            let m = n + random.below(n.max(1));
            let mut sheets = Sheets::new(pattern, &list, m, &mut random);
            sheets.places(0..=n);
            made += sheets.made();
        }
    }
    say(&format!("{made} calls"));
}

/// One group, from each rank to each rank of a sheet with 8 or 16 leaves: its
/// boats and those beside it.
#[test]
fn every_group_of_a_sheet_with_leaves() {
    let mut random = SplitMix64::new(7101);
    let n = 70;
    let list = rising(n, Bits::NONE, &mut random);
    let mut made = 0;
    for first in 0..n {
        for last in first..n {
            let bit_at_0 = random.below(2) == 0;
            let list = tied_where(&list, |rank| (first < rank && rank <= last) || (rank == 0 && bit_at_0));
            let mut sheets = Sheets::new(7101, &list, n + random.below(n), &mut random);
            let boats = last - first + 1;
            let sum = (first + 1..=last + 1).sum::<usize>();
            let expected = [0, first as u64 + 1, sum as u64, boats as u64];
            for rank in [first, (first + last) / 2, last] {
                assert_eq!(sheets.place(rank), expected, "ranks {first} to {last}");
            }
            sheets.places([first.saturating_sub(1), last + 1]);
            made += sheets.made();
        }
    }
    say(&format!("{made} calls"));
}

/// Every rank of long lists with many groups, short and long ones.
#[test]
fn groups_of_long_lists() {
    let mut random = SplitMix64::new(7102);
    let mut made = 0;
    for n in [64, 65, 130, 300, 700, 1024] {
        for ties in [0, 8, 14, 15] {
            let list = rising(n, Bits::new(ties, 0), &mut random);
            let mut sheets = Sheets::new(7102, &list, n + random.below(n), &mut random);
            sheets.places(0..n);
            made += sheets.made();
        }
    }
    say(&format!("{made} calls"));
}

/// Groups of some hundred boats: a list that ties but for a few boats.
#[test]
fn groups_over_many_leaves() {
    let mut random = SplitMix64::new(7103);
    for _ in 0..20 {
        let n = 1000 + random.below(25);
        let alone = [0; 3].map(|_| random.below(n));
        let list = tied_where(&rising(n, Bits::NONE, &mut random), |rank| !alone.contains(&rank));
        let mut sheets = Sheets::new(7103, &list, n + random.below(n), &mut random);
        sheets.places((0..n).step_by(1 + random.below(9)));
        sheets.places(alone);
        sheets.places(alone.map(|rank| rank.saturating_sub(1)));
    }
}

/// All boats of a full sheet tie, with bit 63 at rank 0 or without it.
#[test]
fn a_full_sheet_of_one_group() {
    let mut random = SplitMix64::new(7104);
    for m in [1024, 1407, 1408, 2047] {
        for from in [0, 1] {
            let list = tied_where(&rising(1024, Bits::NONE, &mut random), |rank| rank >= from);
            let mut sheets = Sheets::new(7104, &list, m, &mut random);
            for rank in 0..1024 {
                assert_eq!(sheets.place(rank), [0, 1, 524_800, 1024], "M {m} rank {rank}");
            }
            assert_eq!(sheets.place(1024), [4, 0, 0, 0]);
        }
    }
}

/// 2^63, 2^62 and equal entries with and without the bits, which only a plain sheet
/// can hold.
#[test]
fn entries_of_plain_sheets() {
    let mut random = SplitMix64::new(7105);
    let mut both = Both::new(7105, Store::unused());
    both.call(Call::Clear);
    for n in 0..200 {
        let (rank, few) = (random.below(n + 1), random.below(3) as u64);
        let entry = with_bits(&mut random, few, Bits::new(14, 4)).max(1);
        let mut tape = vec![0; 300];
        random.fill(&mut tape);
        assert_eq!(both.call(Call::Insert { rank, entry, tape })[0], 0);
        for rank in 0..=n {
            both.call(Call::Place { rank });
        }
    }
    say(&format!("{} calls", both.made()));
}
