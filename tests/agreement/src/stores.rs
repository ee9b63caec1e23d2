//! Stores and tapes that several tests begin with.

use crate::histories::{with_bits, Bits};
use crate::{Store, StoreOf};
use reference::capacity::Number;
use reference::conversions::to_number_order;
use reference::layout::{Node, Shape, SIZE, TALLIES};
use reference::places::{RETIRED, TIED};
use reference::random::SplitMix64;
use std::collections::BTreeSet;
use std::ops::Range;

/// So many words suffice for any call on a store of this width: there are fewer ranges
/// than counts.
pub const fn words_for<T: Number>() -> usize {
    let counts = T::CAPACITY.counts;
    if counts < 2048 {
        2048
    } else {
        counts
    }
}

/// A tape that suffices for any call on a store of this width.
pub fn tape_for<T: Number>(random: &mut SplitMix64) -> Vec<u32> {
    let mut words = vec![0; words_for::<T>()];
    random.fill(&mut words);
    words
}

/// The same for the clubs' store.
pub fn tape(random: &mut SplitMix64) -> Vec<u32> {
    tape_for::<u16>(random)
}

/// A list of n entries whose keys rise, all of them even and from 8 on, with bits 63
/// and 62 so often.
pub fn rising(n: usize, bits: Bits, random: &mut SplitMix64) -> Vec<u64> {
    let mut keys = BTreeSet::new();
    while keys.len() < n {
        keys.insert((random.entry() | 8) & !1 & !TIED & !RETIRED);
    }
    keys.into_iter().map(|key| with_bits(random, key, bits)).collect()
}

impl<T: Number> StoreOf<T> {
    /// The sheet of a list, a size and random balance entries.
    pub fn of_size(list: &[u64], m: usize, random: &mut SplitMix64) -> Self {
        Self::by(list, m, |_, c| random.below(c))
    }

    /// The same with given balance entries: `chosen` is given a range and the number of its
    /// candidates, and tells which candidate, from 0.
    pub fn by(list: &[u64], m: usize, mut chosen: impl FnMut(Node, usize) -> usize) -> Self {
        Self::split_by(list, m, |node, candidates| candidates.start + chosen(node, candidates.len()))
    }

    /// The same with any balance entries, which may be no candidates: `position` is given a
    /// range and the positions of its candidates among its entries, and tells that of the
    /// balance entry.
    pub fn split_by(list: &[u64], m: usize, mut position: impl FnMut(Node, Range<usize>) -> usize) -> Self {
        let shape = Shape::of(m);
        let StoreOf { mut slots, mut counts, .. } = Self::cleared();
        counts[SIZE] = T::of(m);
        shape.set_count(&mut counts, Node::ROOT, list.len());
        for node in (0..shape.height).flat_map(Node::all_at) {
            let n = shape.count(&counts, node);
            let balance = position(node, shape.candidate_positions(node.depth, n));
            shape.set_count(&mut counts, node.left(), balance);
            shape.set_count(&mut counts, node.right(), n - balance);
        }
        shape.lay_out(Node::ROOT, &mut slots, &counts, list);
        let tallies = shape.tallies(&slots);
        StoreOf { slots, counts, tallies }
    }
}

/// The clubs' sheet of a list, a size and random balance entries.
pub fn sheet_of_size(list: &[u64], m: usize, random: &mut SplitMix64) -> Store {
    Store::of_size(list, m, random)
}

/// The same with given balance entries.
pub fn sheet_by(list: &[u64], m: usize, chosen: impl FnMut(Node, usize) -> usize) -> Store {
    Store::by(list, m, chosen)
}

/// The same with any balance entries, which may be no candidates.
pub fn split_by(list: &[u64], m: usize, position: impl FnMut(Node, Range<usize>) -> usize) -> Store {
    Store::split_by(list, m, position)
}

/// Slices that are no tallies of this sheet, each with the rule that it follows. Some
/// boats of the sheet have retired, and some have not.
pub fn other_tallies(sheet: &Store, random: &mut SplitMix64) -> Vec<(&'static str, Vec<u16>)> {
    let (m, list) = (usize::from(sheet.counts[SIZE]), sheet.entries().collect::<Vec<_>>());
    let (shape, right) = (Shape::of(m), &sheet.tallies);
    let with_first = |tallies: &[u16], first: usize| [&[first as u16], &tallies[1..]].concat();
    let retired: Vec<u16> = sheet.counts.iter().zip(right).map(|(n, tally)| n - tally).collect();
    // Converted as counts are, with M for number 0.
    let mut by_number = with_first(right, m);
    assert_eq!(to_number_order(&mut by_number).number(), 0);
    let mut unused = right.clone();
    unused[TALLIES - 1] += 1;
    let mut behind = right.clone();
    behind.rotate_right(1);
    let all = vec![
        ("zeros", vec![0; TALLIES]),
        ("the counts", sheet.counts.clone()),
        ("the counts, 0 for number 0", with_first(&sheet.counts, 0)),
        ("the retired boats", with_first(&retired, 0)),
        ("M for number 0", with_first(right, m)),
        ("N for number 0", with_first(right, list.len())),
        ("all scoring boats for number 0", with_first(right, usize::from(right[1]))),
        ("the order of the range numbers", with_first(&by_number, 0)),
        ("one place behind", behind),
        ("the last number", unused),
        ("another sheet of the size", sheet_of_size(&list, m, random).tallies),
        ("another size", sheet_of_size(&list, list.len() + 1, random).tallies),
    ];
    // Those of another sheet may be right by chance, and more of them where there is one range.
    let wrong: Vec<_> = all.into_iter().filter(|(_, tallies)| tallies != right).collect();
    assert!(wrong.len() >= if shape.height == 0 { 6 } else { 10 });
    wrong
}
