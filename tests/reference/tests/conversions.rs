//! The two conversions of the order of the counts (02, F-5): what they move, what
//! they refuse, and that all calls give on the new order what they gave on the
//! old one.

mod common;

use common::*;
use reference::calls::{Answer, Cause};
use reference::coins::Tape;
use reference::conversions::{to_number_order, to_tree_order};
use reference::layout::COUNTS;
use reference::random::SplitMix64;
use reference::shares::Store;

/// Any counts with this M.
fn random_counts(m: usize, random: &mut SplitMix64) -> Vec<u16> {
    let mut counts: Vec<u16> = (0..COUNTS).map(|_| random.next_u32() as u16).collect();
    counts[0] = m as u16;
    counts
}

/// Counts in the other order, which the conversion accepts.
fn converted(counts: &[u16], convert: fn(&mut [u16]) -> Answer) -> Vec<u16> {
    let mut counts = counts.to_vec();
    let m = usize::from(counts[0]);
    assert_eq!(convert(&mut counts), Answer::Converted { m });
    counts
}

/// The store with its counts moved to tree order.
fn in_tree_order(store: &Store) -> Store {
    let mut store = store.clone();
    assert_eq!(to_tree_order(&mut store.counts[..]).number(), 0);
    store
}

/// The counts of the ranges move to their places, everything else stays, and
/// each conversion takes back what the other did.
#[test]
fn any_counts_of_every_size() {
    let mut random = SplitMix64::new(50);
    for m in 0..=2047 {
        let counts = random_counts(m, &mut random);
        let in_tree = converted(&counts, to_tree_order);
        let ranges = 2 << height(m);
        for range in 1..ranges {
            assert_eq!(in_tree[Order::Tree.place(range, m)], counts[range]);
        }
        assert_eq!(in_tree[0], counts[0]);
        assert_eq!(in_tree[ranges..], counts[ranges..]);
        assert_eq!(converted(&in_tree, to_number_order), counts, "M {m}");
        let in_number = converted(&counts, to_number_order);
        assert_eq!(converted(&in_number, to_tree_order), counts, "M {m}");
    }
}

#[test]
fn nothing_moves_in_one_range() {
    let mut random = SplitMix64::new(51);
    for m in 0..=65 {
        let counts = random_counts(m, &mut random);
        for convert in [to_tree_order, to_number_order] {
            assert_eq!(converted(&counts, convert) == counts, m <= 64, "M {m}");
        }
    }
}

/// Cause 1 comes first: the other lengths have an M above 2,047 as well.
#[test]
fn refused_conversions() {
    let mut random = SplitMix64::new(52);
    let lengths = [0, 1, 2, 255, 257, 512, 4224].map(|length| (length, 2048, Cause::Lengths));
    let sizes = [2048, 2049, 4096, 32_768, 65_535].map(|m| (COUNTS, m, Cause::NotASheet));
    for (length, m, cause) in lengths.into_iter().chain(sizes) {
        let mut counts = random_counts(m, &mut random);
        counts.resize(length, 9);
        let before = counts.clone();
        for convert in [to_tree_order, to_number_order] {
            let answer = convert(&mut counts);
            assert_eq!(answer, Answer::Refused(cause));
            assert_eq!((answer.number(), answer.values()), (cause as u8, [0, 0, 0]));
            assert_eq!(counts, before);
        }
    }
}

#[test]
fn values_of_a_conversion() {
    let mut counts = [0; COUNTS];
    counts[0] = 1500;
    for convert in [to_tree_order, to_number_order] {
        let answer = convert(&mut counts);
        assert_eq!((answer.number(), answer.values()), (0, [1500, 0, 0]));
    }
}

/// A sheet in number order becomes the sheet of the same list, size and balance
/// entries. Unconverted it is no sheet where M > 64: there some range would have
/// another count than its halves together.
#[test]
fn old_sheets_become_sheets_of_the_same_list() {
    let mut random = SplitMix64::new(53);
    for n in 0..=1024 {
        let list: Vec<u64> = (0..n).map(|_| random.entry()).collect();
        for m in [n, n + random.below(n.max(1)), (2 * n).max(1) - 1] {
            let seed = random.below(1000);
            let balance = |range: usize, _: usize, c: usize| (range * 31 + seed) % c;
            let old = lay_out_in(Order::Number, &list, m, balance);
            let new = lay_out_in(Order::Tree, &list, m, balance);
            assert!(in_tree_order(&old) == new, "N {n} M {m}");
            assert_eq!(converted(&new.counts[..], to_number_order), &old.counts[..]);
            assert_eq!(check(&new), Answer::Checked { n });
            assert_eq!(common::list(&new), list);
            if m <= 64 {
                assert!(old == new);
            } else {
                refuse(old);
            }
        }
    }
}

/// Every call that tests the sheet meets cause 2.
fn refuse(mut store: Store) {
    let before = store.clone();
    let answers = [
        insert(&mut store, 0, 5, &[0; 300]),
        delete(&mut store, 0, &[0; 300]),
        read(&store, 0, 0, &mut [0]),
        place_of(&store, 0),
        check(&store),
    ];
    assert_eq!(answers, [Answer::Refused(Cause::NotASheet); 5]);
    assert!(store == before);
}

/// Random inserts and deletes on the rules over whole lists. Each time the store
/// in number order is converted, and the call on it leads to what the rules give
/// in number order, converted.
fn calls_on_converted_stores(seed: u64, goals: &[usize]) {
    let mut random = SplitMix64::new(seed);
    let mut model = Model::default();
    for &goal in goals {
        while model.n() != goal {
            let mut store = in_tree_order(&model.store_in(Order::Number));
            let grow = model.n() == 0 || (model.n() < goal) == (random.below(5) != 0);
            let rank = random.below(model.n() + usize::from(grow));
            let words = words(&mut random, 1024);
            let mut tape = Tape::new(&words);
            let (answer, decided) = if grow {
                let answer = insert(&mut store, rank, 8, &words);
                (answer, model.insert(rank, 8, &mut tape))
            } else {
                let answer = delete(&mut store, rank, &words);
                (answer, model.delete(rank, &mut tape))
            };
            assert_eq!(decided, Ok(()));
            let (n, words) = (model.n(), tape.place());
            assert_eq!(answer, Answer::Changed { n, words });
            assert!(store == in_tree_order(&model.store_in(Order::Number)));
        }
    }
}

#[test]
fn calls_give_what_they_gave() {
    calls_on_converted_stores(54, &[40, 30, 70, 33, 140, 60]);
    calls_on_converted_stores(55, &[1000, 900]);
}

/// Reads and places on a converted store.
#[test]
fn readings_give_what_they_gave() {
    let mut random = SplitMix64::new(56);
    for n in [1, 33, 65, 140, 300, 600, 1024] {
        let list: Vec<u64> = (0..n).map(|_| random.entry()).collect();
        let m = n + random.below(n);
        let store = in_tree_order(&lay_out_in(Order::Number, &list, m, |_, _, c| c - 1));
        for first in 0..n {
            let last = first + random.below(n - first);
            let mut output = vec![0; last - first + 1];
            let answer = read(&store, first, last, &mut output);
            assert_eq!(answer.values(), [output.len(), 0, 0]);
            assert_eq!(output, list[first..=last]);
            let place = place_of(&store, first);
            assert_eq!(place.values(), values_by_pairs(&list, first));
        }
    }
}
