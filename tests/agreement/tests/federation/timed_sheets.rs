//! Timed sheets: finds, inserts by entry in any order, third slices that are wrong, lists that do not
//! rise, and the order of the causes.

use crate::{all_timed_calls, called, number, sheet, sheet_of, some_size, tape, Timed, BITS, FULL, LENGTHS, LOWEST};
use agreement::histories::Bits;
use agreement::stores::rising;
use agreement::timed::Call;
use agreement::{say, Both};
use reference::layout::Shape;
use reference::order::place;
use reference::places::{RETIRED, TIED};
use reference::random::SplitMix64;

/// What the nine calls return where the third slice alone is wrong, and where the list is that of no
/// timed sheet.
const REFUSED_11: [u64; 9] = [11, 11, 11, 11, 11, 11, 11, 0, 0];
const NOT_MENDABLE: [u64; 9] = [11, 11, 11, 11, 11, 11, 11, 0, 18];

/// Entries that are there, balance entries among them, with their own bits 63 and 62 and with others;
/// their neighbours; and entries below and above all.
#[test]
fn finds() {
    let mut random = SplitMix64::new(8300);
    let mut made = 0;
    for n in LENGTHS {
        for m in [n, some_size(n, &mut random), (2 * n).max(1) - 1] {
            let list = rising(n, Bits::SOME, &mut random);
            let store = Timed::of_size(&list, m, &mut random);
            let leaves = Shape::of(m).leaves();
            let balance: Vec<u64> = (0..8).map(|_| store.balance[random.below(leaves)]).filter(|word| *word != 0).collect();
            let mut both = Both::new(8300, store);
            let mut ranks: Vec<usize> = balance.iter().map(|word| list.binary_search_by_key(&(word << 2), |entry| entry << 2).unwrap()).collect();
            if n > 0 {
                ranks.extend([0, n - 1]);
                ranks.extend((0..12).map(|_| random.below(n)));
            }
            for rank in ranks {
                let (entry, rank) = (list[rank], rank as u64);
                for entry in [entry, entry ^ BITS[(rank % 3) as usize]] {
                    assert_eq!(both.call(Call::Find { entry }), [0, 1, rank, 0], "N {n} M {m}");
                    assert_eq!(both.call(Call::Find { entry: entry - 1 }), [0, 0, rank, 0], "N {n} M {m}");
                    assert_eq!(both.call(Call::Find { entry: entry + 1 }), [0, 0, rank + 1, 0], "N {n} M {m}");
                }
            }
            for bits in [0, TIED, RETIRED, TIED | RETIRED] {
                assert_eq!(both.call(Call::Find { entry: 1 | bits }), [0, 0, 0, 0], "N {n} M {m}");
                assert_eq!(both.call(Call::Find { entry: (RETIRED - 1) | bits }), [0, 0, n as u64, 0], "N {n} M {m}");
            }
            made += both.made();
        }
    }
    say(&format!("{made} calls"));
}

/// The list of a sheet does not depend on the order of the inserts, which goes past the clubs' 1,024.
#[test]
fn inserts_in_any_order() {
    let mut random = SplitMix64::new(8310);
    let list = rising(1100, Bits::SOME, &mut random);
    let mut both = Both::new(8310, Timed::unused());
    both.call(Call::Clear);
    let mut left = list.clone();
    while !left.is_empty() {
        let entry = left.swap_remove(random.below(left.len()));
        let [number, n, ..] = both.call(Call::Insert { entry, tape: tape(&mut random) });
        assert_eq!((number, n as usize), (0, list.len() - left.len()));
    }
    assert!(both.store.entries().eq(list.iter().copied()));
    while both.store.n() > 0 {
        let rank = random.below(both.store.n());
        assert_eq!(both.call(Call::Delete { rank, tape: tape(&mut random) })[0], 0);
    }
    assert!(both.store == Timed::cleared());
    say(&format!("{} calls", both.made()));
}

/// An entry goes in between its neighbours, whatever its bits, on sheets of any length.
#[test]
fn inserts_at_their_rank() {
    let mut random = SplitMix64::new(8311);
    for n in [1024, 2047, 4096, 16_384, 65_535] {
        let sound = sheet(n, &mut random);
        let list: Vec<u64> = sound.entries().collect();
        for rank in [0, 1, n / 2, n - 1, n, random.below(n)] {
            let entry = if rank == n { list[n - 1] + 1 } else { list[rank] - 1 } ^ BITS[rank % 3];
            let ([number, ..], after) = called(&sound, Call::Insert { entry, tape: tape(&mut random) });
            assert_eq!((number, after.entries().nth(rank)), (0, Some(entry)), "N {n} rank {rank}");
            assert_eq!(called(&after, Call::Find { entry }).0, [0, 1, rank as u64, 0], "N {n} rank {rank}");
        }
    }
}

/// Single words of the third slice, used ones and unused ones, in any bit.
#[test]
fn words_of_the_third_slice_changed() {
    let mut random = SplitMix64::new(8320);
    for n in LENGTHS {
        let sound = sheet(n, &mut random);
        let leaves = Shape::of(sound.counts[0] as usize).leaves();
        let some = [0, 1, 255, 256, 4095, 4096, 8191, leaves - 1, leaves, random.below(leaves), random.below(8192)];
        for (k, word) in some.into_iter().enumerate() {
            let mut store = sound.clone();
            store.balance[word] ^= [1, TIED, RETIRED, 1 << 40][k % 4];
            assert_eq!(number(&store, Call::Check), 11, "N {n} word {word}");
        }
        let mut store = sound.clone();
        store.balance[random.below(leaves)] ^= 1 << random.below(64);
        assert_eq!(all_timed_calls(&store), REFUSED_11, "N {n}");
    }
}

/// The third slices of other sheets of the list, and a slice in the order of the counts, in trees of up to
/// 13 levels.
#[test]
fn another_third_slice() {
    let mut random = SplitMix64::new(8321);
    for n in [65, 1024, 2047, 4096, 16_384, FULL] {
        for m in [n, 2 * n - 1] {
            let list = rising(n, Bits::SOME, &mut random);
            let sheet = Timed::of_size(&list, m, &mut random);
            let levels = Shape::of(m).height + 1;
            let mut in_tree_order = vec![0; 8192];
            (1..1 << levels).for_each(|range| in_tree_order[place(range, levels)] = sheet.balance[range]);
            let of_another = Timed::of_size(&list, m, &mut random).balance;
            for balance in [vec![0; 8192], in_tree_order, of_another] {
                assert!(balance != sheet.balance);
                let store = Timed { balance, ..sheet.clone() };
                assert_eq!(all_timed_calls(&store), REFUSED_11, "N {n} M {m}");
            }
        }
    }
}

/// Neighbours whose keys fall or are equal, in one leaf or in two, whatever their bits, and a first entry
/// without a key; the third slice is that of their own balance entries. The plain store is a sheet.
#[test]
fn lists_that_do_not_rise() {
    let mut random = SplitMix64::new(8330);
    for n in LENGTHS.into_iter().filter(|n| *n > 1) {
        for rank in [1, n - 1, 1 + random.below(n - 1)] {
            let list = rising(n, Bits::SOME, &mut random);
            let (mut falls, mut stays, mut without) = (list.clone(), list.clone(), list);
            falls.swap(rank - 1, rank);
            stays[rank] = stays[rank - 1] ^ [0, TIED, RETIRED][rank % 3];
            without[0] = BITS[rank % 3];
            for list in [falls, stays, without] {
                let store = Timed::of_size(&list, some_size(n, &mut random), &mut random);
                assert_eq!(all_timed_calls(&store), NOT_MENDABLE, "N {n} rank {rank}");
                assert_eq!(number(&store.plain(), agreement::Call::Check), 0, "N {n} rank {rank}");
            }
        }
    }
}

/// The order 1, 2, 11, 3, 10, 5, 7 of an insert, 1, 2, 11, 3 of a find, 1, 2, 11, 4, 7 of a delete, 1, 2,
/// 11, 4, 6 of a read, 1, 2, 11, 4 of a place, 1, 2, 11, 16, 4, 6 of a board, 1, 2, 11 of a check, 1, 18 of
/// mending and 1 of a clear: from calls that all of them refuse, one after the other is put right.
#[test]
fn order_of_the_causes() {
    let mut random = SplitMix64::new(8340);
    let full = sheet_of(FULL, FULL, &mut random);
    let there = full.entries().nth(40_000).unwrap();
    let mut not_timed = full.clone();
    not_timed.balance[8191] = 1;
    let mut no_sheet = not_timed.clone();
    no_sheet.tallies[0] = 1;
    let mut short = no_sheet.clone();
    short.balance.pop();
    let insert = |store: &Timed, entry| number(store, Call::Insert { entry, tape: vec![] });
    let board = |store: &Timed, ranks: [u64; 3]| number(store, Call::Board { ranks: ranks.to_vec(), output: vec![5; 2] });
    let read = |store: &Timed, last| number(store, Call::Read { first: 1, last, output: vec![] });
    let beyond = FULL as u64;
    for (store, first) in [(&short, 1), (&no_sheet, 2), (&not_timed, 11), (&full, 0)] {
        let or = |own: u64| if first == 0 { own } else { first };
        assert_eq!([0, TIED, RETIRED, TIED | RETIRED].map(|entry| insert(store, entry)), [or(3); 4]);
        assert_eq!([there, there ^ TIED, there ^ RETIRED].map(|entry| insert(store, entry)), [or(10); 3]);
        assert_eq!(insert(store, LOWEST), or(5));
        assert_eq!([0, TIED, RETIRED, TIED | RETIRED].map(|entry| number(store, Call::Find { entry })), [or(3); 4]);
        assert_eq!(number(store, Call::Delete { rank: FULL, tape: vec![] }), or(4));
        assert_eq!([read(store, FULL), read(store, 0)], [or(4); 2]);
        assert_eq!(read(store, FULL - 1), or(6));
        assert_eq!(number(store, Call::Place { rank: FULL }), or(4));
        assert_eq!(board(store, [0, beyond, 0]), or(16));
        assert_eq!(board(store, [0, beyond, beyond]), or(4));
        assert_eq!(board(store, [0, beyond - 1, beyond - 1]), or(6));
        assert_eq!(number(store, Call::Check), first);
        assert_eq!([Call::Clear, Call::Mend].map(|call| number(store, call)), [u64::from(first == 1); 2]);
    }
    let mut lost = full;
    lost.slots[208_895] = there;
    assert_eq!(number(&lost, Call::Mend), 18);
    lost.balance.pop();
    assert_eq!(number(&lost, Call::Mend), 1);
    // M = N: each insert draws. M = 2N − 1: each delete does.
    let [least, greatest] = [65_535, 131_069].map(|m| sheet_of(65_535, m, &mut random));
    assert_eq!(insert(&least, least.entries().last().unwrap()), 10);
    assert_eq!(insert(&least, LOWEST), 7);
    assert_eq!(number(&greatest, Call::Delete { rank: 65_534, tape: vec![] }), 7);
}
