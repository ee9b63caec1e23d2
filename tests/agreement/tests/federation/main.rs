//! The federation's store (document 02, F-14) on both, plain and timed: histories, each
//! cause, stores damaged at random, readings, finds, mending, and exact shares.

mod histories;
mod mend;
mod readings;
mod refusals;
mod shares;
mod timed_sheets;

use agreement::histories::Bits;
use agreement::proved::Linked;
use agreement::stores::{rising, tape_for, words_for};
use agreement::{timed, Both, Call, Lent, Returned, StoreOf};
use reference::capacity::FEDERATION;
use reference::places::{RETIRED, TIED};
use reference::random::SplitMix64;

type Store = StoreOf<u32>;
type Timed = timed::StoreOf<u32>;

/// The longest list.
const FULL: usize = FEDERATION.entries;
/// The empty list, those before and behind the lengths where the clubs' sheets end and where
/// the tree of M = N gets one level more, and the longest ones.
const LENGTHS: [usize; 14] = [0, 1, 64, 65, 1024, 1025, 2047, 2048, 4096, 8192, 16_384, 32_769, 65_535, FULL];

/// An entry below all those of a sheet made here.
const LOWEST: u64 = 3;
/// An entry with these bits alone has no key.
const BITS: [u64; 3] = [TIED, RETIRED, TIED | RETIRED];
/// What the calls return where slots are those of a sheet and counts or tallies are wrong:
/// clear and mend accept the store.
const REFUSED_2: [u64; 8] = [2, 2, 2, 2, 2, 2, 0, 0];
const TIMED_2: [u64; 9] = [2, 2, 2, 2, 2, 2, 2, 0, 0];

/// A size that a list of n entries can have.
fn some_size(n: usize, random: &mut SplitMix64) -> usize {
    n + random.below(n.max(1))
}

/// A timed sheet of n entries and this size.
fn sheet_of(n: usize, m: usize, random: &mut SplitMix64) -> Timed {
    Timed::of_size(&rising(n, Bits::SOME, random), m, random)
}

/// The same of any size that it can have.
fn sheet(n: usize, random: &mut SplitMix64) -> Timed {
    let m = some_size(n, random);
    sheet_of(n, m, random)
}

/// A tape that suffices for any call.
fn tape(random: &mut SplitMix64) -> Vec<u32> {
    tape_for::<u32>(random)
}

/// The call on a copy of the store, on both: what it returns, and the copy. Where it is
/// refused, the copy is the store.
fn called<S: Lent>(store: &S, call: S::Call) -> (Returned, S) {
    let mut both = Both::new(0, store.clone());
    let returned = both.call(call);
    assert!(returned[0] == 0 || (returned[1..] == [0; 3] && both.store == *store));
    (returned, both.store)
}

/// The number of the call's cause on a copy of the store, on both.
fn number<S: Lent>(store: &S, call: S::Call) -> u64 {
    called(store, call).0[0]
}

/// The numbers of the eight calls on copies of a store.
fn all_calls<T: Linked>(store: &StoreOf<T>) -> [u64; 8] {
    let words = vec![1; words_for::<T>()];
    [
        Call::Check,
        Call::Insert { rank: 0, entry: LOWEST, tape: words.clone() },
        Call::Delete { rank: 0, tape: words },
        Call::Read { first: 0, last: 0, output: vec![5; 2] },
        Call::Board { ranks: vec![0, 0], output: vec![5; 3] },
        Call::Place { rank: 0 },
        Call::Clear,
        Call::Mend,
    ]
    .map(|call| number(store, call))
}

/// The numbers of the nine calls on copies of a timed store.
fn all_timed_calls<T: timed::Linked>(store: &timed::StoreOf<T>) -> [u64; 9] {
    let words = vec![1; words_for::<T>()];
    [
        timed::Call::Check,
        timed::Call::Insert { entry: LOWEST, tape: words.clone() },
        timed::Call::Delete { rank: 0, tape: words },
        timed::Call::Find { entry: LOWEST },
        timed::Call::Read { first: 0, last: 0, output: vec![5; 2] },
        timed::Call::Board { ranks: vec![0, 0], output: vec![5; 3] },
        timed::Call::Place { rank: 0 },
        timed::Call::Clear,
        timed::Call::Mend,
    ]
    .map(|call| number(store, call))
}
