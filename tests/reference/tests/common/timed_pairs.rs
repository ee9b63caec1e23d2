//! A timed store beside the model of its sheet ([`Model`]): after every call all four
//! slices are the same.

use super::pairs::tape_for;
use super::*;
use reference::calls::{Answer, Cause};
use reference::coins::Tape;
use reference::timed::key;
use std::collections::BTreeSet;

/// A finish: time above, sail number below; few enough that many meet. Every second one
/// ties, every second one has retired.
fn finish<T: Number>(random: &mut SplitMix64) -> u64 {
    let times = T::CAPACITY.entries / 2;
    let (time, bits) = (random.below(times) as u64, random.below(4) as u64);
    bits << 62 | time << 32 | (1 + random.below(6) as u64)
}

/// The key with any bits 63 and 62.
fn with_some_bits(key: u64, random: &mut SplitMix64) -> u64 {
    key | (random.below(4) as u64) << 62
}

/// A timed store beside the model of its sheet.
pub struct TimedPair<T> {
    pub store: TimedStoreOf<T>,
    pub model: Model,
    pub random: SplitMix64,
}

impl<T: Number> TimedPair<T> {
    pub fn new(seed: u64) -> Self {
        TimedPair {
            store: TimedStoreOf::cleared(),
            model: Model::default(),
            random: SplitMix64::new(seed),
        }
    }

    /// The sheet of n finishes with any M that it can have, built by random words.
    pub fn of_length(seed: u64, n: usize) -> Self {
        let mut random = SplitMix64::new(seed);
        let mut keys = BTreeSet::new();
        while keys.len() < n {
            keys.insert(key(finish::<T>(&mut random)));
        }
        let list: Vec<u64> = keys
            .into_iter()
            .map(|key| with_some_bits(key, &mut random))
            .collect();
        let m = some_size(n, &mut random);
        let words = words(&mut random, tape_for::<T>());
        let model = Model::built(&list, m, &mut Tape::new(&words));
        TimedPair {
            store: model.timed_store_as(),
            model,
            random,
        }
    }

    pub fn n(&self) -> usize {
        self.model.n()
    }

    /// An insert, refused where an entry of its key is there; find says which.
    pub fn insert(&mut self) {
        let entry = finish::<T>(&mut self.random);
        let words = words(&mut self.random, tape_for::<T>());
        let list = self.model.list();
        let rank = list.iter().filter(|&&e| key(e) < key(entry)).count();
        if list.iter().any(|&e| key(e) == key(entry)) {
            assert_eq!(timed_find(&self.store, entry), Answer::Found { rank });
            let answer = timed_insert(&mut self.store, entry, &words);
            assert_eq!(answer, Answer::Refused(Cause::Present));
            assert!(self.store == self.model.timed_store_as());
            return;
        }
        assert_eq!(timed_find(&self.store, entry), Answer::Absent { rank });
        let mut tape = Tape::new(&words);
        assert_eq!(self.model.insert(rank, entry, &mut tape), Ok(()));
        self.refuse_shorter(&words, tape.place(), |store, tape| {
            timed_insert(store, entry, tape)
        });
        let answer = timed_insert(&mut self.store, entry, &words);
        self.agree(answer, tape.place());
    }

    pub fn delete(&mut self) {
        let rank = self.random.below(self.n());
        let words = words(&mut self.random, tape_for::<T>());
        let mut tape = Tape::new(&words);
        assert_eq!(self.model.delete(rank, &mut tape), Ok(()));
        self.refuse_shorter(&words, tape.place(), |store, tape| {
            timed_delete(store, rank, tape)
        });
        let answer = timed_delete(&mut self.store, rank, &words);
        self.agree(answer, tape.place());
    }

    /// The call with the tape cut at some place before its last word read is
    /// refused and changes nothing.
    fn refuse_shorter(
        &mut self,
        words: &[u32],
        read: usize,
        call: impl Fn(&mut TimedStoreOf<T>, &[u32]) -> Answer,
    ) {
        if read > 0 {
            let before = self.store.clone();
            let end = self.random.below(read);
            let answer = call(&mut self.store, &words[..end]);
            assert_eq!(answer, Answer::Refused(Cause::TapeEnds));
            assert!(self.store == before);
        }
    }

    /// The answer and all four slices are what the model says.
    fn agree(&mut self, answer: Answer, words: usize) {
        let n = self.n();
        assert_eq!(answer, Answer::Changed { n, words });
        let expected = self.model.timed_store_as();
        assert!(self.store == expected, "N {n} M {}", self.model.m());
        assert!(self.store == with_third_slice(self.model.store_as()));
        assert_eq!(timed_check(&self.store), Answer::Checked { n });
    }

    /// Random steps until N is `goal`, three in four towards it.
    pub fn go_to(&mut self, goal: usize) {
        while self.n() != goal {
            let towards = self.random.below(4) != 0;
            let grow = (self.n() < goal) == towards;
            if self.n() == 0 || (grow && self.n() < T::CAPACITY.entries) {
                self.insert();
            } else {
                self.delete();
            }
        }
    }
}
