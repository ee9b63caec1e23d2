//! A store beside the model of its sheet ([`Model`]): after every call they are the same,
//! slot by slot.

use super::*;
use reference::calls::{Answer, Cause};
use reference::coins::Tape;

/// More words than a call reads: a rebuilt sheet draws for at most half as many ranges
/// as there are counts, and one word in six is passed over by most draws.
pub fn tape_for<T: Number>() -> usize {
    4 * T::CAPACITY.counts
}

/// An entry of a list of n; one in three is a common one. Bit 62 is set in none, some,
/// most or all of them, by the length.
fn some_entry(n: usize, random: &mut SplitMix64) -> u64 {
    let entry = match random.below(3) {
        0 => 7,
        _ => random.entry() & !RETIRED | 1,
    };
    let retired = random.below(16) < [0, 1, 8, 15, 16][n / 16 % 5];
    entry | if retired { RETIRED } else { 0 }
}

/// A store beside the model of its sheet.
pub struct Pair<T> {
    pub store: StoreOf<T>,
    pub model: Model,
    pub random: SplitMix64,
}

impl<T: Number> Pair<T> {
    pub fn new(seed: u64) -> Self {
        Pair {
            store: StoreOf::cleared(),
            model: Model::default(),
            random: SplitMix64::new(seed),
        }
    }

    /// A sheet of n such entries with any M that it can have.
    pub fn of_length(seed: u64, n: usize) -> Self {
        let mut random = SplitMix64::new(seed);
        let list: Vec<u64> = (0..n).map(|_| some_entry(n, &mut random)).collect();
        let m = some_size(n, &mut random);
        Pair::of_list(&list, m, random)
    }

    /// The sheet of this list and this M, built by random words.
    pub fn of_list(list: &[u64], m: usize, mut random: SplitMix64) -> Self {
        let words = words(&mut random, tape_for::<T>());
        let model = Model::built(list, m, &mut Tape::new(&words));
        Pair {
            store: model.store_as(),
            model,
            random,
        }
    }

    pub fn n(&self) -> usize {
        self.model.n()
    }

    /// An insert at a random rank.
    pub fn insert(&mut self) {
        let n = self.n();
        let rank = self.random.below(n + 1);
        let entry = some_entry(n, &mut self.random);
        let words = words(&mut self.random, tape_for::<T>());
        let mut tape = Tape::new(&words);
        let decided = self.model.insert(rank, entry, &mut tape);
        assert_eq!(decided, Ok(()));
        self.refuse_shorter(&words, tape.place(), |store, tape| {
            insert(store, rank, entry, tape)
        });
        let answer = insert(&mut self.store, rank, entry, &words);
        self.agree(answer, tape.place());
    }

    pub fn delete(&mut self) {
        let rank = self.random.below(self.n());
        let words = words(&mut self.random, tape_for::<T>());
        let mut tape = Tape::new(&words);
        let decided = self.model.delete(rank, &mut tape);
        assert_eq!(decided, Ok(()));
        self.refuse_shorter(&words, tape.place(), |store, tape| {
            delete(store, rank, tape)
        });
        let answer = delete(&mut self.store, rank, &words);
        self.agree(answer, tape.place());
    }

    /// The call with the tape cut at some place before its last word read is
    /// refused and changes nothing.
    fn refuse_shorter(
        &mut self,
        words: &[u32],
        read: usize,
        call: impl Fn(&mut StoreOf<T>, &[u32]) -> Answer,
    ) {
        if read == 0 {
            return;
        }
        let before = self.store.clone();
        let end = self.random.below(read);
        let answer = call(&mut self.store, &words[..end]);
        assert_eq!(answer, Answer::Refused(Cause::TapeEnds));
        assert!(self.store == before);
    }

    /// The answer and the whole store are what the model says.
    pub fn agree(&mut self, answer: Answer, words: usize) {
        let n = self.n();
        assert_eq!(answer, Answer::Changed { n, words });
        assert!(
            self.store == self.model.store_as(),
            "N {n} M {}",
            self.model.m()
        );
        assert_eq!(check(&self.store), Answer::Checked { n });
        assert!(list(&self.store) == self.model.list());
    }

    /// Calls that any sheet refuses, at random.
    fn refused_calls(&mut self) {
        let n = self.n();
        let before = self.store.clone();
        let beyond = n + 1 + self.random.below(70000);
        let refused = [
            insert(&mut self.store, beyond, 5, &[0; 64]),
            insert(&mut self.store, beyond, 0, &[0; 64]),
            delete(&mut self.store, beyond - 1, &[0; 64]),
        ];
        assert_eq!(refused.map(Answer::number), [4, 3, 4]);
        assert!(self.store == before);
    }

    /// A read of random ranks.
    fn read(&mut self) {
        let n = self.n();
        if n == 0 {
            return;
        }
        let first = self.random.below(n);
        let last = first + self.random.below(n - first);
        let mut output = vec![0; n];
        let answer = read(&self.store, first, last, &mut output);
        let entries = last - first + 1;
        assert_eq!(answer, Answer::Read { entries });
        assert!(output[..entries] == self.model.list()[first..=last]);
        assert!(output[entries..].iter().all(|&entry| entry == 0));
    }

    /// Random steps until N is `goal`, three in four towards it.
    pub fn go_to(&mut self, goal: usize) {
        while self.n() != goal {
            let towards = self.random.below(4) != 0;
            let grow = (self.n() < goal) == towards;
            if self.n() == 0 || (grow && self.n() < T::CAPACITY.entries) {
                self.insert();
            } else {
                self.delete();
            }
            match self.random.below(8) {
                0 => self.refused_calls(),
                1 => self.read(),
                _ => {}
            }
        }
    }
}
