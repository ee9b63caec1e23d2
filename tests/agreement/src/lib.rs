//! The proved library beside the second implementation: each call is made on
//! both, and answers, output and stores must be the same. The clubs' store has counts of
//! 16 bits, the federation's (document 02, F-14) has them of 32: most of what stands here
//! serves both.

pub mod boards;
pub mod histories;
pub mod lines;
pub mod program;
pub mod proved;
pub mod shares;
pub mod sheets;
pub mod stores;
pub mod timed;
pub mod timed_histories;

use proved::Linked;
use reference::calls::{self, Answer};
use reference::capacity::Number;
use reference::conversions;
use std::fmt::Debug;
use std::fs;
use std::io::{self, Write};
use std::path::Path;

/// The number of the cause or 0, and the values: three of place, two of every
/// other call and a zero behind them.
pub type Returned = [u64; 4];

/// What stands in an answer slice before a call: no value of a call.
pub const UNWRITTEN: u64 = 0x7777_7777_7777_7777;

fn returned(answer: Answer) -> Returned {
    let [first, second, third] = answer.values().map(|value| value as u64);
    [answer.number().into(), first, second, third]
}

/// The store of a kind of sheet, and the calls of that kind by both.
pub trait Lent: Clone + PartialEq {
    type Call: Clone + Debug;

    /// The call on the second implementation: what it returns, and the output.
    fn by_reference(&mut self, call: &Self::Call) -> (Returned, Vec<u64>);

    /// The call on the proved library with an answer slice of this length: what it
    /// returns, the answer slice, and the output.
    fn proved_with(&mut self, call: &Self::Call, room: usize) -> (u64, Vec<u64>, Vec<u64>);

    /// How many values the call returns.
    fn values(call: &Self::Call) -> usize;

    /// The call on the proved library, which writes its values and nothing behind
    /// them.
    fn by_proved(&mut self, call: &Self::Call) -> (Returned, Vec<u64>) {
        let (number, mut answer, output) = self.proved_with(call, 4);
        let rest = &mut answer[Self::values(call)..];
        assert!(rest.iter().all(|value| *value == UNWRITTEN), "a call writes its values alone");
        rest.fill(0);
        ([number, answer[0], answer[1], answer[2]], output)
    }

    /// The tape of an insert or a delete.
    fn tape(call: &mut Self::Call) -> Option<&mut Vec<u32>>;
}

#[derive(Clone, Debug)]
pub enum Call {
    Clear,
    Insert { rank: usize, entry: u64, tape: Vec<u32> },
    Delete { rank: usize, tape: Vec<u32> },
    Read { first: usize, last: usize, output: Vec<u64> },
    Board { ranks: Vec<u64>, output: Vec<u64> },
    Place { rank: usize },
    Check,
    Mend,
    ToTreeOrder,
    ToNumberOrder,
}

/// A store, told by the width of its counts.
#[derive(Clone, PartialEq, Eq)]
pub struct StoreOf<T> {
    pub slots: Vec<u64>,
    pub counts: Vec<T>,
    pub tallies: Vec<T>,
}

/// A store of the clubs.
pub type Store = StoreOf<u16>;

impl<T: Number> StoreOf<T> {
    /// A store of the right lengths that is no sheet.
    pub fn unused() -> Self {
        StoreOf {
            slots: vec![7; T::CAPACITY.slots],
            counts: vec![T::of(9); T::CAPACITY.counts],
            tallies: vec![T::of(6); T::CAPACITY.counts],
        }
    }

    /// The empty sheet.
    pub fn cleared() -> Self {
        StoreOf {
            slots: vec![0; T::CAPACITY.slots],
            counts: vec![T::of(0); T::CAPACITY.counts],
            tallies: vec![T::of(0); T::CAPACITY.counts],
        }
    }

    pub fn n(&self) -> usize {
        self.counts[1].value()
    }

    /// The entries of a sheet, in their order.
    pub fn entries(&self) -> impl Iterator<Item = u64> + '_ {
        self.slots.iter().copied().filter(|entry| *entry != 0)
    }
}

impl<T: Linked> Lent for StoreOf<T> {
    type Call = Call;

    fn by_reference(&mut self, call: &Call) -> (Returned, Vec<u64>) {
        let StoreOf { slots, counts, tallies } = self;
        let mut out = Vec::new();
        let answer = match call {
            Call::Clear => calls::clear(slots, counts, tallies),
            Call::Insert { rank, entry, tape } => calls::insert(slots, counts, tallies, *rank, *entry, tape),
            Call::Delete { rank, tape } => calls::delete(slots, counts, tallies, *rank, tape),
            Call::Read { first, last, output } => {
                out = output.clone();
                calls::read(slots, counts, tallies, *first, *last, &mut out)
            }
            Call::Board { ranks, output } => {
                out = output.clone();
                calls::board(slots, counts, tallies, ranks, &mut out)
            }
            Call::Place { rank } => calls::place(slots, counts, tallies, *rank),
            Call::Check => calls::check(slots, counts, tallies),
            Call::Mend => calls::mend(slots, counts, tallies),
            Call::ToTreeOrder => conversions::to_tree_order(T::converted(counts)),
            Call::ToNumberOrder => conversions::to_number_order(T::converted(counts)),
        };
        (returned(answer), out)
    }

    fn proved_with(&mut self, call: &Call, room: usize) -> (u64, Vec<u64>, Vec<u64>) {
        T::call_with(call, self, room)
    }

    fn values(call: &Call) -> usize {
        match call {
            Call::Place { .. } => 3,
            _ => 2,
        }
    }

    fn tape(call: &mut Call) -> Option<&mut Vec<u32>> {
        match call {
            Call::Insert { tape, .. } | Call::Delete { tape, .. } => Some(tape),
            _ => None,
        }
    }
}

/// Two stores, one for each implementation, and the calls made on them, each
/// tape cut to the words that were read.
pub struct Both<S: Lent = Store> {
    pub store: S,
    proved: S,
    seed: u64,
    made: Vec<S::Call>,
}

impl<S: Lent> Both<S> {
    pub fn new(seed: u64, store: S) -> Self {
        Both {
            proved: store.clone(),
            store,
            seed,
            made: Vec::new(),
        }
    }

    /// Makes the call on both; they agree, or the test ends with the seed and
    /// the history.
    pub fn call(&mut self, call: S::Call) -> Returned {
        self.call_with_output(call).0
    }

    /// The same: what the call returned, and the output.
    pub fn call_with_output(&mut self, mut call: S::Call) -> (Returned, Vec<u64>) {
        let (answer, output) = self.store.by_reference(&call);
        let (proved, proved_output) = self.proved.by_proved(&call);
        let same = answer == proved && output == proved_output && self.store == self.proved;
        match S::tape(&mut call) {
            Some(tape) if same && answer[0] != 7 => {
                tape.truncate(answer[2] as usize);
                tape.shrink_to_fit();
            }
            _ => {}
        }
        self.made.push(call);
        assert!(
            same,
            "seed {}, call {}: second implementation {answer:?}, proved {proved:?}, stores equal: {}, output equal: {}\n{}",
            self.seed,
            self.made.len(),
            self.store == self.proved,
            output == proved_output,
            self.history(),
        );
        (answer, output)
    }

    /// The last calls, and the name of a file with all of them.
    fn history(&self) -> String {
        let calls: Vec<String> = self.made.iter().map(|call| format!("{call:X?}\n")).collect();
        let last = calls[calls.len().saturating_sub(10)..].concat();
        last + &save(&format!("calls-{}", self.seed), calls.concat().as_bytes())
    }

    pub fn made(&self) -> u64 {
        self.made.len() as u64
    }
}

/// Puts a history that failed into a file; a line that names it.
fn save(name: &str, history: &[u8]) -> String {
    let directory = Path::new(env!("CARGO_MANIFEST_DIR")).join("../../target/agreement");
    let file = directory.join(name);
    match fs::create_dir_all(&directory).and_then(|()| fs::write(&file, history)) {
        Ok(()) => format!("the whole history: target/agreement/{name}\n"),
        Err(error) => format!("the whole history could not be written to target/agreement/{name}: {error}\n"),
    }
}

/// A line about what a test did, which is shown also where the test passes.
pub fn say(text: &str) {
    // Standard error itself: the test runner keeps back what eprintln writes.
    io::stderr().write_all(format!("counted: {text}\n").as_bytes()).unwrap();
}
