//! A plain and a timed sheet of one list, for calls that answer the same on both.

use crate::proved::Linked;
use crate::{timed, Both, Call, Returned, StoreOf};
use reference::random::SplitMix64;

/// A plain and a timed sheet of one list, the same slots, counts and tallies.
pub struct SheetsOf<T: Linked + timed::Linked> {
    plain: Both<StoreOf<T>>,
    timed: Both<timed::StoreOf<T>>,
}

/// Those of the clubs.
pub type Sheets = SheetsOf<u16>;

impl<T: Linked + timed::Linked> SheetsOf<T> {
    pub fn new(seed: u64, list: &[u64], m: usize, random: &mut SplitMix64) -> Self {
        let timed = timed::StoreOf::of_size(list, m, random);
        SheetsOf {
            plain: Both::new(seed, timed.plain()),
            timed: Both::new(seed, timed),
        }
    }

    /// A call on each sheet: what they return, which is the same, and the output.
    fn call(&mut self, plain: Call, timed: timed::Call) -> (Returned, Vec<u64>) {
        let returned = self.plain.call_with_output(plain);
        assert_eq!(self.timed.call_with_output(timed), returned);
        returned
    }

    /// Place of a rank, on both sheets.
    pub fn place(&mut self, rank: usize) -> Returned {
        self.call(Call::Place { rank }, timed::Call::Place { rank }).0
    }

    /// A read of one rank, on both sheets.
    pub fn read(&mut self, rank: usize, output: &[u64]) -> (Returned, Vec<u64>) {
        let (first, last) = (rank, rank);
        let plain = Call::Read { first, last, output: output.to_vec() };
        let timed = timed::Call::Read { first, last, output: output.to_vec() };
        self.call(plain, timed)
    }

    /// A board, on both sheets.
    pub fn board(&mut self, ranks: &[u64], output: &[u64]) -> (Returned, Vec<u64>) {
        let plain = Call::Board { ranks: ranks.to_vec(), output: output.to_vec() };
        let timed = timed::Call::Board { ranks: ranks.to_vec(), output: output.to_vec() };
        self.call(plain, timed)
    }

    pub fn places(&mut self, ranks: impl IntoIterator<Item = usize>) {
        for rank in ranks {
            self.place(rank);
        }
    }

    pub fn made(&self) -> u64 {
        self.plain.made() + self.timed.made()
    }
}
