//! Timed histories and exact tables of their shares (02, F-1): "A timed sheet
//! includes that slice wherever sheets are compared or their shares counted".
//! Courses, shares and tables are those of [`shares`], for both stores as there.

use crate::calls::{Answer, Cause};
use crate::capacity::Number;
use crate::coins::Source;
use crate::shares::{self, after_step, every_course, hold, table_of, without_last_zeros, Share};
use crate::timed;

/// One of the eight calls of a timed history, with its arguments, tapes apart.
#[derive(Clone, Copy, Debug, PartialEq, Eq)]
pub enum Call {
    Clear,
    Insert {
        entry: u64,
    },
    Delete {
        rank: usize,
    },
    Find {
        entry: u64,
    },
    Read {
        first: usize,
        last: usize,
        output: usize,
    },
    Board {
        ranks: &'static [u64],
        output: usize,
    },
    Place {
        rank: usize,
    },
    Check,
}

/// A store of the right lengths, which the width of its counts tells.
#[derive(Clone, Debug, PartialEq, Eq)]
pub struct StoreOf<T> {
    /// Slots, counts and tallies.
    pub plain: shares::StoreOf<T>,
    pub balance: Box<[u64]>,
}

/// A store of the clubs.
pub type Store = StoreOf<u16>;

impl<T: Number> StoreOf<T> {
    /// A cleared store.
    pub fn cleared() -> Self {
        StoreOf {
            plain: shares::StoreOf::cleared(),
            balance: vec![0; T::CAPACITY.counts].into(),
        }
    }

    /// Runs one call by faces: its cause number, or 0 where accepted.
    pub fn call<S: Source>(&mut self, call: Call, source: &mut S) -> u8 {
        let (slots, counts) = (&mut self.plain.slots[..], &mut self.plain.counts[..]);
        let (tallies, balance) = (&mut self.plain.tallies[..], &mut self.balance[..]);
        let changed = |result: Result<usize, Cause>| result.map_or_else(Cause::number, |_| 0);
        let answered = |answer: Answer| answer.number();
        match call {
            Call::Clear => answered(timed::clear(slots, counts, tallies, balance)),
            Call::Insert { entry } => {
                let result = timed::insert_from(slots, counts, tallies, balance, entry, source);
                changed(result)
            }
            Call::Delete { rank } => {
                let result = timed::delete_from(slots, counts, tallies, balance, rank, source);
                changed(result)
            }
            Call::Find { entry } => answered(timed::find(slots, counts, tallies, balance, entry)),
            Call::Read {
                first,
                last,
                output,
            } => {
                let output = &mut vec![0; output];
                let answer = timed::read(slots, counts, tallies, balance, first, last, output);
                answered(answer)
            }
            Call::Board { ranks, output } => {
                let output = &mut vec![0; output];
                let answer = timed::board(slots, counts, tallies, balance, ranks, output);
                answered(answer)
            }
            Call::Place { rank } => answered(timed::place(slots, counts, tallies, balance, rank)),
            Call::Check => answered(timed::check(slots, counts, tallies, balance)),
        }
    }

    /// The whole store, the third slice included, as a key for tables.
    pub fn sheet(&self) -> KeyOf<T> {
        KeyOf {
            plain: self.plain.sheet(),
            balance: without_last_zeros(&self.balance),
        }
    }

    /// Gives the store these contents.
    pub fn hold(&mut self, sheet: &KeyOf<T>) {
        self.plain.hold(&sheet.plain);
        hold(&mut self.balance, &sheet.balance);
    }

    /// The table of a timed history as it is defined: all its courses, each run from
    /// the cleared store. The courses must be few.
    pub fn shares_by_courses(history: &[Call]) -> shares::Table<KeyOf<T>> {
        let mut store = Self::cleared();
        let start = store.sheet();
        table_of(every_course(|course| {
            store.hold(&start);
            for &call in history {
                store.call(call, course);
            }
            store.sheet()
        }))
    }

    /// The same table as by courses, worked out call by call.
    pub fn shares_by_calls(history: &[Call]) -> shares::Table<KeyOf<T>> {
        history
            .iter()
            .fold(cleared(), |table, &call| after_call(&table, call))
    }
}

/// All contents of a timed store; the zeros at the ends of its slices are left
/// out.
#[derive(Clone, Debug, PartialEq, Eq, PartialOrd, Ord)]
pub struct KeyOf<T> {
    plain: shares::KeyOf<T>,
    balance: Vec<u64>,
}

/// The contents of a clubs' store.
pub type TimedKey = KeyOf<u16>;

impl<T: Number> KeyOf<T> {
    /// The store with these contents.
    pub fn store(&self) -> StoreOf<T> {
        let mut store = StoreOf::cleared();
        store.hold(self);
        store
    }

    /// The list of a timed sheet.
    pub fn entries(&self) -> Vec<u64> {
        self.plain.entries()
    }
}

/// A table of shares of the clubs' timed sheets.
pub type Table = shares::Table<TimedKey>;

/// The table of a timed history on the clubs' store, by all courses.
pub fn shares_by_courses(history: &[Call]) -> Table {
    Store::shares_by_courses(history)
}

/// The same table, call by call.
pub fn shares_by_calls(history: &[Call]) -> Table {
    Store::shares_by_calls(history)
}

/// The table of the empty history.
pub fn cleared<T: Number>() -> shares::Table<KeyOf<T>> {
    shares::Table::from([(StoreOf::cleared().sheet(), Share::ONE)])
}

/// The table after one more call.
pub fn after_call<T: Number>(
    table: &shares::Table<KeyOf<T>>,
    call: Call,
) -> shares::Table<KeyOf<T>> {
    let mut store = StoreOf::cleared();
    after_step(table, |sheet, course| {
        store.hold(sheet);
        store.call(call, course);
        store.sheet()
    })
}

#[cfg(test)]
mod tests {
    use super::*;

    #[test]
    fn a_sheet_gives_its_store_back() {
        gives_its_store_back::<u16>();
        gives_its_store_back::<u32>();
    }

    fn gives_its_store_back<T: Number>() {
        let mut store = StoreOf::<T>::cleared();
        store.plain.slots[T::CAPACITY.slots - 1] = 5;
        store.plain.counts[7] = T::of(3);
        store.plain.tallies[3] = T::of(2);
        store.balance[T::CAPACITY.counts - 1] = 9;
        assert_eq!(store.sheet().store(), store);
        let mut other = StoreOf::cleared();
        other.balance.fill(1);
        other.hold(&store.sheet());
        assert_eq!(other, store);
    }

    /// Stores that differ in one word of the third slice are different sheets.
    #[test]
    fn the_third_slice_is_part_of_the_sheet() {
        each_word_is_part_of_the_sheet::<u16>(1);
        each_word_is_part_of_the_sheet::<u32>(130);
    }

    fn each_word_is_part_of_the_sheet<T: Number>(step: usize) {
        let cleared = StoreOf::<T>::cleared();
        for word in (0..T::CAPACITY.counts).step_by(step) {
            let mut store = cleared.clone();
            store.balance[word] = 1;
            assert_ne!(store.sheet(), cleared.sheet());
        }
    }
}
