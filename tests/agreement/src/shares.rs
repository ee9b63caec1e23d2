//! Exact tables of shares of the proved library's own stores: every course is tried,
//! by words that decide its faces.

use crate::proved::Linked;
use crate::{timed, Call, Lent, StoreOf};
use reference::coins::{Source, Undecided};
use reference::shares::{self, after_step, every_course, table_of, Course, KeyOf, Share, Table};
use reference::timed_shares;

/// Draws from a course and keeps the words that decide the same faces: a face
/// is a word below the number of faces; a draw among 1 reads none.
pub struct Words<'a> {
    course: &'a mut Course,
    words: Vec<u32>,
}

impl Source for Words<'_> {
    fn draw(&mut self, m: u64) -> Result<u64, Undecided> {
        let face = self.course.draw(m)?;
        if m > 1 {
            self.words.push(face as u32);
        }
        Ok(face)
    }
}

/// The store of a kind of sheet whose tables are counted.
pub trait Tabled: Lent {
    /// A call, tapes apart.
    type Bare: Copy;
    /// All contents of a store, as a key for tables.
    type Key: Ord;

    /// The store that a proved clear leaves.
    fn proved_clear() -> Self;

    /// The call with this tape.
    fn with_tape(call: Self::Bare, tape: Vec<u32>) -> Self::Call;

    /// The contents of this store.
    fn key(&self) -> Self::Key;

    /// The store with these contents.
    fn of_key(key: &Self::Key) -> Self;

    /// The second implementation's call on a store with these contents: its number.
    fn guide(key: &Self::Key, call: Self::Bare, source: &mut Words) -> u8;
}

impl<T: Linked> Tabled for StoreOf<T> {
    type Bare = shares::Call;
    type Key = KeyOf<T>;

    fn proved_clear() -> Self {
        let mut store = StoreOf::unused();
        store.by_proved(&Call::Clear);
        store
    }

    fn with_tape(call: shares::Call, tape: Vec<u32>) -> Call {
        match call {
            shares::Call::Clear => Call::Clear,
            shares::Call::Insert { rank, entry } => Call::Insert { rank, entry, tape },
            shares::Call::Delete { rank } => Call::Delete { rank, tape },
            shares::Call::Read { first, last, output } => Call::Read { first, last, output: vec![0; output] },
            shares::Call::Board { ranks, output } => Call::Board { ranks: ranks.to_vec(), output: vec![0; output] },
            shares::Call::Place { rank } => Call::Place { rank },
            shares::Call::Check => Call::Check,
        }
    }

    fn key(&self) -> KeyOf<T> {
        let copy = shares::StoreOf {
            slots: self.slots[..].into(),
            counts: self.counts[..].into(),
            tallies: self.tallies[..].into(),
        };
        copy.sheet()
    }

    fn of_key(key: &KeyOf<T>) -> Self {
        let store = key.store();
        StoreOf {
            slots: store.slots.into_vec(),
            counts: store.counts.into_vec(),
            tallies: store.tallies.into_vec(),
        }
    }

    fn guide(key: &KeyOf<T>, call: shares::Call, source: &mut Words) -> u8 {
        key.store().call(call, source)
    }
}

impl<T: timed::Linked> Tabled for timed::StoreOf<T> {
    type Bare = timed_shares::Call;
    type Key = timed_shares::KeyOf<T>;

    fn proved_clear() -> Self {
        let mut store = timed::StoreOf::unused();
        store.by_proved(&timed::Call::Clear);
        store
    }

    fn with_tape(call: timed_shares::Call, tape: Vec<u32>) -> timed::Call {
        use timed::Call;
        match call {
            timed_shares::Call::Clear => Call::Clear,
            timed_shares::Call::Insert { entry } => Call::Insert { entry, tape },
            timed_shares::Call::Delete { rank } => Call::Delete { rank, tape },
            timed_shares::Call::Find { entry } => Call::Find { entry },
            timed_shares::Call::Read { first, last, output } => Call::Read { first, last, output: vec![0; output] },
            timed_shares::Call::Board { ranks, output } => Call::Board { ranks: ranks.to_vec(), output: vec![0; output] },
            timed_shares::Call::Place { rank } => Call::Place { rank },
            timed_shares::Call::Check => Call::Check,
        }
    }

    fn key(&self) -> timed_shares::KeyOf<T> {
        let plain = shares::StoreOf {
            slots: self.slots[..].into(),
            counts: self.counts[..].into(),
            tallies: self.tallies[..].into(),
        };
        let balance = self.balance[..].into();
        timed_shares::StoreOf { plain, balance }.sheet()
    }

    fn of_key(key: &timed_shares::KeyOf<T>) -> Self {
        let timed_shares::StoreOf { plain, balance } = key.store();
        timed::StoreOf {
            slots: plain.slots.into_vec(),
            counts: plain.counts.into_vec(),
            tallies: plain.tallies.into_vec(),
            balance: balance.into_vec(),
        }
    }

    fn guide(key: &timed_shares::KeyOf<T>, call: timed_shares::Call, source: &mut Words) -> u8 {
        key.store().call(call, source)
    }
}

/// One proved call by the faces of a course, from contents to contents. The second
/// implementation tells only among how many faces each draw is; the call has the words
/// that decide these faces.
fn by_course<S: Tabled>(sheet: &S::Key, call: S::Bare, course: &mut Course) -> S::Key {
    let mut source = Words { course, words: Vec::new() };
    let number = S::guide(sheet, call, &mut source);
    let read = source.words.len() as u64;
    let mut call = S::with_tape(call, source.words);
    let mut store = S::of_key(sheet);
    let (answer, _) = store.by_proved(&call);
    assert_eq!(answer[0], u64::from(number));
    if number == 0 && S::tape(&mut call).is_some() {
        assert_eq!(answer[2], read, "words read");
    }
    store.key()
}

/// The table of the stores that the proved calls leave, by all courses.
pub fn by_courses<S: Tabled>(history: &[S::Bare]) -> Table<S::Key> {
    table_of(every_course(|course| {
        let start = S::proved_clear().key();
        history.iter().fold(start, |sheet, &call| by_course::<S>(&sheet, call, course))
    }))
}

/// The same table, worked out call by call: a call depends on the store, its
/// arguments and its words alone.
pub fn by_calls<S: Tabled>(history: &[S::Bare]) -> Table<S::Key> {
    let start = Table::from([(S::proved_clear().key(), Share::ONE)]);
    history.iter().fold(start, |table, &call| after_call::<S>(&table, call))
}

/// The table after one more proved call.
pub fn after_call<S: Tabled>(table: &Table<S::Key>, call: S::Bare) -> Table<S::Key> {
    after_step(table, |sheet, course| by_course::<S>(sheet, call, course))
}
