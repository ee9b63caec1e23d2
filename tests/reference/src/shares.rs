//! Histories, courses and exact tables of shares (01, "Histories and shares"). 02,
//! F-11: "The new slice is part of the sheet for clause 9", the tallies. F-14: "The clause
//! about equal shares holds for federation histories among themselves".

use crate::calls::{self, Answer, Cause};
use crate::capacity::Number;
use crate::coins::{Source, Undecided};
use crate::layout::all_zero;
use std::collections::BTreeMap;
use std::ops::{Add, BitOr, Mul};

/// A fraction of whole numbers in lowest terms.
#[derive(Clone, Copy, Debug, PartialEq, Eq, PartialOrd, Ord)]
pub struct Share {
    numerator: u128,
    denominator: u128,
}

impl Share {
    pub const ZERO: Share = Share {
        numerator: 0,
        denominator: 1,
    };
    pub const ONE: Share = Share {
        numerator: 1,
        denominator: 1,
    };

    /// `numerator` / `denominator`, where the latter is not 0.
    pub fn new(numerator: u128, denominator: u128) -> Share {
        let divisor = gcd(numerator, denominator);
        Share {
            numerator: numerator / divisor,
            denominator: denominator / divisor,
        }
    }

    pub fn numerator(self) -> u128 {
        self.numerator
    }

    pub fn denominator(self) -> u128 {
        self.denominator
    }
}

impl Add for Share {
    type Output = Share;

    fn add(self, other: Share) -> Share {
        let divisor = gcd(self.denominator, other.denominator);
        let (own_scale, other_scale) = (other.denominator / divisor, self.denominator / divisor);
        let left = product(self.numerator, own_scale);
        let right = product(other.numerator, other_scale);
        let numerator = left.checked_add(right).expect("shares stay small");
        Share::new(numerator, product(self.denominator, own_scale))
    }
}

impl Mul for Share {
    type Output = Share;

    fn mul(self, other: Share) -> Share {
        let first = Share::new(self.numerator, other.denominator);
        let second = Share::new(other.numerator, self.denominator);
        Share {
            numerator: product(first.numerator, second.numerator),
            denominator: product(first.denominator, second.denominator),
        }
    }
}

impl std::iter::Sum for Share {
    fn sum<I: Iterator<Item = Share>>(shares: I) -> Share {
        shares.fold(Share::ZERO, Add::add)
    }
}

fn product(a: u128, b: u128) -> u128 {
    a.checked_mul(b).expect("shares stay small")
}

fn gcd(mut a: u128, mut b: u128) -> u128 {
    while b != 0 {
        (a, b) = (b, a % b);
    }
    a
}

/// A course: one possible run of faces for the draws of a history, as far as
/// the rules have asked for them. A draw that no face was chosen for yet gets
/// face 0; [`Course::advance`] then leads to the next course in order.
#[derive(Clone, Debug, Default)]
pub struct Course {
    draws: Vec<Draw>,
    taken: usize,
}

#[derive(Clone, Copy, Debug)]
struct Draw {
    face: u64,
    among: u64,
}

impl Course {
    /// The course whose faces are all 0.
    pub fn first() -> Self {
        Course::default()
    }

    /// The faces drawn, in order.
    pub fn faces(&self) -> impl Iterator<Item = u64> + '_ {
        self.draws.iter().map(|draw| draw.face)
    }

    /// "Its share is 1 over the product of those numbers; with no draw it is 1."
    pub fn share(&self) -> Share {
        let among = self.draws.iter().map(|draw| u128::from(draw.among));
        Share::new(1, among.fold(1, product))
    }

    /// Moves to the next course, to be drawn from its start; false after the
    /// last. The rules must have drawn the course to its end before.
    pub fn advance(&mut self) -> bool {
        self.taken = 0;
        while let Some(last) = self.draws.last_mut() {
            last.face += 1;
            if last.face < last.among {
                return true;
            }
            self.draws.pop();
        }
        false
    }
}

impl Source for Course {
    fn draw(&mut self, m: u64) -> Result<u64, Undecided> {
        if m == 0 {
            return Err(Undecided);
        }
        if self.taken == self.draws.len() {
            self.draws.push(Draw { face: 0, among: m });
        }
        let draw = self.draws[self.taken];
        assert_eq!(draw.among, m, "the same faces lead to the same draws");
        self.taken += 1;
        Ok(draw.face)
    }
}

/// Calls `act` once for each course and gives it the course to draw from; what
/// it returns is kept with the share of the course.
pub fn every_course<T>(mut act: impl FnMut(&mut Course) -> T) -> Vec<(T, Share)> {
    let mut results = Vec::new();
    let mut course = Course::first();
    loop {
        let result = act(&mut course);
        results.push((result, course.share()));
        if !course.advance() {
            return results;
        }
    }
}

/// One of the seven calls of a history, with its arguments, tapes apart. 02, F-13:
/// "Mending is no part of a history whose shares are compared."
#[derive(Clone, Copy, Debug, PartialEq, Eq)]
pub enum Call {
    Clear,
    Insert {
        rank: usize,
        entry: u64,
    },
    Delete {
        rank: usize,
    },
    Read {
        first: usize,
        last: usize,
        output: usize,
    },
    Board {
        ranks: &'static [u64],
        output: usize,
    },
    Place {
        rank: usize,
    },
    Check,
}

/// A store of the right lengths, which the width of its counts tells.
#[derive(Clone, Debug, PartialEq, Eq)]
pub struct StoreOf<T> {
    pub slots: Box<[u64]>,
    pub counts: Box<[T]>,
    pub tallies: Box<[T]>,
}

/// A store of the clubs.
pub type Store = StoreOf<u16>;

impl<T: Number> StoreOf<T> {
    /// A cleared store.
    pub fn cleared() -> Self {
        let numbers = vec![T::default(); T::CAPACITY.counts].into_boxed_slice();
        StoreOf {
            slots: vec![0; T::CAPACITY.slots].into(),
            counts: numbers.clone(),
            tallies: numbers,
        }
    }

    /// Runs one call by faces: its cause number, or 0 where accepted.
    pub fn call<S: Source>(&mut self, call: Call, source: &mut S) -> u8 {
        let (slots, counts) = (&mut self.slots[..], &mut self.counts[..]);
        let tallies = &mut self.tallies[..];
        let changed = |result: Result<usize, Cause>| result.map_or_else(Cause::number, |_| 0);
        let answered = |answer: Answer| answer.number();
        match call {
            Call::Clear => answered(calls::clear(slots, counts, tallies)),
            Call::Insert { rank, entry } => {
                let result = calls::insert_from(slots, counts, tallies, rank, entry, source);
                changed(result)
            }
            Call::Delete { rank } => {
                changed(calls::delete_from(slots, counts, tallies, rank, source))
            }
            Call::Read {
                first,
                last,
                output,
            } => {
                let output = &mut vec![0; output];
                answered(calls::read(slots, counts, tallies, first, last, output))
            }
            Call::Board { ranks, output } => {
                let output = &mut vec![0; output];
                answered(calls::board(slots, counts, tallies, ranks, output))
            }
            Call::Place { rank } => answered(calls::place(slots, counts, tallies, rank)),
            Call::Check => answered(calls::check(slots, counts, tallies)),
        }
    }

    /// Every slot, every count and every tally, as a key for tables.
    pub fn sheet(&self) -> KeyOf<T> {
        KeyOf {
            slots: without_last_zeros(&self.slots),
            counts: without_last_zeros(&self.counts),
            tallies: without_last_zeros(&self.tallies),
        }
    }

    /// Gives the store these contents.
    pub fn hold(&mut self, sheet: &KeyOf<T>) {
        hold(&mut self.slots, &sheet.slots);
        hold(&mut self.counts, &sheet.counts);
        hold(&mut self.tallies, &sheet.tallies);
    }

    /// The table of a history as it is defined: all its courses, each run from the
    /// cleared store. The courses must be few.
    pub fn shares_by_courses(history: &[Call]) -> Table<KeyOf<T>> {
        let mut store = Self::cleared();
        let start = store.sheet();
        table_of(every_course(|course| {
            store.hold(&start);
            for &call in history {
                store.call(call, course);
            }
            store.sheet()
        }))
    }

    /// The same table worked out call by call: courses that have led to the same
    /// sheet go on together. This holds because the draws of a call depend on the
    /// sheet and its arguments alone.
    pub fn shares_by_calls(history: &[Call]) -> Table<KeyOf<T>> {
        let start = Table::from([(Self::cleared().sheet(), Share::ONE)]);
        history
            .iter()
            .fold(start, |table, &call| after_call(&table, call))
    }
}

/// All contents of a store; the zeros at the ends of its slices are left out.
#[derive(Clone, Debug, PartialEq, Eq, PartialOrd, Ord)]
pub struct KeyOf<T> {
    counts: Vec<T>,
    tallies: Vec<T>,
    slots: Vec<u64>,
}

/// The contents of a clubs' store.
pub type SheetKey = KeyOf<u16>;

impl<T: Number> KeyOf<T> {
    /// The store with these contents.
    pub fn store(&self) -> StoreOf<T> {
        let mut store = StoreOf::cleared();
        store.hold(self);
        store
    }

    /// The entries in the order of their slots: the list of a sheet.
    pub fn entries(&self) -> Vec<u64> {
        let entries = self.slots.iter().filter(|&&slot| slot != 0);
        entries.copied().collect()
    }
}

/// The values up to the last that is not zero. Most slots are zero: whole blocks of them
/// are left out first.
pub(crate) fn without_last_zeros<T>(values: &[T]) -> Vec<T>
where
    T: Copy + Default + PartialEq + BitOr<Output = T>,
{
    const BLOCK: usize = 64;
    let mut blocks = values.chunks(BLOCK);
    let end = blocks
        .rposition(|block| !all_zero(block))
        .map_or(0, |last| BLOCK * (last + 1));
    let front = &values[..end.min(values.len())];
    let used = front.iter().rposition(|&value| value != T::default());
    front[..used.map_or(0, |last| last + 1)].to_vec()
}

/// Puts values into the front of a slice, and zeros behind them.
pub(crate) fn hold<T: Copy + Default>(slice: &mut [T], values: &[T]) {
    let (front, rest) = slice.split_at_mut(values.len());
    front.copy_from_slice(values);
    rest.fill(T::default());
}

/// A table of shares. A sheet that is not in it has the share 0.
pub type Table<Key = SheetKey> = BTreeMap<Key, Share>;

/// The table of a history on the clubs' store, by all courses.
pub fn shares_by_courses(history: &[Call]) -> Table {
    Store::shares_by_courses(history)
}

/// The same table, call by call.
pub fn shares_by_calls(history: &[Call]) -> Table {
    Store::shares_by_calls(history)
}

/// The table after one more call.
pub fn after_call<T: Number>(table: &Table<KeyOf<T>>, call: Call) -> Table<KeyOf<T>> {
    let mut store = StoreOf::cleared();
    after_step(table, |sheet, course| {
        store.hold(sheet);
        store.call(call, course);
        store.sheet()
    })
}

/// The table after one more step, which leads from a sheet to the next one by
/// the faces of a course. Its draws depend on the sheet alone.
pub fn after_step<Key: Ord>(
    table: &Table<Key>,
    mut step: impl FnMut(&Key, &mut Course) -> Key,
) -> Table<Key> {
    let ends = table.iter().flat_map(|(sheet, &share)| {
        let ends = every_course(|course| step(sheet, course));
        ends.into_iter()
            .map(move |(end, course)| (end, share * course))
    });
    table_of(ends)
}

/// Adds up the shares of equal sheets.
pub fn table_of<Key: Ord>(ends: impl IntoIterator<Item = (Key, Share)>) -> Table<Key> {
    let mut table = Table::new();
    for (sheet, share) in ends {
        let sum = table.entry(sheet).or_insert(Share::ZERO);
        *sum = *sum + share;
    }
    table
}

#[cfg(test)]
mod tests {
    use super::*;

    #[test]
    fn shares_are_in_lowest_terms() {
        assert_eq!(Share::new(6, 8), Share::new(3, 4));
        assert_eq!(Share::new(1, 6) + Share::new(1, 3), Share::new(1, 2));
        assert_eq!(Share::new(2, 3) * Share::new(3, 4), Share::new(1, 2));
        assert_eq!(Share::ZERO + Share::ONE, Share::ONE);
        assert_eq!(Share::ZERO * Share::new(1, 7), Share::ZERO);
        let half = Share::new(5, 10);
        assert_eq!((half.numerator(), half.denominator()), (1, 2));
    }

    /// Draws among 2; on face 1 also among 3; then among 1.
    #[test]
    fn every_course_comes_once() {
        let courses = every_course(|course| {
            if course.draw(2).unwrap() == 1 {
                course.draw(3).unwrap();
            }
            course.draw(1).unwrap();
            course.faces().collect::<Vec<u64>>()
        });
        let expected = [
            (vec![0, 0], Share::new(1, 2)),
            (vec![1, 0, 0], Share::new(1, 6)),
            (vec![1, 1, 0], Share::new(1, 6)),
            (vec![1, 2, 0], Share::new(1, 6)),
        ];
        assert_eq!(courses, expected);
    }

    #[test]
    fn no_draw_is_one_course() {
        assert_eq!(every_course(|_| ()), [((), Share::ONE)]);
        let table = shares_by_courses(&[]);
        assert_eq!(table, Table::from([(Store::cleared().sheet(), Share::ONE)]));
    }

    #[test]
    fn a_sheet_gives_its_store_back() {
        gives_its_store_back::<u16>();
        gives_its_store_back::<u32>();
    }

    #[test]
    fn zeros_at_the_end_are_left_out() {
        for length in [0, 1, 63, 64, 65, 127, 128, 200] {
            let mut values = vec![0u16; length];
            assert_eq!(without_last_zeros(&values), []);
            for last in 0..length {
                values[last] = 7;
                assert_eq!(without_last_zeros(&values), values[..=last]);
            }
        }
    }

    fn gives_its_store_back<T: Number>() {
        let mut store = StoreOf::<T>::cleared();
        assert_eq!(store.sheet().store(), store);
        store.slots[T::CAPACITY.slots - 1] = 5;
        store.counts[7] = T::of(3);
        store.tallies[T::CAPACITY.counts - 1] = T::of(2);
        assert_eq!(store.sheet().store(), store);
        // Nothing of former contents stays.
        let mut other = StoreOf::cleared();
        other.slots.fill(1);
        other.counts.fill(T::of(2));
        other.tallies.fill(T::of(3));
        other.hold(&store.sheet());
        assert_eq!(other, store);
    }

    /// Stores that differ in one tally are different sheets.
    #[test]
    fn the_tallies_are_part_of_the_sheet() {
        each_tally_is_part_of_the_sheet::<u16>(1);
        each_tally_is_part_of_the_sheet::<u32>(130);
    }

    fn each_tally_is_part_of_the_sheet<T: Number>(step: usize) {
        let cleared = StoreOf::<T>::cleared();
        for number in (0..T::CAPACITY.counts).step_by(step) {
            let mut store = cleared.clone();
            store.tallies[number] = T::of(1);
            assert_ne!(store.sheet(), cleared.sheet());
        }
    }
}
