//! What the tests hold the calls against: the rules over whole lists, with each
//! entry named once and every sheet laid out from nothing. Stores are those of the clubs
//! where a name does not say otherwise; [`lay_out_as`] and [`Model::store_as`] lay out in
//! any store.
#![allow(dead_code)]

pub mod all_calls;
pub mod damage;
pub mod mending;
pub mod pairs;
pub mod timed_pairs;

use reference::calls::{self, Answer};
use reference::capacity::{Capacity, Number, CLUBS};
use reference::coins::{Source, Undecided};
use reference::layout::{COUNTS, SLOTS, TALLIES};
use reference::places::{RETIRED, TIED};
use reference::random::SplitMix64;
use reference::shares::{Store, StoreOf};
use reference::timed;
use reference::timed_shares::{Store as TimedStore, StoreOf as TimedStoreOf};
use std::cmp::Ordering;
use std::collections::BTreeMap;

pub fn height(m: usize) -> usize {
    match m {
        0..=64 => 0,
        _ => {
            let g = g(m);
            (0..16).filter(|h| g << h <= m).max().unwrap()
        }
    }
}

pub fn g(m: usize) -> usize {
    format!("{:b}", m - 1).len()
}

pub fn leaf_slots(m: usize) -> usize {
    match m {
        0..=64 => m,
        _ => 3 * g(m),
    }
}

pub fn candidates(m: usize, depth: usize) -> usize {
    let unit = (4 * g(m)) << depth;
    (m + unit - 1) / unit
}

/// The number, from 1, of the first of `c` candidates among `n` entries.
pub fn first_candidate(n: usize, c: usize) -> usize {
    assert!(c <= n, "candidates fit");
    1 + (n + 1) / 2 - (c + 1) / 2
}

/// The slot, from 0, of entry `k` of `n` in a leaf of `s` slots (02, F-2).
pub fn leaf_slot(k: usize, n: usize, s: usize) -> usize {
    (2 * k + 1) * s / (2 * n)
}

/// The place, from 1, of a range in Van Emde Boas order (02, F-5), by the formula
/// of Brodal, Fagerberg and Jacob: the rule cuts one tree directly above the
/// depth of the range; its root comes first, then the rest of its upper part,
/// then its lower parts, among them that of the range, which begins with it.
pub fn place(range: usize, levels: usize) -> usize {
    let depth = (usize::BITS - 1 - range.leading_zeros()) as usize;
    if depth == 0 {
        return 1;
    }
    let (start, end) = cut_above(depth, levels);
    let root = range >> (depth - start);
    let (upper, lower) = ((1 << (depth - start)) - 1, (1 << (end - depth)) - 1);
    place(root, levels) + upper + (range & upper) * lower
}

/// The depths of the tree that the rule cuts directly above this depth: the
/// first, and the one after the last.
fn cut_above(depth: usize, levels: usize) -> (usize, usize) {
    let (mut start, mut end) = (0, levels);
    loop {
        let cut = start + (end - start) / 2;
        match depth.cmp(&cut) {
            Ordering::Less => end = cut,
            Ordering::Equal => return (start, end),
            Ordering::Greater => start = cut,
        }
    }
}

/// The order of the counts of a store.
#[derive(Clone, Copy, Debug, PartialEq, Eq)]
pub enum Order {
    /// Range k has count k, as before 02, F-5.
    Number,
    /// Van Emde Boas order.
    Tree,
}

impl Order {
    /// Where the count of a range stands in a store of size M.
    pub fn place(self, range: usize, m: usize) -> usize {
        match self {
            Order::Number => range,
            Order::Tree => place(range, height(m) + 1),
        }
    }
}

/// Lays out a list by size and balance entries. `balance` is given the range,
/// its length and its number of candidates, and tells which candidate, from 0,
/// is the balance entry.
pub fn lay_out(list: &[u64], m: usize, balance: impl FnMut(usize, usize, usize) -> usize) -> Store {
    lay_out_as(list, m, balance)
}

/// The same in the store that the width of the counts tells.
pub fn lay_out_as<T: Number>(
    list: &[u64],
    m: usize,
    mut balance: impl FnMut(usize, usize, usize) -> usize,
) -> StoreOf<T> {
    let mut store = StoreOf::cleared();
    store.counts[0] = T::of(m);
    lay_out_range(&mut store, Order::Tree, m, 1, 0, list, &mut balance);
    store
}

/// The same with the counts in this order. The tallies stand in tree order in both:
/// there were none before it, and the conversions move counts alone.
pub fn lay_out_in(
    order: Order,
    list: &[u64],
    m: usize,
    mut balance: impl FnMut(usize, usize, usize) -> usize,
) -> Store {
    let mut store = Store::cleared();
    store.counts[0] = m as u16;
    lay_out_range(&mut store, order, m, 1, 0, list, &mut balance);
    store
}

/// How many entries of a list do not bear bit 62 (02, F-11).
pub fn scoring(list: &[u64]) -> usize {
    list.iter().filter(|&&entry| entry & RETIRED == 0).count()
}

fn lay_out_range<T: Number>(
    store: &mut StoreOf<T>,
    order: Order,
    m: usize,
    range: usize,
    depth: usize,
    list: &[u64],
    balance: &mut impl FnMut(usize, usize, usize) -> usize,
) {
    let n = list.len();
    store.counts[order.place(range, m)] = T::of(n);
    store.tallies[Order::Tree.place(range, m)] = T::of(scoring(list));
    if depth == height(m) {
        let slots = leaf_slots(m);
        assert!(n <= slots, "leaf {range} of M {m} holds {n}");
        let start = (range - (1 << depth)) * slots;
        for (k, &entry) in list.iter().enumerate() {
            store.slots[start + leaf_slot(k, n, slots)] = entry;
        }
        return;
    }
    let c = candidates(m, depth);
    let chosen = balance(range, n, c);
    assert!(chosen < c);
    let (left, right) = list.split_at(first_candidate(n, c) - 1 + chosen);
    lay_out_range(store, order, m, 2 * range, depth + 1, left, balance);
    lay_out_range(store, order, m, 2 * range + 1, depth + 1, right, balance);
}

/// A list laid out with its third slice: a timed sheet, if the list rises.
pub fn lay_out_timed(
    list: &[u64],
    m: usize,
    balance: impl FnMut(usize, usize, usize) -> usize,
) -> TimedStore {
    with_third_slice(lay_out(list, m, balance))
}

/// A sheet with the third slice that belongs to it (02, F-1).
pub fn with_third_slice<T: Number>(plain: StoreOf<T>) -> TimedStoreOf<T> {
    let mut balance = vec![0; T::CAPACITY.counts].into_boxed_slice();
    split_range(&plain, 1, 0, &entries(&plain), &mut balance);
    TimedStoreOf { plain, balance }
}

/// Splits the list of a range by its counts; the right half begins with the
/// balance entry.
fn split_range<T: Number>(
    store: &StoreOf<T>,
    range: usize,
    depth: usize,
    list: &[u64],
    balance: &mut [u64],
) {
    if depth == height(m(store)) {
        return;
    }
    let (left, right) = list.split_at(count(store, 2 * range));
    balance[range] = right[0];
    split_range(store, 2 * range, depth + 1, left, balance);
    split_range(store, 2 * range + 1, depth + 1, right, balance);
}

/// The list 1000, 2000, …, each with bits 63 and 62 by its rank.
pub fn boats(n: u64) -> Vec<u64> {
    (0..n).map(|k| 1000 * (k + 1) | (k % 4) << 62).collect()
}

/// A timed sheet of so many boats and this size, with random balance entries.
pub fn boats_in<T: Number>(n: usize, m: usize, random: &mut SplitMix64) -> TimedStoreOf<T> {
    let plain = lay_out_as(&boats(n as u64), m, |_, _, c| random.below(c));
    with_third_slice(plain)
}

/// Any M that a sheet of n entries can have.
pub fn some_size(n: usize, random: &mut SplitMix64) -> usize {
    n + random.below(n.max(1))
}

/// The list with bit 63 in the entries whose ranks are the bits of `pattern`, and
/// in no others.
pub fn with_ties(list: &[u64], pattern: u64) -> Vec<u64> {
    let ranks = list.iter().enumerate();
    ranks
        .map(|(rank, &entry)| entry & !TIED | (pattern >> rank & 1) << 63)
        .collect()
}

/// The list with these bits at each rank, two binary digits of `pattern` for a boat:
/// the lower for bit 63, the upper for bit 62; and no other bits 63 and 62.
pub fn with_bits(list: &[u64], pattern: u64) -> Vec<u64> {
    let ranks = list.iter().enumerate();
    ranks
        .map(|(rank, &entry)| {
            let digits = pattern >> (2 * rank);
            entry & !TIED & !RETIRED | (digits & 1) << 63 | (digits >> 1 & 1) << 62
        })
        .collect()
}

/// Place, sum and group of a rank, pair by pair, as rule A7 has it: the points for
/// the place for which boats have tied and for the places directly below are
/// added together and divided equally. Two scoring boats have tied where every
/// boat behind the first of them, up to the other, bears bit 63, retired ones
/// between them included (02, F-3, F-11). A boat has the place behind all scoring
/// boats before her that she has not tied with; a retired boat has none.
pub fn values_by_pairs(list: &[u64], rank: usize) -> [usize; 3] {
    let scoring = |rank: usize| list[rank] & RETIRED == 0;
    if !scoring(rank) {
        return [0, 0, 1];
    }
    let have_tied = |other: usize| {
        let (before, behind) = (rank.min(other), rank.max(other));
        !list[before + 1..=behind]
            .iter()
            .any(|&entry| entry < 1 << 63)
    };
    let boats: Vec<usize> = (0..list.len()).filter(|&other| scoring(other)).collect();
    let group = boats.iter().filter(|&&other| have_tied(other));
    let ahead = boats
        .iter()
        .filter(|&&other| other < rank && !have_tied(other));
    let place_without_ties =
        |other: &usize| 1 + boats.iter().filter(|&&boat| boat < *other).count();
    [
        1 + ahead.count(),
        group.clone().map(place_without_ties).sum(),
        group.count(),
    ]
}

/// The same by the words of 02, F-11, one after the other.
pub fn values_by_words(list: &[u64], rank: usize) -> [usize; 3] {
    let retired = |boat: usize| list[boat] & RETIRED != 0;
    let bears_63 = |boat: usize| list[boat] & TIED != 0;
    // "A retired boat answers place 0, sum 0, group 1".
    if retired(rank) {
        return [0, 0, 1];
    }
    let scoring_before = |her: usize| (0..her).rev().find(|&boat| !retired(boat));
    let scoring_behind = |her: usize| (her + 1..list.len()).find(|&boat| !retired(boat));
    // "A scoring boat ties with the scoring boat before her exactly when she and
    // every retired boat between them bear bit 63", "that bit on the first scoring
    // boat has no effect."
    let ties = |her: usize| match scoring_before(her) {
        None => false,
        Some(before) => bears_63(her) && (before + 1..her).all(bears_63),
    };
    // "a tied group is a longest run of scoring boats so tied".
    let mut group = vec![rank];
    while ties(group[0]) {
        group.insert(0, scoring_before(group[0]).unwrap());
    }
    while let Some(behind) = scoring_behind(group[group.len() - 1]) {
        if !ties(behind) {
            break;
        }
        group.push(behind);
    }
    // "A group's place is one more than the scoring entries before its first boat".
    let p = 1 + (0..group[0]).filter(|&boat| !retired(boat)).count();
    // F-3: "the sum of places p to p + t − 1, for a group of t".
    let t = group.len();
    [p, (p..=p + t - 1).sum(), t]
}

/// Whether some list, size and balance entries lay out exactly this store.
pub fn is_laid_out<T: Number>(store: &StoreOf<T>) -> bool {
    laid_out_again(store).map_or(false, |again| again == *store)
}

/// Whether a list of `n` entries can stand in a sheet of size M.
pub fn allows(m: usize, n: usize) -> bool {
    allows_in(CLUBS, m, n)
}

/// The same in a store of this capacity.
pub fn allows_in(capacity: Capacity, m: usize, n: usize) -> bool {
    match n {
        0 => m == 0,
        _ => n <= capacity.entries && (n..2 * n).contains(&m),
    }
}

/// The entries in slot order.
pub fn entries<T>(store: &StoreOf<T>) -> Vec<u64> {
    store.slots.iter().copied().filter(|&e| e != 0).collect()
}

/// The store that the entries in slot order, count 0 and the left halves lay out:
/// only these come in question for this store.
pub fn laid_out_again<T: Number>(store: &StoreOf<T>) -> Option<StoreOf<T>> {
    let (m, list) = (m(store), entries(store));
    if !allows_in(T::CAPACITY, m, list.len()) {
        return None;
    }
    let mut all_are_candidates = true;
    let laid_out = lay_out_as(&list, m, |range, n, c| {
        let left = count(store, 2 * range);
        let chosen = (left + 1).wrapping_sub(first_candidate(n, c));
        all_are_candidates &= chosen < c;
        chosen.min(c - 1)
    });
    all_are_candidates.then_some(laid_out)
}

/// An entry with a name of its own.
#[derive(Clone, Copy, Debug, PartialEq, Eq)]
struct Named {
    name: u64,
    entry: u64,
}

/// A sheet as the rules speak of it: the list, M, and the name of the balance
/// entry of each range above the leaves.
#[derive(Clone, Debug, Default)]
pub struct Model {
    m: usize,
    list: Vec<Named>,
    balance: BTreeMap<usize, u64>,
    names: u64,
}

impl Model {
    /// The sheet of a list with an M that it can have, built by these draws.
    pub fn built<S: Source>(list: &[u64], m: usize, source: &mut S) -> Model {
        let mut model = Model {
            m,
            names: list.len() as u64,
            ..Model::default()
        };
        model.list = (0..)
            .zip(list)
            .map(|(name, &entry)| Named { name, entry })
            .collect();
        let named = model.list.clone();
        model.rebuild(1, 0, &named, source).expect("enough draws");
        model
    }

    pub fn n(&self) -> usize {
        self.list.len()
    }

    pub fn m(&self) -> usize {
        self.m
    }

    pub fn list(&self) -> Vec<u64> {
        self.list.iter().map(|named| named.entry).collect()
    }

    pub fn clear(&mut self) {
        *self = Model::default();
    }

    pub fn insert<S: Source>(
        &mut self,
        rank: usize,
        entry: u64,
        source: &mut S,
    ) -> Result<(), Undecided> {
        let n = self.n() as u64;
        let anew = n == 0 || self.m == self.n() || source.draw(n + 1)? == 0;
        let m = match (anew, n) {
            (false, _) => None,
            (true, 0) => Some(1),
            (true, _) => Some(2 * n + source.draw(2)?),
        };
        let before = self.list.clone();
        let name = self.names;
        self.names += 1;
        self.list.insert(rank, Named { name, entry });
        self.follow(m, before, source)
    }

    pub fn delete<S: Source>(&mut self, rank: usize, source: &mut S) -> Result<(), Undecided> {
        let n = self.n() as u64;
        let m = if n == 1 {
            Some(0)
        } else if self.m as u64 >= 2 * n - 2 {
            let f = source.draw(2 * n - 2)?;
            Some(if f + 2 < n { n + f } else { n - 1 })
        } else {
            None
        };
        let before = self.list.clone();
        self.list.remove(rank);
        self.follow(m, before, source)
    }

    fn follow<S: Source>(
        &mut self,
        m: Option<u64>,
        before: Vec<Named>,
        source: &mut S,
    ) -> Result<(), Undecided> {
        let after = self.list.clone();
        match m {
            Some(m) => {
                self.m = m as usize;
                self.balance.clear();
                self.rebuild(1, 0, &after, source)
            }
            None => self.walk(1, 0, &before, &after, source),
        }
    }

    fn rebuild<S: Source>(
        &mut self,
        range: usize,
        depth: usize,
        list: &[Named],
        source: &mut S,
    ) -> Result<(), Undecided> {
        if depth < height(self.m) {
            let among = self.candidates_of(depth, list);
            let face = source.draw(among.len() as u64)?;
            self.set_balance(range, depth, list, among[face as usize], source)?;
        }
        Ok(())
    }

    fn set_balance<S: Source>(
        &mut self,
        range: usize,
        depth: usize,
        list: &[Named],
        name: u64,
        source: &mut S,
    ) -> Result<(), Undecided> {
        self.balance.insert(range, name);
        let (left, right) = list.split_at(position(list, name));
        self.rebuild(2 * range, depth + 1, left, source)?;
        self.rebuild(2 * range + 1, depth + 1, right, source)
    }

    fn walk<S: Source>(
        &mut self,
        range: usize,
        depth: usize,
        before: &[Named],
        after: &[Named],
        source: &mut S,
    ) -> Result<(), Undecided> {
        if depth == height(self.m) {
            return Ok(());
        }
        let old = self.candidates_of(depth, before);
        let new = self.candidates_of(depth, after);
        let leaving: Vec<u64> = only_in(&old, &new);
        let entering: Vec<u64> = only_in(&new, &old);
        assert!(leaving.len() == entering.len() && leaving.len() <= 1);
        let balance = self.balance[&range];
        if leaving.contains(&balance) {
            return self.rebuild(range, depth, after, source);
        }
        if !leaving.is_empty() && source.draw(old.len() as u64)? == 0 {
            return self.set_balance(range, depth, after, entering[0], source);
        }
        let (left, right) = before.split_at(position(before, balance));
        let (new_left, new_right) = after.split_at(position(after, balance));
        if left != new_left {
            assert_eq!(right, new_right);
            self.walk(2 * range, depth + 1, left, new_left, source)
        } else {
            self.walk(2 * range + 1, depth + 1, right, new_right, source)
        }
    }

    /// The names of the candidates of a range.
    fn candidates_of(&self, depth: usize, list: &[Named]) -> Vec<u64> {
        let c = candidates(self.m, depth);
        let first = first_candidate(list.len(), c);
        list[first - 1..first - 1 + c]
            .iter()
            .map(|named| named.name)
            .collect()
    }

    /// The store of this sheet.
    pub fn store(&self) -> Store {
        self.store_as()
    }

    /// The store of this sheet that the width of the counts tells.
    pub fn store_as<T: Number>(&self) -> StoreOf<T> {
        let mut store = StoreOf::cleared();
        store.counts[0] = T::of(self.m);
        self.write(&mut store, Order::Tree, 1, 0, &self.list);
        store
    }

    /// The store of this sheet with its counts in this order.
    pub fn store_in(&self, order: Order) -> Store {
        let mut store = Store::cleared();
        store.counts[0] = self.m as u16;
        self.write(&mut store, order, 1, 0, &self.list);
        store
    }

    /// The timed store of this sheet, whose list rises.
    pub fn timed_store(&self) -> TimedStore {
        self.timed_store_as()
    }

    /// The timed store of this sheet that the width of the counts tells.
    pub fn timed_store_as<T: Number>(&self) -> TimedStoreOf<T> {
        let entry_of: BTreeMap<u64, u64> = self.list.iter().map(|of| (of.name, of.entry)).collect();
        let mut balance = vec![0; T::CAPACITY.counts].into_boxed_slice();
        for (&range, name) in &self.balance {
            balance[range] = entry_of[name];
        }
        TimedStoreOf {
            plain: self.store_as(),
            balance,
        }
    }

    fn write<T: Number>(
        &self,
        store: &mut StoreOf<T>,
        order: Order,
        range: usize,
        depth: usize,
        list: &[Named],
    ) {
        store.counts[order.place(range, self.m)] = T::of(list.len());
        let entries: Vec<u64> = list.iter().map(|named| named.entry).collect();
        store.tallies[Order::Tree.place(range, self.m)] = T::of(scoring(&entries));
        if depth == height(self.m) {
            let slots = leaf_slots(self.m);
            let start = (range - (1 << depth)) * slots;
            for (k, named) in list.iter().enumerate() {
                store.slots[start + leaf_slot(k, list.len(), slots)] = named.entry;
            }
            return;
        }
        let (left, right) = list.split_at(position(list, self.balance[&range]));
        self.write(store, order, 2 * range, depth + 1, left);
        self.write(store, order, 2 * range + 1, depth + 1, right);
    }
}

fn position(list: &[Named], name: u64) -> usize {
    list.iter().position(|named| named.name == name).unwrap()
}

fn only_in(these: &[u64], those: &[u64]) -> Vec<u64> {
    let only = these.iter().filter(|name| !those.contains(name));
    only.copied().collect()
}

/// Random words, a part of them at the top, where most draws pass them over.
pub fn words(random: &mut SplitMix64, number: usize) -> Vec<u32> {
    let mut words = vec![0; number];
    random.fill(&mut words);
    for word in &mut words {
        if random.below(6) == 0 {
            *word = u32::MAX - random.below(2) as u32;
        }
    }
    words
}

/// A sheet of the list 1, 2, …, `n`, made by inserts at random ranks.
pub fn sheet_of(n: usize, random: &mut SplitMix64) -> Store {
    let mut store = Store::cleared();
    let mut order: Vec<u64> = (1..=n as u64).collect();
    for i in (1..n).rev() {
        order.swap(i, random.below(i + 1));
    }
    for (done, &entry) in order.iter().enumerate() {
        let rank = order[..done].iter().filter(|&&e| e < entry).count();
        let tape = words(random, 1024);
        let answer = insert(&mut store, rank, entry, &tape);
        assert_eq!(answer.number(), 0);
    }
    store
}

pub fn insert<T: Number>(store: &mut StoreOf<T>, rank: usize, entry: u64, tape: &[u32]) -> Answer {
    let (slots, counts) = (&mut store.slots, &mut store.counts);
    calls::insert(slots, counts, &mut store.tallies, rank, entry, tape)
}

pub fn delete<T: Number>(store: &mut StoreOf<T>, rank: usize, tape: &[u32]) -> Answer {
    let (slots, counts) = (&mut store.slots, &mut store.counts);
    calls::delete(slots, counts, &mut store.tallies, rank, tape)
}

pub fn read<T: Number>(
    store: &StoreOf<T>,
    first: usize,
    last: usize,
    output: &mut [u64],
) -> Answer {
    let (slots, counts) = (&store.slots, &store.counts);
    calls::read(slots, counts, &store.tallies, first, last, output)
}

pub fn board<T: Number>(store: &StoreOf<T>, ranks: &[u64], output: &mut [u64]) -> Answer {
    let (slots, counts) = (&store.slots, &store.counts);
    calls::board(slots, counts, &store.tallies, ranks, output)
}

pub fn check<T: Number>(store: &StoreOf<T>) -> Answer {
    calls::check(&store.slots, &store.counts, &store.tallies)
}

pub fn mend<T: Number>(store: &mut StoreOf<T>) -> Answer {
    let (counts, tallies) = (&mut store.counts, &mut store.tallies);
    calls::mend(&store.slots, counts, tallies)
}

pub fn place_of<T: Number>(store: &StoreOf<T>, rank: usize) -> Answer {
    let (slots, counts) = (&store.slots, &store.counts);
    calls::place(slots, counts, &store.tallies, rank)
}

pub fn clear<T: Number>(store: &mut StoreOf<T>) -> Answer {
    let (slots, counts) = (&mut store.slots, &mut store.counts);
    calls::clear(slots, counts, &mut store.tallies)
}

pub fn m<T: Number>(store: &StoreOf<T>) -> usize {
    store.counts[0].value()
}

pub fn n<T: Number>(store: &StoreOf<T>) -> usize {
    store.counts[1].value()
}

/// The count of a range.
pub fn count<T: Number>(store: &StoreOf<T>, range: usize) -> usize {
    store.counts[Order::Tree.place(range, m(store))].value()
}

/// The whole list, through read.
pub fn list<T: Number>(store: &StoreOf<T>) -> Vec<u64> {
    let n = n(store);
    let mut list = vec![0; n];
    if n > 0 {
        let answer = read(store, 0, n - 1, &mut list);
        assert_eq!(answer, Answer::Read { entries: n });
    }
    list
}

pub fn timed_clear<T: Number>(store: &mut TimedStoreOf<T>) -> Answer {
    let TimedStoreOf { plain, balance } = store;
    let (slots, counts) = (&mut plain.slots, &mut plain.counts);
    timed::clear(slots, counts, &mut plain.tallies, balance)
}

pub fn timed_insert<T: Number>(store: &mut TimedStoreOf<T>, entry: u64, tape: &[u32]) -> Answer {
    let TimedStoreOf { plain, balance } = store;
    let (slots, counts) = (&mut plain.slots, &mut plain.counts);
    timed::insert(slots, counts, &mut plain.tallies, balance, entry, tape)
}

pub fn timed_delete<T: Number>(store: &mut TimedStoreOf<T>, rank: usize, tape: &[u32]) -> Answer {
    let TimedStoreOf { plain, balance } = store;
    let (slots, counts) = (&mut plain.slots, &mut plain.counts);
    timed::delete(slots, counts, &mut plain.tallies, balance, rank, tape)
}

pub fn timed_find<T: Number>(store: &TimedStoreOf<T>, entry: u64) -> Answer {
    let (slots, counts, tallies, balance) = timed_slices(store);
    timed::find(slots, counts, tallies, balance, entry)
}

pub fn timed_read<T: Number>(
    store: &TimedStoreOf<T>,
    first: usize,
    last: usize,
    output: &mut [u64],
) -> Answer {
    let (slots, counts, tallies, balance) = timed_slices(store);
    timed::read(slots, counts, tallies, balance, first, last, output)
}

pub fn timed_board<T: Number>(
    store: &TimedStoreOf<T>,
    ranks: &[u64],
    output: &mut [u64],
) -> Answer {
    let (slots, counts, tallies, balance) = timed_slices(store);
    timed::board(slots, counts, tallies, balance, ranks, output)
}

pub fn timed_place<T: Number>(store: &TimedStoreOf<T>, rank: usize) -> Answer {
    let (slots, counts, tallies, balance) = timed_slices(store);
    timed::place(slots, counts, tallies, balance, rank)
}

pub fn timed_check<T: Number>(store: &TimedStoreOf<T>) -> Answer {
    let (slots, counts, tallies, balance) = timed_slices(store);
    timed::check(slots, counts, tallies, balance)
}

pub fn timed_mend<T: Number>(store: &mut TimedStoreOf<T>) -> Answer {
    let TimedStoreOf { plain, balance } = store;
    let (slots, counts) = (&plain.slots, &mut plain.counts);
    timed::mend(slots, counts, &mut plain.tallies, balance)
}

fn timed_slices<T>(store: &TimedStoreOf<T>) -> (&[u64], &[T], &[T], &[u64]) {
    let TimedStoreOf { plain, balance } = store;
    (&plain.slots, &plain.counts, &plain.tallies, balance)
}

/// Slices of any lengths, for calls that must refuse them.
pub fn slices<T: Number>(
    slots: usize,
    counts: usize,
    tallies: usize,
) -> (Vec<u64>, Vec<T>, Vec<T>) {
    let zero = T::default();
    (vec![0; slots], vec![zero; counts], vec![zero; tallies])
}

pub fn full_lengths() -> (Vec<u64>, Vec<u16>, Vec<u16>) {
    slices(SLOTS, COUNTS, TALLIES)
}
