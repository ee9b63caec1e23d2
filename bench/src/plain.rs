//! The same calls once more in safe Rust, written for speed: no table worked out
//! for each call, no comparison of candidates one by one. `tests/reference` is
//! written to be read beside the paper; a ratio to it would say little.

use crate::sides::Returned;
use crate::tree_order::{places, Places};
use reference::layout::{COUNTS, SLOTS};
use reference::places::{RETIRED, TIED};
use reference::sizes::MAX_ENTRIES;

/// Counts or tallies, which are as many and stand in the same order.
type Counts = [u16; COUNTS];

const TAPE_ENDS: u64 = 7;

/// What the size parameter gives.
#[derive(Clone, Copy)]
struct Size {
    m: usize,
    height: usize,
    leaf: usize,
    /// Candidates of the root: below, half of those above, rounded up.
    candidates: usize,
    places: &'static Places,
}

impl Size {
    fn new(m: usize) -> Size {
        if m <= 64 {
            return Size { m, height: 0, leaf: m, candidates: 0, places: places(0) };
        }
        let g = (usize::BITS - (m - 1).leading_zeros()) as usize;
        let height = (m / g).ilog2() as usize;
        Size {
            m,
            height,
            leaf: 3 * g,
            candidates: m.div_ceil(4 * g),
            places: places(height),
        }
    }

    fn root(&self) -> Range {
        Range { k: 1, levels: self.height, c: self.candidates }
    }

    /// The place of the count of range k.
    fn place(&self, k: usize) -> usize {
        // Every k is below COUNTS; the remainder spares the bounds check.
        usize::from(self.places[k % COUNTS])
    }

    fn count(&self, counts: &Counts, k: usize) -> usize {
        usize::from(counts[self.place(k)])
    }

    /// The counts of the ranges by their numbers.
    fn by_number(&self, counts: &Counts) -> Counts {
        let mut numbered = [0; COUNTS];
        for (n, &place) in numbered.iter_mut().zip(self.places).take(2 * self.leaves()) {
            *n = counts[usize::from(place)];
        }
        numbered
    }

    fn set_count(&self, counts: &mut Counts, k: usize, n: usize) {
        counts[self.place(k)] = n as u16;
    }

    fn leaves(&self) -> usize {
        1 << self.height
    }
}

/// A range: its number, the levels below it, and how many candidates it has.
#[derive(Clone, Copy)]
struct Range {
    k: usize,
    levels: usize,
    c: usize,
}

impl Range {
    fn left(self) -> Range {
        Range { k: 2 * self.k, levels: self.levels - 1, c: self.c - self.c / 2 }
    }

    fn right(self) -> Range {
        Range { k: 2 * self.k + 1, ..self.left() }
    }
}

fn window(n: usize, c: usize) -> usize {
    n.div_ceil(2) - c.div_ceil(2)
}

/// The slots ⌊(2k + 1) s / (2n)⌋ one after the other, with one division: s / n
/// from one to the next, and half of that to the first. A rest is by 2n.
struct Slots {
    divisor: usize,
    slot: usize,
    rest: usize,
    step: usize,
    step_rest: usize,
}

impl Slots {
    fn new(s: usize, n: usize) -> Slots {
        let n = n.max(1);
        let step = (s as u32 / n as u32) as usize;
        let rest = (s as u32 % n as u32) as usize;
        Slots {
            divisor: 2 * n,
            slot: step / 2,
            rest: if step % 2 == 0 { rest } else { n + rest },
            step,
            step_rest: 2 * rest,
        }
    }

    fn advance(&mut self) {
        self.slot += self.step;
        self.rest += self.step_rest;
        if self.rest >= self.divisor {
            self.rest -= self.divisor;
            self.slot += 1;
        }
    }
}

/// As many entries as there should be, and none of their slots empty.
fn leaf_is_spread(leaf: &[u64], n: usize) -> bool {
    // Divided first, while the entries are counted.
    let mut next = Slots::new(leaf.len(), n);
    if leaf.iter().filter(|&&held| held != 0).count() != n {
        return false;
    }
    (0..n).all(|_| {
        let full = leaf[next.slot] != 0;
        next.advance();
        full
    })
}

fn retired_in(entries: &[u64]) -> usize {
    entries.iter().map(|&entry| usize::from(entry & RETIRED != 0)).sum()
}

/// Whether each range above the leaves is split at a candidate; the counts stand
/// by their numbers here.
fn tree_is_balanced(counts: &Counts, c: usize, levels: usize, k: usize) -> bool {
    if levels == 0 {
        return true;
    }
    let (n, b, right) = (counts[k] as usize, counts[2 * k] as usize, counts[2 * k + 1] as usize);
    if c > n || b + right != n {
        return false;
    }
    let start = window(n, c);
    let below = c - c / 2;
    b >= start && b < start + c && tree_is_balanced(counts, below, levels - 1, 2 * k) && tree_is_balanced(counts, below, levels - 1, 2 * k + 1)
}

/// Whether each range above the leaves has the tallies of its halves; they stand by
/// their numbers here.
fn tallies_add_up(tallies: &Counts, leaves: usize) -> bool {
    (1..leaves).fold(0, |faults, k| faults | tallies[2 * k].wrapping_add(tallies[2 * k + 1]) ^ tallies[k]) == 0
}

/// The size and the length of the sheet in the store, or the cause 1 or 2.
fn open(slots: &[u64], counts: &[u16], tallies: &[u16]) -> Result<(Size, usize), u64> {
    if slots.len() != SLOTS {
        return Err(1);
    }
    let counts: &Counts = counts.try_into().map_err(|_| 1u64)?;
    let tallies: &Counts = tallies.try_into().map_err(|_| 1u64)?;
    let (m, n) = (counts[0] as usize, counts[1] as usize);
    if n > MAX_ENTRIES || m < n || m > (2 * n).saturating_sub(1) {
        return Err(2);
    }
    let size = Size::new(m);
    let leaves = size.leaves();
    let numbered = size.by_number(counts);
    if !tree_is_balanced(&numbered, size.candidates, size.height, 1) || counts[2 * leaves..].iter().fold(0, |any, &c| any | c) != 0 {
        return Err(2);
    }
    let scoring = size.by_number(tallies);
    if !tallies_add_up(&scoring, leaves) || tallies[2 * leaves..].iter().fold(tallies[0], |any, &t| any | t) != 0 {
        return Err(2);
    }
    let (used, unused) = slots.split_at(size.leaf * leaves);
    let mut leaf_numbers = numbered[leaves..].iter().zip(&scoring[leaves..]);
    let mut next_is = |leaf: &[u64]| {
        let (n, tally) = leaf_numbers.next().expect("as many leaves");
        leaf_is_spread(leaf, usize::from(*n)) && usize::from(*n) - retired_in(leaf) == usize::from(*tally)
    };
    let spread = if m == 0 { tallies[1] == 0 } else { used.chunks_exact(size.leaf).all(&mut next_is) };
    if !spread || unused.iter().fold(0, |any, &slot| any | slot) != 0 {
        return Err(2);
    }
    Ok((size, n))
}

#[derive(Clone, Copy)]
enum Change {
    Insert(usize),
    Delete(usize),
}

impl Change {
    fn rank(self) -> usize {
        match self {
            Change::Insert(rank) | Change::Delete(rank) => rank,
        }
    }

    fn at(self, rank: usize) -> Change {
        match self {
            Change::Insert(_) => Change::Insert(rank),
            Change::Delete(_) => Change::Delete(rank),
        }
    }

    fn after(self, n: usize) -> usize {
        match self {
            Change::Insert(_) => n + 1,
            Change::Delete(_) => n - 1,
        }
    }
}

struct Tape<'a> {
    words: &'a [u32],
    place: usize,
}

impl Tape<'_> {
    fn draw(&mut self, m: usize) -> Option<usize> {
        if m == 1 {
            return Some(0);
        }
        let m = u32::try_from(m).ok().filter(|&m| m > 0)?;
        // The words from 2^32 less this on are passed over.
        let over = m.wrapping_neg() % m;
        while let Some(&word) = self.words.get(self.place) {
            self.place += 1;
            if word <= u32::MAX - over {
                return Some((word % m) as usize);
            }
        }
        None
    }
}

/// The leaving and the entering candidate where an entry comes in at rank i,
/// ranks before and after.
fn swap(i: usize, before: usize, after: usize, c: usize) -> Option<(usize, usize)> {
    let end = before + c;
    if after == before {
        (i < end).then(|| (end - 1, i.max(before)))
    } else {
        (before < i).then(|| (before, i.min(end)))
    }
}

fn compare(change: Change, n: usize, c: usize) -> Option<(usize, usize)> {
    match change {
        Change::Insert(i) => swap(i, window(n, c), window(n + 1, c), c),
        Change::Delete(i) => swap(i, window(n - 1, c), window(n, c), c).map(|(out, into)| (into, out)),
    }
}

fn rebuild(counts: &mut Counts, size: &Size, range: Range, n: usize, tape: &mut Tape) -> Option<()> {
    if range.levels == 0 {
        size.set_count(counts, range.k, n);
        return Some(());
    }
    let b = window(n, range.c) + tape.draw(range.c)?;
    rebuild_halves(counts, size, range, n, b, tape)
}

fn rebuild_halves(counts: &mut Counts, size: &Size, range: Range, n: usize, b: usize, tape: &mut Tape) -> Option<()> {
    size.set_count(counts, range.k, n);
    rebuild(counts, size, range.left(), b, tape)?;
    rebuild(counts, size, range.right(), n - b, tape)
}

/// The range that the change is confined to, and the change as it sees it.
struct Part {
    k: usize,
    depth: usize,
    change: Change,
}

fn walk(counts: &mut Counts, size: Size, n: usize, change: Change, tape: &mut Tape) -> Option<Part> {
    let (mut k, mut depth, mut n, mut change, mut c) = (1, 0, n, change, size.candidates);
    while depth < size.height {
        let b = size.count(counts, 2 * k);
        if let Some((out, into)) = compare(change, n, c) {
            let range = Range { k, levels: size.height - depth, c };
            if b == out {
                rebuild(counts, &size, range, change.after(n), tape)?;
                return Some(Part { k, depth, change });
            }
            if tape.draw(c)? == 0 {
                rebuild_halves(counts, &size, range, change.after(n), into, tape)?;
                return Some(Part { k, depth, change });
            }
        }
        size.set_count(counts, k, change.after(n));
        let rank = change.rank();
        (k, n, change) = if b < rank { (2 * k + 1, n - b, change.at(rank - b)) } else { (2 * k, b, change) };
        depth += 1;
        c -= c / 2;
    }
    size.set_count(counts, k, change.after(n));
    Some(Part { k, depth, change })
}

/// The size parameter, where it is set anew.
fn size_step(change: Change, n: usize, m: usize, tape: &mut Tape) -> Option<Option<usize>> {
    match change {
        Change::Insert(_) if n == 0 => Some(Some(1)),
        Change::Insert(_) => {
            if m == n || tape.draw(n + 1)? == 0 {
                return Some(Some(2 * n + tape.draw(2)?));
            }
            Some(None)
        }
        Change::Delete(_) if n == 1 => Some(Some(0)),
        Change::Delete(_) if m < 2 * n - 2 => Some(None),
        Change::Delete(_) => {
            let f = tape.draw(2 * n - 2)?;
            Some(Some(if f < n - 2 { n + f } else { n - 1 }))
        }
    }
}

/// The slots and the leaves under a range.
fn under(size: Size, part: &Part) -> (std::ops::Range<usize>, std::ops::Range<usize>) {
    let levels = size.height - part.depth;
    let first = part.k << levels;
    let leaves = first..first + (1 << levels);
    let from = (first - size.leaves()) * size.leaf;
    (from..from + (size.leaf << levels), leaves)
}

/// Lays the part out, and writes the tallies of its leaves; whether the entry that
/// came in or went out scores.
fn lay_part(slots: &mut [u64], old: Size, new: Size, part: &Part, entry: u64, counts: &Counts, tallies: &mut Counts) -> bool {
    let mut list = [0; MAX_ENTRIES + 1];
    let mut n = 0;
    let (from, _) = under(old, part);
    for &held in &slots[from.clone()] {
        if held != 0 {
            list[n] = held;
            n += 1;
        }
    }
    let rank = part.change.rank();
    let moved = match part.change {
        Change::Insert(_) => {
            list.copy_within(rank..n, rank + 1);
            list[rank] = entry;
            entry
        }
        Change::Delete(_) => {
            let gone = list[rank];
            list.copy_within(rank + 1..n, rank);
            gone
        }
    };
    slots[from].fill(0);
    let (to, leaves) = under(new, part);
    let mut entries = &list[..];
    if new.leaf > 0 {
        for (leaf, k) in slots[to].chunks_exact_mut(new.leaf).zip(leaves) {
            let n = new.count(counts, k);
            let (own, rest) = entries.split_at(n);
            entries = rest;
            let mut next = Slots::new(leaf.len(), n);
            for &entry in own {
                leaf[next.slot] = entry;
                next.advance();
            }
            new.set_count(tallies, k, n - retired_in(own));
        }
    }
    moved & RETIRED == 0
}

/// The tallies of the ranges of a part, from those of its leaves, and of the ranges
/// above it, which change by one where the entry scores.
fn tally(tallies: &mut Counts, size: &Size, part: &Part, scores: bool) {
    for levels in (0..size.height - part.depth).rev() {
        for k in part.k << levels..(part.k + 1) << levels {
            let sum = size.count(tallies, 2 * k) + size.count(tallies, 2 * k + 1);
            size.set_count(tallies, k, sum);
        }
    }
    let mut above = part.k / 2;
    while scores && above > 0 {
        let after = part.change.after(size.count(tallies, above));
        size.set_count(tallies, above, after);
        above /= 2;
    }
}

/// The lent slices, which have the right lengths.
struct Lent<'a> {
    slots: &'a mut [u64],
    counts: &'a mut [u16],
    tallies: &'a mut [u16],
}

fn change(lent: Lent, old: Size, n: usize, change: Change, entry: u64, tape: &[u32]) -> Returned {
    let counts: &mut Counts = lent.counts.try_into().expect("the lengths are right");
    let tallies: &mut Counts = lent.tallies.try_into().expect("the lengths are right");
    let mut tape = Tape { words: tape, place: 0 };
    let mut work = *counts;
    let Some((new, part, anew)) = plan(&mut work, old, n, change, &mut tape) else {
        return [TAPE_ENDS, 0, 0, 0];
    };
    if anew {
        tallies.fill(0);
    }
    let scores = lay_part(lent.slots, old, new, &part, entry, &work, tallies);
    tally(tallies, &new, &part, scores);
    *counts = work;
    [0, change.after(n) as u64, tape.place as u64, 0]
}

/// The size after the change, the part, and whether the size was set anew.
fn plan(work: &mut Counts, old: Size, n: usize, change: Change, tape: &mut Tape) -> Option<(Size, Part, bool)> {
    match size_step(change, n, old.m, tape)? {
        None => Some((old, walk(work, old, n, change, tape)?, false)),
        Some(m) => {
            let new = Size::new(m);
            *work = [0; COUNTS];
            work[0] = m as u16;
            rebuild(work, &new, new.root(), change.after(n), tape)?;
            Some((new, Part { k: 1, depth: 0, change }, true))
        }
    }
}

pub fn check(slots: &[u64], counts: &[u16], tallies: &[u16]) -> Returned {
    match open(slots, counts, tallies) {
        Ok((_, n)) => [0, n as u64, 0, 0],
        Err(cause) => [cause, 0, 0, 0],
    }
}

fn scores(entry: u64) -> bool {
    entry & RETIRED == 0
}

pub fn place(slots: &[u64], counts: &[u16], tallies: &[u16], rank: usize) -> Returned {
    let size = match open(slots, counts, tallies) {
        Ok((_, n)) if rank >= n => return [4, 0, 0, 0],
        Ok((size, _)) => size,
        Err(cause) => return [cause, 0, 0, 0],
    };
    let counts: &Counts = counts.try_into().expect("the lengths are right");
    let tallies: &Counts = tallies.try_into().expect("the lengths are right");
    let (leaf, in_leaf) = find_leaf(&size, counts, rank);
    let mut at = Slots::new(size.leaf, size.count(counts, size.leaves() + leaf));
    (0..in_leaf).for_each(|_| at.advance());
    let start = leaf * size.leaf;
    let her = start + at.slot;
    if !scores(slots[her]) {
        return [0, 0, 0, 1];
    }
    let (back, on) = slots[..size.leaf * size.leaves()].split_at(her + 1);
    let scoring = |entries: &[u64]| entries.iter().filter(|&&slot| slot != 0 && scores(slot)).count();
    let before = scoring_before_leaf(&size, tallies, leaf) + scoring(&back[start..her]);
    // From her back to the first boat that bears no bit, and on to the last that does: the scoring boats of her group.
    let mut first = 0;
    for &entry in back.iter().rev().filter(|slot| **slot != 0) {
        first += usize::from(scores(entry));
        if entry & TIED == 0 {
            break;
        }
    }
    let behind = on.iter().filter(|slot| **slot != 0).take_while(|entry| **entry & TIED != 0);
    let behind = behind.filter(|entry| scores(**entry)).count();
    let (place, t) = ((before + 2 - first) as u64, (first + behind) as u64);
    [0, place, t * (2 * place + t - 1) / 2, t]
}

/// The scoring entries before a leaf, by the tallies of the left halves on the way up.
fn scoring_before_leaf(size: &Size, tallies: &Counts, leaf: usize) -> usize {
    let (mut k, mut scoring) = (size.leaves() + leaf, 0);
    while k > 1 {
        scoring += if k % 2 == 1 { size.count(tallies, k - 1) } else { 0 };
        k /= 2;
    }
    scoring
}

/// The leaf that holds the entry of this rank, and how many stand before it there.
fn find_leaf(size: &Size, counts: &Counts, rank: usize) -> (usize, usize) {
    let leaves = size.leaves();
    let (mut leaf, mut before) = (0, rank);
    while before >= size.count(counts, leaves + leaf) {
        before -= size.count(counts, leaves + leaf);
        leaf += 1;
    }
    (leaf, before)
}

pub fn read(slots: &[u64], counts: &[u16], tallies: &[u16], first: usize, last: usize, output: &mut [u64]) -> Returned {
    let size = match open(slots, counts, tallies) {
        Ok((_, n)) if last >= n || first > last => return [4, 0, 0, 0],
        Ok((size, _)) => size,
        Err(cause) => return [cause, 0, 0, 0],
    };
    let count = last - first + 1;
    let Some(output) = output.get_mut(..count) else {
        return [6, 0, 0, 0];
    };
    let counts: &Counts = counts.try_into().expect("the lengths are right");
    let (leaf, before) = find_leaf(&size, counts, first);
    let held = slots[leaf * size.leaf..].iter().filter(|&&slot| slot != 0).skip(before);
    for (place, &entry) in output.iter_mut().zip(held) {
        *place = entry;
    }
    [0, count as u64, 0, 0]
}

pub fn insert(slots: &mut [u64], counts: &mut [u16], tallies: &mut [u16], rank: usize, entry: u64, tape: &[u32]) -> Returned {
    match open(slots, counts, tallies) {
        Ok(_) if entry == 0 => [3, 0, 0, 0],
        Ok((_, n)) if rank > n => [4, 0, 0, 0],
        Ok((_, n)) if n == MAX_ENTRIES => [5, 0, 0, 0],
        Ok((size, n)) => change(Lent { slots, counts, tallies }, size, n, Change::Insert(rank), entry, tape),
        Err(cause) => [cause, 0, 0, 0],
    }
}

pub fn delete(slots: &mut [u64], counts: &mut [u16], tallies: &mut [u16], rank: usize, tape: &[u32]) -> Returned {
    match open(slots, counts, tallies) {
        Ok((_, n)) if rank >= n => [4, 0, 0, 0],
        Ok((size, n)) => change(Lent { slots, counts, tallies }, size, n, Change::Delete(rank), 0, tape),
        Err(cause) => [cause, 0, 0, 0],
    }
}
