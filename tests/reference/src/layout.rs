//! The store: where entries, counts and tallies stand, and whether a store is a
//! sheet.

use crate::capacity::{Number, CLUBS, FEDERATION};
use crate::order;
use crate::places::scores;
use crate::sizes::{candidate_positions, Size, Spread};
use std::ops::{BitOr, Range};

/// The lengths of the clubs' slices.
pub const SLOTS: usize = CLUBS.slots;
pub const COUNTS: usize = CLUBS.counts;
pub const TALLIES: usize = CLUBS.counts;

/// The clubs' slices.
pub type Slots = [u64; SLOTS];
pub type Counts = [u16; COUNTS];
pub type Tallies = [u16; TALLIES];

/// 01: "Count 0 holds the size parameter M", "Count 1 is the root range". 02, F-5,
/// leaves both where they are: "Count 0 stays first", and every tree begins with
/// its root.
pub const SIZE: usize = 0;
pub const ROOT: usize = 1;

/// The height of the clubs' largest sheets.
pub const MAX_HEIGHT: usize = CLUBS.height();

/// A range of the tree: its number and its depth. 01: "range k has left half 2k
/// and right half 2k+1."
#[derive(Clone, Copy, Debug, PartialEq, Eq)]
pub struct Node {
    pub number: usize,
    pub depth: usize,
}

impl Node {
    pub const ROOT: Node = Node {
        number: ROOT,
        depth: 0,
    };

    pub fn left(self) -> Node {
        Node {
            number: 2 * self.number,
            depth: self.depth + 1,
        }
    }

    pub fn right(self) -> Node {
        Node {
            number: 2 * self.number + 1,
            depth: self.depth + 1,
        }
    }

    /// All ranges at one depth, from left to right.
    pub fn all_at(depth: usize) -> impl Iterator<Item = Node> {
        (1 << depth..2 << depth).map(move |number| Node { number, depth })
    }
}

/// The numbers that the size parameter of a sheet gives, worked out once.
#[derive(Clone, Copy, Debug)]
pub struct Shape {
    pub m: usize,
    pub height: usize,
    pub leaf_slots: usize,
    candidates: [usize; FEDERATION.height()],
    places: &'static [u16],
}

impl Shape {
    /// The shape for an M of at most 131,071, which is the same in every store that has
    /// room for it.
    pub fn of(m: usize) -> Shape {
        let size = Size::new(m);
        Shape {
            m,
            height: size.height(),
            leaf_slots: size.leaf_slots(),
            candidates: std::array::from_fn(|depth| size.candidates(depth)),
            places: order::places(size.height()),
        }
    }

    pub fn leaves(&self) -> usize {
        1 << self.height
    }

    /// Slots of the whole sheet, all leaves together.
    pub fn slots(&self) -> usize {
        self.leaf_slots * self.leaves()
    }

    /// The count of a range, which stands at the range's place in the tree.
    pub fn count<T: Number>(&self, counts: &[T], node: Node) -> usize {
        counts[self.place(node)].value()
    }

    pub fn set_count<T: Number>(&self, counts: &mut [T], node: Node, n: usize) {
        counts[self.place(node)] = T::of(n);
    }

    /// The tally of a range, which stands where its count does. 02, F-11: "in the
    /// order of the counts".
    pub fn tally<T: Number>(&self, tallies: &[T], node: Node) -> usize {
        self.count(tallies, node)
    }

    fn place(&self, node: Node) -> usize {
        self.places[node.number].into()
    }

    /// The counts that belong to these slots, M at number 0. 01: "Each count is the
    /// number of entries in its range."
    pub fn counts<T: Number>(&self, slots: &[u64]) -> Vec<T> {
        let mut counts = self.numbers(slots, |_| true);
        counts[SIZE] = T::of(self.m);
        counts
    }

    /// The tallies that belong to these slots. 02, F-11: "Each range gets the number
    /// of its scoring entries", "its number 0 is zero".
    pub fn tallies<T: Number>(&self, slots: &[u64]) -> Vec<T> {
        self.numbers(slots, scores)
    }

    /// The number of such entries of each range, at the range's place. Those of a leaf
    /// are counted in its slots; a range above has those of both its halves.
    fn numbers<T: Number>(&self, slots: &[u64], such: impl Fn(u64) -> bool) -> Vec<T> {
        let mut numbers = vec![T::default(); T::CAPACITY.counts];
        for node in (0..=self.height).rev().flat_map(Node::all_at) {
            let number = if node.depth == self.height {
                let leaf = &slots[self.slots_under(node)];
                leaf.iter().filter(|&&slot| slot != 0 && such(slot)).count()
            } else {
                self.count(&numbers, node.left()) + self.count(&numbers, node.right())
            };
            self.set_count(&mut numbers, node, number);
        }
        numbers
    }

    /// The number of the scoring entries before a rank below N. 02, F-11: "found on
    /// the path down", by the tallies of the left halves that lie before the path.
    pub fn scoring_before<T: Number>(
        &self,
        slots: &[u64],
        counts: &[T],
        tallies: &[T],
        rank: usize,
    ) -> usize {
        let (mut node, mut rank, mut scoring) = (Node::ROOT, rank, 0);
        while node.depth < self.height {
            let left = node.left();
            let n = self.count(counts, left);
            if rank < n {
                node = left;
            } else {
                rank -= n;
                scoring += self.tally(tallies, left);
                node = node.right();
            }
        }
        let before = self.entry_slots(node, counts).take(rank);
        scoring + before.filter(|&slot| scores(slots[slot])).count()
    }

    /// The number of candidates of a range above the leaves.
    pub fn candidates(&self, depth: usize) -> usize {
        self.candidates[depth]
    }

    /// Where the candidates stand among the `n` entries of a range above the
    /// leaves. They fit in every sheet (tested over all sizes in
    /// `tests/federation/sizes.rs`).
    pub fn candidate_positions(&self, depth: usize, n: usize) -> Range<usize> {
        candidate_positions(n, self.candidates(depth)).expect("candidates fit")
    }

    /// The leaves under a range, from 0.
    fn leaves_under(&self, node: Node) -> Range<usize> {
        let levels = self.height - node.depth;
        let first = (node.number - (1 << node.depth)) << levels;
        first..first + (1 << levels)
    }

    /// The slots under a range.
    pub fn slots_under(&self, node: Node) -> Range<usize> {
        let leaves = self.leaves_under(node);
        leaves.start * self.leaf_slots..leaves.end * self.leaf_slots
    }

    /// Each leaf under a range: the number of its first slot, and its count.
    fn leaf_counts<'a, T: Number>(
        &self,
        node: Node,
        counts: &'a [T],
    ) -> impl Iterator<Item = (usize, usize)> + 'a {
        let (first, leaf_slots) = (self.leaves(), self.leaf_slots);
        let places = self.places;
        self.leaves_under(node).map(move |leaf| {
            let place = usize::from(places[first + leaf]);
            (leaf * leaf_slots, counts[place].value())
        })
    }

    /// Each slot that holds an entry under a range, in list order.
    pub fn entry_slots<'a, T: Number>(
        &self,
        node: Node,
        counts: &'a [T],
    ) -> impl Iterator<Item = usize> + 'a {
        let leaf_slots = self.leaf_slots;
        self.leaf_counts(node, counts)
            .flat_map(move |(start, n)| Spread::new(n, leaf_slots).map(move |slot| start + slot))
    }

    /// The entries under a range, in order.
    pub fn gather<T: Number>(&self, node: Node, slots: &[u64], counts: &[T]) -> Vec<u64> {
        let mut list = Vec::with_capacity(self.count(counts, node));
        for (start, n) in self.leaf_counts(node, counts) {
            let leaf = &slots[start..start + self.leaf_slots];
            list.extend(Spread::new(n, self.leaf_slots).map(|slot| leaf[slot]));
        }
        list
    }

    /// Puts `list` into the leaves under a range, whose slots are all zero.
    pub fn lay_out<T: Number>(&self, node: Node, slots: &mut [u64], counts: &[T], list: &[u64]) {
        let mut laid = 0;
        for (start, n) in self.leaf_counts(node, counts) {
            let leaf = &mut slots[start..start + self.leaf_slots];
            let part = &list[laid..laid + n];
            for (&entry, slot) in part.iter().zip(Spread::new(n, self.leaf_slots)) {
                leaf[slot] = entry;
            }
            laid += n;
        }
    }
}

/// A store that is a sheet: its shape and length.
#[derive(Clone, Copy, Debug)]
pub struct Sheet {
    pub shape: Shape,
    pub n: usize,
}

impl Sheet {
    /// The shape and the length that the counts of a sheet tell.
    pub fn told_by<T: Number>(counts: &[T]) -> Sheet {
        Sheet {
            shape: Shape::of(counts[SIZE].value()),
            n: counts[ROOT].value(),
        }
    }
}

/// The sheet in a store, or none where no list, size and balance entries lay
/// out exactly this store (01, cause 2). 02, F-11: "A wrong tally is cause 2". The
/// slices have the lengths of the store.
pub fn sheet_in<T: Number>(slots: &[u64], counts: &[T], tallies: &[T]) -> Option<Sheet> {
    let (m, n) = (counts[SIZE].value(), counts[ROOT].value());
    if n > T::CAPACITY.entries || !Size::new(m).allows(n) {
        return None;
    }
    let sheet = Sheet::told_by(counts);
    let shape = &sheet.shape;
    let sound = counts_are_sound(shape, counts)
        && slots_are_sound(shape, slots, counts)
        && tallies == shape.tallies::<T>(slots);
    sound.then_some(sheet)
}

/// Each range above the leaves is split at a candidate, and the counts that
/// belong to no range are zero.
fn counts_are_sound<T: Number>(shape: &Shape, counts: &[T]) -> bool {
    let halves_are_sound = (0..shape.height).all(|depth| {
        let c = shape.candidates(depth);
        Node::all_at(depth).all(|node| {
            let n = shape.count(counts, node);
            let left = shape.count(counts, node.left());
            let right = shape.count(counts, node.right());
            // The balance entry is the one at position `left`.
            n == left + right && candidate_positions(n, c).map_or(false, |p| p.contains(&left))
        })
    });
    halves_are_sound && all_zero(&counts[2 * shape.leaves()..])
}

/// Each leaf is spread by its count, and the slots after the leaves are zero.
fn slots_are_sound<T: Number>(shape: &Shape, slots: &[u64], counts: &[T]) -> bool {
    shape
        .leaf_counts(Node::ROOT, counts)
        .all(|(start, n)| leaf_is_spread(&slots[start..start + shape.leaf_slots], n))
        && all_zero(&slots[shape.slots()..])
}

/// The leaf holds `n` entries in their slots, and zero in every other slot: it
/// has `n` entries in all, and one in each of the `n` different slots.
fn leaf_is_spread(leaf: &[u64], n: usize) -> bool {
    leaf.iter().filter(|&&slot| slot != 0).count() == n
        && Spread::new(n, leaf.len()).all(|slot| leaf[slot] != 0)
}

/// Whether all values are zero. They are joined by "or" and compared once, as
/// in a sheet all of them must be looked at anyway.
pub(crate) fn all_zero<T>(part: &[T]) -> bool
where
    T: Copy + Default + PartialEq + BitOr<Output = T>,
{
    let joined = part.iter().fold(T::default(), |any, &value| any | value);
    joined == T::default()
}

#[cfg(test)]
mod tests {
    use super::*;
    use crate::places::RETIRED;
    use crate::random::SplitMix64;

    #[test]
    fn ranges_cover_the_leaves_in_order() {
        let shape = Shape::of(65);
        assert_eq!(shape.slots_under(Node::ROOT), 0..168);
        let left = Node::ROOT.left();
        let right = Node::ROOT.right();
        assert_eq!((left.number, right.number), (2, 3));
        assert_eq!(shape.slots_under(left), 0..84);
        assert_eq!(shape.slots_under(right), 84..168);
        assert_eq!(shape.slots_under(right.left().right()), 126 - 21..126);
    }

    #[test]
    fn shapes_fit_their_store() {
        for capacity in [CLUBS, FEDERATION] {
            for m in 0..=capacity.largest_m() {
                let shape = Shape::of(m);
                assert!(shape.height <= capacity.height());
                assert!(shape.slots() <= capacity.slots);
                assert!(2 * shape.leaves() <= capacity.counts);
                assert_eq!(shape.slots() as u128, Size::new(m).slots());
            }
        }
    }

    #[test]
    fn a_leaf_is_spread_only_one_way() {
        assert!(leaf_is_spread(&[5, 0, 6], 2));
        assert!(!leaf_is_spread(&[5, 6, 0], 2));
        assert!(!leaf_is_spread(&[5, 6, 7], 2));
        assert!(!leaf_is_spread(&[0, 0, 6], 2));
        assert!(!leaf_is_spread(&[5, 0, 6], 1));
        assert!(!leaf_is_spread(&[5, 6, 7], 4));
        assert!(leaf_is_spread(&[0, 0], 0) && leaf_is_spread(&[], 0));
    }

    #[test]
    fn the_empty_store_is_the_only_sheet_without_entries() {
        without_entries::<u16>();
        without_entries::<u32>();
    }

    fn without_entries<T: Number>() {
        let (mut slots, mut counts, mut tallies) = (
            vec![0; T::CAPACITY.slots],
            vec![T::default(); T::CAPACITY.counts],
            vec![T::default(); T::CAPACITY.counts],
        );
        let found = |slots: &[u64], counts: &[T], tallies: &[T]| {
            sheet_in(slots, counts, tallies).map(|sheet| sheet.n)
        };
        assert_eq!(found(&slots, &counts, &tallies), Some(0));
        for slot in [0, 1, T::CAPACITY.slots - 1] {
            slots[slot] = 1;
            assert_eq!(found(&slots, &counts, &tallies), None);
            slots[slot] = 0;
        }
        for number in [SIZE, ROOT, 2, T::CAPACITY.counts - 1] {
            counts[number] = T::of(1);
            assert_eq!(found(&slots, &counts, &tallies), None);
            counts[number] = T::of(0);
        }
        for number in (0..256).chain([T::CAPACITY.counts - 1]) {
            tallies[number] = T::of(1);
            assert_eq!(found(&slots, &counts, &tallies), None);
            tallies[number] = T::of(0);
        }
    }

    /// Slots that no leaf uses hold entries too: no count and no tally has them.
    #[test]
    fn counts_and_tallies_of_each_range() {
        for m in [0, 1, 2, 64, 65, 112, 128, 129, 700, 1407, 1408, 2047] {
            counts_and_tallies_of::<u16>(m);
            counts_and_tallies_of::<u32>(m);
        }
        for m in [2048, 4097, 69_631, 69_632, 131_071] {
            counts_and_tallies_of::<u32>(m);
        }
    }

    fn counts_and_tallies_of<T: Number>(m: usize) {
        let mut random = SplitMix64::new(1);
        let mut slots = vec![0; T::CAPACITY.slots];
        slots.fill_with(|| match random.below(3) {
            0 => 0,
            _ => random.entry(),
        });
        let shape = Shape::of(m);
        let mut counts = vec![T::default(); T::CAPACITY.counts];
        let mut tallies = counts.clone();
        counts[0] = T::of(m);
        for range in 1..2 * shape.leaves() {
            let node = Node {
                number: range,
                depth: (usize::BITS - 1 - range.leading_zeros()) as usize,
            };
            let held = slots[shape.slots_under(node)].iter();
            let entries = held.filter(|&&slot| slot != 0);
            let scoring = entries.clone().filter(|&&slot| slot & RETIRED == 0);
            let place = order::place(range, shape.height + 1);
            counts[place] = T::of(entries.count());
            tallies[place] = T::of(scoring.count());
        }
        assert_eq!(shape.counts::<T>(&slots), counts, "M {m}");
        assert_eq!(shape.tallies::<T>(&slots), tallies, "M {m}");
    }
}
