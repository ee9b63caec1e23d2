//! The draws of insert and delete (01, "Insert and delete").
//!
//! A [`Plan`] holds what they decided. Nothing of the store is written here, so
//! an undecided draw leaves no trace.

use crate::capacity::Number;
use crate::coins::{Source, Undecided};
use crate::layout::{Node, Shape, ROOT, SIZE};
use std::cmp::Ordering;
use std::ops::Range;

/// A change of the list: an entry enters at a rank, or the entry at a rank
/// leaves. Inside a range the rank is counted from its first entry.
#[derive(Clone, Copy, Debug, PartialEq, Eq)]
pub enum Change {
    Insert { rank: usize },
    Delete { rank: usize },
}

impl Change {
    pub fn rank(self) -> usize {
        match self {
            Change::Insert { rank } | Change::Delete { rank } => rank,
        }
    }

    fn with_rank(self, rank: usize) -> Change {
        match self {
            Change::Insert { .. } => Change::Insert { rank },
            Change::Delete { .. } => Change::Delete { rank },
        }
    }

    /// The length after the change of a list of `n` entries.
    pub fn length_after(self, n: usize) -> usize {
        match self {
            Change::Insert { .. } => n + 1,
            Change::Delete { .. } => n - 1,
        }
    }
}

/// What the draws decided: all counts after the change, and the one range whose
/// leaves are to be laid out anew, with the change as that range sees it.
#[derive(Clone, Debug)]
pub struct Plan<T> {
    pub counts: Vec<T>,
    pub node: Node,
    pub change: Change,
}

impl<T: Number> Plan<T> {
    pub fn n(&self) -> usize {
        self.counts[ROOT].value()
    }

    pub fn m(&self) -> usize {
        self.counts[SIZE].value()
    }
}

/// Draws for `change` on a sheet of the given shape and counts. An insert needs
/// a list that is not the longest and rank ≤ N, a delete rank < N.
pub fn plan<T: Number, S: Source>(
    shape: &Shape,
    counts: &[T],
    change: Change,
    source: &mut S,
) -> Result<Plan<T>, Undecided> {
    let n = counts[ROOT].value();
    match new_size(change, n, shape.m, source)? {
        Some(m) => build_sheet(m, n, change, source),
        None => walk_down(shape, counts, change, source),
    }
}

/// The size step: M if it is set anew, or none if it is kept.
fn new_size<S: Source>(
    change: Change,
    n: usize,
    m: usize,
    source: &mut S,
) -> Result<Option<usize>, Undecided> {
    match change {
        Change::Insert { .. } => size_for_insert(n, m, source),
        Change::Delete { .. } => size_for_delete(n, m, source),
    }
}

/// 01: "Insert, N = 0: M becomes 1, no draw. Insert, M = N: M becomes 2N + a
/// draw among 2. Insert otherwise: draw among N + 1; face 0 makes M = 2N + a
/// draw among 2; else M is kept."
fn size_for_insert<S: Source>(
    n: usize,
    m: usize,
    source: &mut S,
) -> Result<Option<usize>, Undecided> {
    if n == 0 {
        return Ok(Some(1));
    }
    if m == n || draw(source, n + 1)? == 0 {
        return Ok(Some(2 * n + draw(source, 2)?));
    }
    Ok(None)
}

/// 01: "Delete, N = 1: everything zero. Delete with M ≥ 2N − 2: draw f among
/// 2N − 2; M becomes N + f if f < N − 2, else N − 1. Delete otherwise: M is
/// kept, no draw."
fn size_for_delete<S: Source>(
    n: usize,
    m: usize,
    source: &mut S,
) -> Result<Option<usize>, Undecided> {
    if n == 1 {
        return Ok(Some(0));
    }
    if m < 2 * n - 2 {
        return Ok(None);
    }
    let f = draw(source, 2 * n - 2)?;
    Ok(Some(if f < n - 2 { n + f } else { n - 1 }))
}

/// 01: "If this step set M anew, the whole sheet is rebuilt, even if the value
/// is equal."
fn build_sheet<T: Number, S: Source>(
    m: usize,
    n: usize,
    change: Change,
    source: &mut S,
) -> Result<Plan<T>, Undecided> {
    let mut counts = vec![T::default(); T::CAPACITY.counts];
    counts[SIZE] = T::of(m);
    counts[ROOT] = T::of(change.length_after(n));
    rebuild(&Shape::of(m), &mut counts, Node::ROOT, source)?;
    Ok(Plan {
        counts,
        node: Node::ROOT,
        change,
    })
}

/// 01: "Rebuilding a range draws its balance entry (face f: candidate f, from
/// 0), then its left half and then its right half in the same way; a leaf draws
/// nothing." The count of the range itself stands already.
fn rebuild<T: Number, S: Source>(
    shape: &Shape,
    counts: &mut [T],
    node: Node,
    source: &mut S,
) -> Result<(), Undecided> {
    if node.depth == shape.height {
        return Ok(());
    }
    let n = shape.count(counts, node);
    let candidates = shape.candidate_positions(node.depth, n);
    let balance = candidates.start + draw(source, candidates.len())?;
    rebuild_halves(shape, counts, node, balance, source)
}

/// Splits a range before the balance entry and rebuilds both halves.
fn rebuild_halves<T: Number, S: Source>(
    shape: &Shape,
    counts: &mut [T],
    node: Node,
    balance: usize,
    source: &mut S,
) -> Result<(), Undecided> {
    let (left, right) = (node.left(), node.right());
    let n = shape.count(counts, node);
    shape.set_count(counts, left, balance);
    shape.set_count(counts, right, n - balance);
    rebuild(shape, counts, left, source)?;
    rebuild(shape, counts, right, source)
}

/// M was kept: the walk down from the root, to the first range whose balance
/// entry changes or else to a leaf.
fn walk_down<T: Number, S: Source>(
    shape: &Shape,
    before: &[T],
    change: Change,
    source: &mut S,
) -> Result<Plan<T>, Undecided> {
    let mut counts = before.to_vec();
    let mut node = Node::ROOT;
    let mut change = change;
    loop {
        let n = shape.count(before, node);
        shape.set_count(&mut counts, node, change.length_after(n));
        if node.depth == shape.height {
            break;
        }
        let balance = shape.count(before, node.left());
        if range_changes(shape, &mut counts, node, n, balance, change, source)? {
            break;
        }
        (node, change) = half_that_changes(node, balance, change);
    }
    Ok(Plan {
        counts,
        node,
        change,
    })
}

/// Compares the candidates of a range before and after the change, and draws as
/// that asks. True if the balance entry changed and the range was rebuilt; `n`
/// and `balance` are its length and the position of its balance entry before.
fn range_changes<T: Number, S: Source>(
    shape: &Shape,
    counts: &mut [T],
    node: Node,
    n: usize,
    balance: usize,
    change: Change,
    source: &mut S,
) -> Result<bool, Undecided> {
    let before = shape.candidate_positions(node.depth, n);
    let after = shape.candidate_positions(node.depth, change.length_after(n));
    match compare_candidates(before, after, change) {
        Candidates::Unchanged => Ok(false),
        Candidates::Exchanged { leaving, .. } if leaving == balance => {
            rebuild(shape, counts, node, source)?;
            Ok(true)
        }
        Candidates::Exchanged { entering, .. } => {
            if draw(source, shape.candidates(node.depth))? != 0 {
                return Ok(false);
            }
            rebuild_halves(shape, counts, node, entering, source)?;
            Ok(true)
        }
    }
}

/// The half that gained or lost the entry, and the change as that half sees it.
/// 01: "An entry inserted directly before the balance entry joins the left
/// half." A deleted balance entry left the candidates, so the walk has stopped.
fn half_that_changes(node: Node, balance: usize, change: Change) -> (Node, Change) {
    let rank = change.rank();
    let joins_left = match change {
        Change::Insert { .. } => rank <= balance,
        Change::Delete { .. } => rank < balance,
    };
    if joins_left {
        (node.left(), change)
    } else {
        (node.right(), change.with_rank(rank - balance))
    }
}

/// 01: "Either they are unchanged or one leaves and one enters."
#[derive(Clone, Copy, Debug, PartialEq, Eq)]
enum Candidates {
    Unchanged,
    Exchanged {
        /// Position in the range before the change.
        leaving: usize,
        /// Position in the range after the change.
        entering: usize,
    },
}

/// Who an entry of the range is, whatever its value: an odd number, 2p + 1, for
/// the entry at position p before the change, and the even number 2 × rank for
/// the entry inserted. Identities rise along the range before and after.
type Identity = usize;

fn identity_before(position: usize) -> Identity {
    2 * position + 1
}

fn identity_after(position: usize, change: Change) -> Identity {
    match change {
        Change::Insert { rank } => match position.cmp(&rank) {
            Ordering::Less => identity_before(position),
            Ordering::Equal => 2 * rank,
            Ordering::Greater => identity_before(position - 1),
        },
        Change::Delete { rank } if position < rank => identity_before(position),
        Change::Delete { .. } => identity_before(position + 1),
    }
}

/// Follows the candidates before and after side by side, in list order, and
/// finds which identity stands in only one of the two.
fn compare_candidates(before: Range<usize>, after: Range<usize>, change: Change) -> Candidates {
    let (mut old, mut new) = (before.start, after.start);
    let (mut leaving, mut entering) = (None, None);
    while old < before.end || new < after.end {
        let order = if old == before.end {
            Ordering::Greater
        } else if new == after.end {
            Ordering::Less
        } else {
            identity_before(old).cmp(&identity_after(new, change))
        };
        if order == Ordering::Less {
            debug_assert!(leaving.is_none(), "one leaves");
            leaving = Some(old);
        }
        if order == Ordering::Greater {
            debug_assert!(entering.is_none(), "one enters");
            entering = Some(new);
        }
        old += usize::from(order != Ordering::Greater);
        new += usize::from(order != Ordering::Less);
    }
    match (leaving, entering) {
        (Some(leaving), Some(entering)) => Candidates::Exchanged { leaving, entering },
        _ => Candidates::Unchanged,
    }
}

/// A draw among a number of faces that the rules count in `usize`.
fn draw<S: Source>(source: &mut S, m: usize) -> Result<usize, Undecided> {
    Ok(source.draw(m as u64)? as usize)
}

#[cfg(test)]
mod tests {
    use super::*;
    use crate::coins::{Faces, Tape};
    use crate::layout::COUNTS;
    use crate::sizes::candidate_positions;

    /// The size after a step with these faces, all of which it must take.
    fn size_step(change: Change, n: usize, m: usize, faces: &[u64]) -> Option<usize> {
        let mut source = Faces::new(faces);
        let size = new_size(change, n, m, &mut source).expect("enough faces");
        assert!(source.left().is_empty(), "all faces drawn");
        size
    }

    #[test]
    fn size_step_of_insert() {
        let insert = Change::Insert { rank: 0 };
        assert_eq!(size_step(insert, 0, 0, &[]), Some(1));
        assert_eq!(size_step(insert, 1, 1, &[0]), Some(2));
        assert_eq!(size_step(insert, 1, 1, &[1]), Some(3));
        assert_eq!(size_step(insert, 5, 5, &[1]), Some(11));
        assert_eq!(size_step(insert, 5, 8, &[0, 1]), Some(11));
        assert_eq!(size_step(insert, 5, 8, &[0, 0]), Some(10));
        for face in 1..=5 {
            assert_eq!(size_step(insert, 5, 8, &[face]), None);
        }
        assert!(new_size(insert, 5, 8, &mut Faces::new(&[6])).is_err());
    }

    #[test]
    fn size_step_of_delete() {
        let delete = Change::Delete { rank: 0 };
        assert_eq!(size_step(delete, 1, 1, &[]), Some(0));
        assert_eq!(size_step(delete, 2, 2, &[0]), Some(1));
        assert_eq!(size_step(delete, 2, 3, &[1]), Some(1));
        // N 5: M 9 draws among 8, M 7 is kept.
        for (face, m) in [5, 6, 7, 4, 4, 4, 4, 4].into_iter().enumerate() {
            assert_eq!(size_step(delete, 5, 9, &[face as u64]), Some(m));
            assert_eq!(size_step(delete, 5, 8, &[face as u64]), Some(m));
        }
        assert!(new_size(delete, 5, 9, &mut Faces::new(&[8])).is_err());
        assert_eq!(size_step(delete, 5, 7, &[]), None);
        assert_eq!(size_step(delete, 5, 5, &[]), None);
    }

    /// The comparison with sets of names, each entry named once.
    fn compare_by_names(n: usize, c: usize, change: Change) -> Candidates {
        let old: Vec<usize> = (0..n).collect();
        let mut new = old.clone();
        match change {
            Change::Insert { rank } => new.insert(rank, n),
            Change::Delete { rank } => {
                new.remove(rank);
            }
        }
        let old_names = &old[candidate_positions(old.len(), c).unwrap()];
        let new_names = &new[candidate_positions(new.len(), c).unwrap()];
        let left: Vec<_> = old_names
            .iter()
            .filter(|e| !new_names.contains(e))
            .collect();
        let came: Vec<_> = new_names
            .iter()
            .filter(|e| !old_names.contains(e))
            .collect();
        match (&left[..], &came[..]) {
            ([], []) => Candidates::Unchanged,
            ([leaving], [entering]) => Candidates::Exchanged {
                leaving: **leaving,
                entering: new.iter().position(|e| e == *entering).unwrap(),
            },
            _ => panic!("one leaves and one enters"),
        }
    }

    #[test]
    fn candidates_are_compared_by_identity() {
        for n in 1..40 {
            for c in 1..=n {
                let inserts = (0..=n).map(|rank| Change::Insert { rank });
                let deletes = (0..n).map(|rank| Change::Delete { rank });
                let deletes = deletes.filter(|_| c < n);
                for change in inserts.chain(deletes) {
                    let before = candidate_positions(n, c).unwrap();
                    let after = candidate_positions(change.length_after(n), c).unwrap();
                    assert_eq!(
                        compare_candidates(before, after, change),
                        compare_by_names(n, c, change),
                        "n {n} c {c} {change:?}"
                    );
                }
            }
        }
    }

    #[test]
    fn an_entry_before_the_balance_entry_joins_the_left_half() {
        let root = Node::ROOT;
        let insert = |rank| half_that_changes(root, 4, Change::Insert { rank });
        assert_eq!(insert(4), (root.left(), Change::Insert { rank: 4 }));
        assert_eq!(insert(5), (root.right(), Change::Insert { rank: 1 }));
        let delete = |rank| half_that_changes(root, 4, Change::Delete { rank });
        assert_eq!(delete(3), (root.left(), Change::Delete { rank: 3 }));
        assert_eq!(delete(5), (root.right(), Change::Delete { rank: 1 }));
    }

    /// A sheet of 34 entries with M = 65: candidates 3, 2, 1 by depth, root
    /// candidates at positions 15 to 17, the balance entry the middle one.
    fn counts_of_34() -> [u16; COUNTS] {
        let mut counts = [0; COUNTS];
        counts[SIZE] = 65;
        counts[ROOT] = 34;
        // The root; its left half and the quarters of that; its right half.
        let mut faces = Faces::new(&[1, 0, 0, 0, 1, 0, 0]);
        rebuild(&Shape::of(65), &mut counts, Node::ROOT, &mut faces).unwrap();
        counts
    }

    #[test]
    fn rebuild_draws_range_then_left_then_right() {
        let counts = counts_of_34();
        // Entries of 16: candidates at 7 and 8; of 18: at 8 and 9.
        assert_eq!(&counts[2..4], &[16, 18]);
        // Each quarter before its own two leaves.
        assert_eq!(&counts[4..10], &[7, 3, 4, 9, 4, 5]);
        assert_eq!(&counts[10..16], &[9, 4, 5, 9, 4, 5]);
    }

    #[test]
    fn unchanged_candidates_draw_nothing() {
        // 34 to 35 entries: the window moves on by one position, and an insert
        // in front of it moves its entries on with it.
        let shape = Shape::of(65);
        let change = Change::Insert { rank: 0 };
        let counts = counts_of_34();
        let mut no_faces = Faces::new(&[]);
        let mut after = counts;
        after[ROOT] = 35;
        let changed = range_changes(
            &shape,
            &mut after,
            Node::ROOT,
            34,
            16,
            change,
            &mut no_faces,
        );
        assert_eq!(changed, Ok(false));
    }

    #[test]
    fn a_leaving_balance_entry_rebuilds_and_another_draws() {
        // An insert at the end: the first candidate (position 15) leaves.
        let shape = Shape::of(65);
        let change = Change::Insert { rank: 34 };
        let mut counts = counts_of_34();
        counts[ROOT] = 35;
        let step = |balance, faces: &[u64]| {
            let mut counts = counts;
            let mut source = Faces::new(faces);
            let changed = range_changes(
                &shape,
                &mut counts,
                Node::ROOT,
                34,
                balance,
                change,
                &mut source,
            );
            assert!(source.left().is_empty(), "all faces drawn");
            (changed.unwrap(), counts[2], counts[3])
        };
        // The balance entry leaves: draw among the new candidates 16 to 18.
        assert_eq!(step(15, &[2, 0, 0, 0, 0, 0, 0]), (true, 18, 17));
        // Another leaves: face 0 takes the entering one, position 18.
        assert_eq!(step(16, &[0, 0, 0, 0, 0, 0, 0]), (true, 18, 17));
        // Any other face: the halves stay, and nothing more is drawn.
        assert_eq!(step(16, &[1]), (false, 16, 18));
        assert_eq!(step(17, &[2]), (false, 16, 18));
    }

    #[test]
    fn a_plan_needs_every_word() {
        let counts = counts_of_34();
        let shape = Shape::of(65);
        let change = Change::Insert { rank: 34 };
        // Size draw among 35 with face 0, the draw among 2, then root 3,
        // halves 2 and 2; the quarters have one candidate. M becomes 68.
        let words = [35, 2, 0, 0, 0];
        for end in 0..words.len() {
            assert!(plan(&shape, &counts, change, &mut Tape::new(&words[..end])).is_err());
        }
        let mut tape = Tape::new(&words);
        let plan = plan(&shape, &counts, change, &mut tape).unwrap();
        assert_eq!((plan.m(), plan.n(), tape.place()), (68, 35, 5));
        assert_eq!(plan.node, Node::ROOT);
    }
}
