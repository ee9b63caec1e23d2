//! Places and points (02, F-3, F-11): tied groups over the list.

use std::ops::Range;

/// 02, F-3: "Bit 63 of an entry, the highest, now says that she tied with the
/// boat before her".
pub const TIED: u64 = 1 << 63;

/// 02, F-11: "A boat retired or disqualified stays on the sheet but holds no
/// place. Bit 62 marks her".
pub const RETIRED: u64 = 1 << 62;

/// Whether the entry bears bit 63.
pub const fn bears_tied(entry: u64) -> bool {
    entry & TIED != 0
}

/// Whether the entry does not bear bit 62.
pub const fn scores(entry: u64) -> bool {
    entry & RETIRED == 0
}

/// What the boats of a tied group have in common: points are `sum` over `t`.
#[derive(Clone, Copy, Debug, PartialEq, Eq)]
pub struct Standing {
    pub place: usize,
    pub sum: usize,
    pub t: usize,
}

/// 02, F-11: "A retired boat answers place 0, sum 0, group 1".
const OF_A_RETIRED_BOAT: Standing = Standing {
    place: 0,
    sum: 0,
    t: 1,
};

/// The ranks of the scoring boats of a list.
fn scoring_ranks(list: &[u64]) -> Vec<usize> {
    (0..list.len()).filter(|&rank| scores(list[rank])).collect()
}

/// Whether the scoring boat at rank `her` ties with the one at rank `before`, all
/// boats between them being retired. 02, F-11: "A scoring boat ties with the
/// scoring boat before her exactly when she and every retired boat between them
/// bear bit 63".
fn ties(list: &[u64], before: usize, her: usize) -> bool {
    let between = &list[before + 1..her];
    bears_tied(list[her]) && between.iter().all(|&retired| bears_tied(retired))
}

/// The tied group of a boat, given as one of the scoring boats with these ranks:
/// which of them, from 0, belong to it. 02, F-11: "a tied group is a longest run of
/// scoring boats so tied; that bit on the first scoring boat has no effect."
fn tied_group(list: &[u64], scoring: &[usize], boat: usize) -> Range<usize> {
    let begins = |&boat: &usize| boat == 0 || !ties(list, scoring[boat - 1], scoring[boat]);
    let first = (0..=boat)
        .rev()
        .find(begins)
        .expect("the first scoring boat begins a group");
    let end = (boat + 1..scoring.len()).find(begins);
    first..end.unwrap_or(scoring.len())
}

/// The standing of a rank of the list. `scoring_before` tells the number of the
/// scoring entries before a rank.
///
/// 02, F-11: "A group's place is one more than the scoring entries before its first
/// boat". 02, F-3: "All boats of a tied group take its first place p. Points are
/// the sum of places p to p + t − 1, for a group of t, over t."
pub fn standing(
    list: &[u64],
    rank: usize,
    scoring_before: impl FnOnce(usize) -> usize,
) -> Standing {
    if !scores(list[rank]) {
        return OF_A_RETIRED_BOAT;
    }
    let scoring = scoring_ranks(list);
    let boat = scoring.iter().position(|&of_boat| of_boat == rank);
    let group = tied_group(list, &scoring, boat.expect("she scores"));
    let (place, t) = (1 + scoring_before(scoring[group.start]), group.len());
    Standing {
        place,
        sum: (place..=place + t - 1).sum(),
        t,
    }
}

#[cfg(test)]
mod tests {
    use super::*;

    /// The groups of all scoring boats.
    fn groups(list: &[u64]) -> Vec<Range<usize>> {
        let scoring = scoring_ranks(list);
        let boats = 0..scoring.len();
        boats.map(|boat| tied_group(list, &scoring, boat)).collect()
    }

    /// The standing by counting the full list.
    fn of(list: &[u64], rank: usize) -> Standing {
        standing(list, rank, |rank| {
            list[..rank].iter().filter(|&&entry| scores(entry)).count()
        })
    }

    /// The groups 0 to 2, 3, 4 to 5 and 6: ranks 1, 2 and 5 tied.
    #[test]
    fn groups_are_longest_runs() {
        let list = [1, 2 | TIED, 3 | TIED, 4, 5, 6 | TIED, 7];
        assert_eq!(groups(&list), [0..3, 0..3, 0..3, 3..4, 4..6, 4..6, 6..7]);
    }

    /// The one retired boat between the second and the third scoring boat does not
    /// bear bit 63, and all others between scoring boats do.
    #[test]
    fn groups_are_of_scoring_boats() {
        let (gone, both) = (RETIRED, RETIRED | TIED);
        let list = [
            gone,
            1,
            both,
            2 | TIED,
            gone,
            3 | TIED,
            both,
            both,
            4 | TIED,
        ];
        assert_eq!(groups(&list), [0..2, 0..2, 2..4, 2..4]);
    }

    #[test]
    fn the_bit_of_the_first_scoring_boat_has_no_effect() {
        for retired in [&[][..], &[RETIRED], &[RETIRED | TIED], &[RETIRED; 3]] {
            let list = [retired, &[TIED; 5]].concat();
            assert_eq!(groups(&list), vec![0..5; 5]);
        }
    }

    /// Two boats tied for place 2: they share the points of places 2 and 3.
    #[test]
    fn points_are_shared() {
        let list = [1, 2, 3 | TIED, 4];
        let standing = |place, sum, t| Standing { place, sum, t };
        assert_eq!(of(&list, 0), standing(1, 1, 1));
        assert_eq!(of(&list, 1), standing(2, 5, 2));
        assert_eq!(of(&list, 2), standing(2, 5, 2));
        assert_eq!(of(&list, 3), standing(4, 4, 1));
    }

    /// The same with a retired boat before them, and one between them.
    #[test]
    fn retired_boats_hold_no_place() {
        let list = [1, RETIRED, 2, 9 | RETIRED | TIED, 3 | TIED, 4];
        let standing = |place, sum, t| Standing { place, sum, t };
        assert_eq!(of(&list, 1), standing(0, 0, 1));
        assert_eq!(of(&list, 2), standing(2, 5, 2));
        assert_eq!(of(&list, 3), standing(0, 0, 1));
        assert_eq!(of(&list, 4), standing(2, 5, 2));
        assert_eq!(of(&list, 5), standing(4, 4, 1));
    }
}
