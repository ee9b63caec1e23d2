//! What tests of mending (02, F-13) compare: the sheet with the slots and the M of a store,
//! found by a search over all sheets, or where they are too many by counting.

use super::*;
use reference::calls::Cause;
use reference::shares::every_course;
use reference::spoils::Numbers;

pub const REFUSED: Answer = Answer::Refused(Cause::NotMendable);

/// The largest M for which all sheets are searched.
const SEARCHED: usize = 200;

/// The plain store is mended to this plain sheet and the timed one to this timed
/// sheet; where there is none, it is refused by 18, and nothing changes.
pub fn comes_to<T: Number>(
    store: &TimedStoreOf<T>,
    plain: Option<&StoreOf<T>>,
    timed: Option<&TimedStoreOf<T>>,
) {
    let (mut after, mut timed_after) = (store.plain.clone(), store.clone());
    let answers = [mend(&mut after), timed_mend(&mut timed_after)];
    let answer = |sheet: &StoreOf<T>| Answer::Mended { n: n(sheet) };
    let timed_answer = timed.map_or(REFUSED, |sheet| answer(&sheet.plain));
    let name = format!(
        "{} entries, M {}",
        entries(&store.plain).len(),
        m(&store.plain)
    );
    assert_eq!(
        answers,
        [plain.map_or(REFUSED, answer), timed_answer],
        "{name}"
    );
    assert!(after == *plain.unwrap_or(&store.plain), "{name}");
    assert!(timed_after == *timed.unwrap_or(store), "{name}");
}

/// Both are mended to this sheet.
pub fn mends_to<T: Number>(store: &TimedStoreOf<T>, sheet: &TimedStoreOf<T>) {
    comes_to(store, Some(&sheet.plain), Some(sheet));
}

/// Both are refused.
pub fn refused<T: Number>(store: &TimedStoreOf<T>) {
    comes_to(store, None, None);
}

/// What `keep` takes of all sheets of this list and this M: each balance entry is
/// chosen in every way.
pub fn all_sheets<T: Number, Kept>(
    list: &[u64],
    m: usize,
    keep: impl Fn(StoreOf<T>) -> Option<Kept>,
) -> Vec<Kept> {
    if !allows_in(T::CAPACITY, m, list.len()) {
        return Vec::new();
    }
    let kept = every_course(|course| {
        let sheet = lay_out_as(list, m, |_, _, c| course.draw(c as u64).unwrap() as usize);
        keep(sheet)
    });
    kept.into_iter().filter_map(|(sheet, _)| sheet).collect()
}

/// All sheets with the slots and the M of a store: their list is what stands in the
/// slots.
fn searched<T: Number>(store: &StoreOf<T>) -> Vec<StoreOf<T>> {
    all_sheets(&entries(store), m(store), |sheet| {
        (sheet.slots == store.slots).then_some(sheet)
    })
}

/// The sheet with these slots whose left halves have as many entries as stand in their
/// slots: for an M that has too many sheets.
fn counted<T: Number>(store: &StoreOf<T>) -> Option<StoreOf<T>> {
    let (mut counted, m) = (store.clone(), m(store));
    if !allows_in(T::CAPACITY, m, entries(store).len()) {
        return None;
    }
    let leaf = leaf_slots(m);
    for depth in 1..=height(m) {
        let slots = leaf << (height(m) - depth);
        for (range, part) in (1 << depth..2 << depth).zip(store.slots.chunks(slots)) {
            let n = part.iter().filter(|&&slot| slot != 0).count();
            counted.counts[Order::Tree.place(range, m)] = T::of(n);
        }
    }
    laid_out_again(&counted).filter(|sheet| sheet.slots == store.slots)
}

/// The one sheet with the slots and the M of a store.
fn sheet_of_slots<T: Number>(store: &StoreOf<T>) -> Option<StoreOf<T>> {
    let counted = counted(store);
    if m(store) <= SEARCHED {
        let all = searched(store);
        assert!(all.len() <= 1, "M {}", m(store));
        assert!(all.first() == counted.as_ref(), "M {}", m(store));
    }
    counted
}

/// 02, F-1, F-3 and F-11: the entries rise strictly and are not zero, both without
/// bits 63 and 62.
fn rises(list: &[u64]) -> bool {
    let keys: Vec<u64> = [0].iter().chain(list).map(|e| e << 2 >> 2).collect();
    keys.windows(2).all(|pair| pair[0] < pair[1])
}

/// The store is mended to the sheet with its slots and its M, or refused where there
/// is none; a timed store also where the list does not rise. Whether the plain store
/// was mended.
pub fn as_searched<T: Number>(store: &TimedStoreOf<T>) -> bool {
    let plain = sheet_of_slots(&store.plain);
    let rising = plain.clone().filter(|_| rises(&entries(&store.plain)));
    let timed = rising.map(with_third_slice);
    comes_to(store, plain.as_ref(), timed.as_ref());
    plain.is_some()
}

/// How many stores were mended, and how many refused.
#[derive(Debug, Default)]
pub struct Met {
    pub mended: usize,
    pub refused: usize,
}

impl Met {
    pub fn note(&mut self, mended: bool) {
        self.mended += usize::from(mended);
        self.refused += usize::from(!mended);
    }

    /// Both at least so often.
    pub fn assert_met(&self, mended: usize, refused: usize) {
        let enough = self.mended >= mended && self.refused >= refused;
        assert!(enough, "{self:?}");
    }
}

/// What mending may write.
pub fn numbers<T>(store: &mut TimedStoreOf<T>) -> Numbers<'_, T> {
    let TimedStoreOf { plain, balance } = store;
    Numbers {
        counts: &mut plain.counts,
        tallies: &mut plain.tallies,
        balance,
    }
}

/// The store with all that random.
pub fn spoiled<T: Number>(store: &TimedStoreOf<T>, random: &mut SplitMix64) -> TimedStoreOf<T> {
    let mut store = store.clone();
    numbers(&mut store).fill(|| random.next_u64());
    store
}

/// The leaf holds these entries, by the leaf rule.
fn spread(leaf: &mut [u64], list: &[u64]) {
    let (n, s) = (list.len(), leaf.len());
    leaf.fill(0);
    for (k, &entry) in list.iter().enumerate() {
        leaf[leaf_slot(k, n, s)] = entry;
    }
}

/// Moves the last entry of a leaf to the front of the next one, or the first of that
/// one to the end of this one: the list stays, and each leaf is spread by its number.
pub fn move_between_leaves<T: Number>(store: &mut StoreOf<T>, leaf: usize, on: bool) {
    let s = leaf_slots(m(store));
    let (one, other) = store.slots[leaf * s..(leaf + 2) * s].split_at_mut(s);
    let held = |leaf: &[u64]| leaf.iter().copied().filter(|&e| e != 0).collect();
    let (mut left, mut right): (Vec<u64>, Vec<u64>) = (held(one), held(other));
    if on {
        right.insert(0, left.pop().unwrap());
    } else {
        left.push(right.remove(0));
    }
    spread(one, &left);
    spread(other, &right);
}
