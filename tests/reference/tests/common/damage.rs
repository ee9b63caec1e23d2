//! Small changes of a store, which make it no sheet or another one.

use super::*;

/// So many stores one or two changes away from a sheet are judged as their layout says.
/// How many of them are sheets.
pub fn judged_as_laid_out<T: Number>(
    sound: &StoreOf<T>,
    times: usize,
    random: &mut SplitMix64,
) -> usize {
    assert!(is_laid_out(sound));
    let mut sheets = 0;
    for _ in 0..times {
        let mut store = sound.clone();
        damage(&mut store, random);
        let found = check(&store).number() == 0;
        assert_eq!(found, is_laid_out(&store));
        sheets += usize::from(found);
    }
    sheets
}

/// One or two small changes of a store.
fn damage<T: Number>(store: &mut StoreOf<T>, random: &mut SplitMix64) {
    let slots = (4 * n(store)).clamp(4, T::CAPACITY.slots);
    let counts = (n(store) / 2).clamp(4, T::CAPACITY.counts);
    for _ in 0..=random.below(2) {
        match random.below(8) {
            0 => store.slots[random.below(slots)] = 0,
            1 => store.slots[random.below(slots)] = random.entry(),
            2 => {
                let slot = random.below(slots - 1);
                store.slots.swap(slot, slot + 1);
            }
            3 => turn(&mut store.counts[random.below(counts)], 1),
            4 => store.counts[0] = T::of((m(store) + random.below(5)).saturating_sub(2)),
            5 => turn(
                &mut store.tallies[random.below(counts)],
                1 << random.below(3),
            ),
            6 => retire_or_not(store, random),
            _ => move_a_leaf_entry(store, random),
        }
    }
}

/// Turns bit 62 of an entry; at times the tallies follow.
fn retire_or_not<T: Number>(store: &mut StoreOf<T>, random: &mut SplitMix64) {
    let mut entries = store.slots.iter_mut().filter(|slot| **slot != 0);
    if let Some(entry) = entries.nth(random.below(5)) {
        *entry ^= RETIRED;
    }
    if let (Some(again), 0) = (laid_out_again(store), random.below(2)) {
        store.tallies = again.tallies;
    }
}

/// Moves one of the counted entries from a range to the range beside it.
fn move_a_leaf_entry<T: Number>(store: &mut StoreOf<T>, random: &mut SplitMix64) {
    let left = 2 * (1 + random.below(T::CAPACITY.counts / 2 - 1));
    if left >= 2 << height(m(store)) {
        return;
    }
    let [left, right] = [left, left + 1].map(|range| Order::Tree.place(range, m(store)));
    let [of_left, of_right] = [left, right].map(|place| store.counts[place].value());
    if of_left > 0 {
        store.counts[left] = T::of(of_left - 1);
        store.counts[right] = T::of(of_right + 1);
    }
}

/// Turns bits of a number.
pub fn turn<T: Number>(number: &mut T, bits: u64) {
    *number = T::low_bits(number.value() as u64 ^ bits);
}
