//! Answer slices of every length: too short for a call's values, as long, and
//! longer; on sheets and on stores that a call refuses, of the clubs and of the federation.

use agreement::histories::Bits;
use agreement::proved::Linked;
use agreement::stores::rising;
use agreement::{timed, Call, Lent, StoreOf, UNWRITTEN};
use reference::places::RETIRED;
use reference::random::SplitMix64;

/// The call with answer slices of 0 to 5 elements, each on a copy of the store. Too
/// short a slice gives 255 before every cause, and nothing changes. Else the call
/// does what the second implementation does; its values, zeros where it is
/// refused, stand in front, and what stands behind them stays.
fn with_every_room<S: Lent>(before: &S, call: &S::Call) {
    let values = S::values(call);
    for room in 0..=5 {
        let mut store = before.clone();
        let (number, answer, output) = store.proved_with(call, room);
        let mut expected_store = before.clone();
        let (mut expected, mut expected_output) = expected_store.by_reference(call);
        let mut expected_answer = vec![UNWRITTEN; room];
        if room < values {
            expected = [255, 0, 0, 0];
            expected_store = before.clone();
            expected_output = vec![5; expected_output.len()];
        } else {
            expected_answer[..values].copy_from_slice(&expected[1..=values]);
        }
        assert_eq!((number, answer), (expected[0], expected_answer), "{call:?}");
        assert!(store == expected_store && output == expected_output, "{call:?}, {room} elements");
    }
}

fn tape() -> Vec<u32> {
    vec![1; 300]
}

/// The rank of a retired boat.
fn retired(list: &[u64]) -> usize {
    list.iter().position(|entry| entry & RETIRED != 0).unwrap()
}

/// Calls on a plain sheet of 100 entries, accepted and refused; a boat of this rank has
/// retired.
fn calls(retired: usize) -> Vec<Call> {
    vec![
        Call::Clear,
        Call::Check,
        Call::Mend,
        Call::Insert { rank: 7, entry: 3, tape: tape() },
        Call::Insert { rank: 7, entry: 0, tape: tape() },
        Call::Insert { rank: 101, entry: 3, tape: tape() },
        Call::Insert { rank: 7, entry: 3, tape: vec![] },
        Call::Delete { rank: 7, tape: tape() },
        Call::Delete { rank: 100, tape: tape() },
        Call::Read { first: 7, last: 8, output: vec![5; 4] },
        Call::Read { first: 7, last: 8, output: vec![5] },
        Call::Read { first: 8, last: 7, output: vec![5; 4] },
        Call::Board { ranks: vec![7, 8, 8], output: vec![5; 4] },
        Call::Board { ranks: vec![], output: vec![5; 4] },
        Call::Board { ranks: vec![8, 7], output: vec![5; 4] },
        Call::Board { ranks: vec![7, 100], output: vec![5; 4] },
        Call::Board { ranks: vec![7, 8, 8], output: vec![5; 2] },
        Call::Place { rank: 7 },
        Call::Place { rank: retired },
        Call::Place { rank: 99 },
        Call::Place { rank: 100 },
    ]
}

/// These calls and those above, on a sheet of a store of this width and on stores that are refused.
fn plain_sheets<T: Linked>(further: &[Call]) {
    let mut random = SplitMix64::new(7000);
    let list = rising(100, Bits::new(14, 4), &mut random);
    let mut stores = vec![StoreOf::<T>::of_size(&list, 150, &mut random); 6];
    stores[1].counts.pop();
    stores[2].counts[255] = T::of(1);
    stores[3].counts[0] = T::of(2 * T::CAPACITY.entries);
    stores[4].tallies.pop();
    stores[5].tallies[255] = T::of(1);
    stores.push(StoreOf::unused());
    for before in stores {
        for call in calls(retired(&list)).iter().chain(further) {
            with_every_room(&before, call);
        }
    }
}

#[test]
fn plain_sheets_and_conversions() {
    plain_sheets::<u16>(&[Call::ToTreeOrder, Call::ToNumberOrder]);
}

#[test]
fn federation_sheets() {
    plain_sheets::<u32>(&[]);
}

/// Calls on a timed sheet of 100 entries, one of which is this, accepted and refused; a
/// boat of this rank has retired.
fn timed_calls(there: u64, retired: usize) -> Vec<timed::Call> {
    use timed::Call;
    vec![
        Call::Clear,
        Call::Check,
        Call::Mend,
        Call::Insert { entry: 3, tape: tape() },
        Call::Insert { entry: 0, tape: tape() },
        Call::Insert { entry: there, tape: tape() },
        Call::Insert { entry: 3, tape: vec![] },
        Call::Delete { rank: 7, tape: tape() },
        Call::Delete { rank: 100, tape: tape() },
        Call::Find { entry: there },
        Call::Find { entry: 3 },
        Call::Find { entry: 0 },
        Call::Read { first: 7, last: 8, output: vec![5; 4] },
        Call::Read { first: 7, last: 8, output: vec![5] },
        Call::Board { ranks: vec![7, 8, 8], output: vec![5; 4] },
        Call::Board { ranks: vec![8, 7], output: vec![5; 4] },
        Call::Board { ranks: vec![7, 100], output: vec![5; 4] },
        Call::Board { ranks: vec![7, 8, 8], output: vec![5; 2] },
        Call::Place { rank: 7 },
        Call::Place { rank: retired },
        Call::Place { rank: 99 },
        Call::Place { rank: 100 },
    ]
}

/// Those calls on a timed sheet of a store of this width and on stores that are refused.
fn timed_sheets_of<T: timed::Linked>() {
    let mut random = SplitMix64::new(7001);
    let list = rising(100, Bits::new(14, 4), &mut random);
    let mut stores = vec![timed::StoreOf::<T>::of_size(&list, 150, &mut random); 6];
    stores[1].balance.pop();
    stores[2].counts[255] = T::of(1);
    stores[3].balance[255] = 1;
    stores[4].tallies.pop();
    stores[5].tallies[255] = T::of(1);
    stores.push(timed::StoreOf::unused());
    for before in stores {
        for call in timed_calls(list[50], retired(&list)) {
            with_every_room(&before, &call);
        }
    }
}

#[test]
fn timed_sheets() {
    timed_sheets_of::<u16>();
}

#[test]
fn federation_timed_sheets() {
    timed_sheets_of::<u32>();
}
