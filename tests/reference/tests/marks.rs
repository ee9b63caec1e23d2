//! The cases of 01, "Marks round the course", that need calls or lines, with the
//! leaf rule and the order of the counts of 02, F-2 and F-5. Those of sizes, candidates and draws stand beside the
//! code in `sizes` and `coins`.

mod common;

use common::*;
use reference::calls::{Answer, Cause};
use reference::frames::Program;
use reference::random::SplitMix64;
use reference::shares::Store;
use reference::sizes::Size;

#[test]
fn slots_of_a_sheet_end_where_the_size_says() {
    let mut random = SplitMix64::new(1);
    for (entries, m, slots) in [
        (40, 64, 64),
        (40, 65, 168),
        (80, 128, 336),
        (80, 129, 384),
        (1000, 1407, 2112),
        (1000, 1408, 4224),
        (1024, 2047, 4224),
    ] {
        let list: Vec<u64> = (0..entries).map(|_| random.entry()).collect();
        // The last candidate each time, so that any sheet would do.
        let store = lay_out(&list, m, |_, _, c| c - 1);
        assert_eq!(check(&store), Answer::Checked { n: list.len() });
        let size = Size::new(m);
        assert_eq!(size.slots(), slots);
        // The last leaf has the last entry in its slot; nothing follows it.
        let n = count(&store, 2 * size.leaves() - 1);
        let leaf = slots as usize - size.leaf_slots();
        let last = leaf + leaf_slot(n - 1, n, size.leaf_slots());
        assert_eq!(store.slots[last], list[list.len() - 1]);
        assert!(store.slots[last + 1..].iter().all(|&slot| slot == 0));
    }
}

#[test]
fn delete_with_n_5() {
    let list = [11, 12, 13, 14, 15];
    // M 9 draws among 8: faces 0 to 2 give M 5 to 7, others M 4.
    for (face, m_after) in [5, 6, 7, 4, 4, 4, 4, 4].into_iter().enumerate() {
        let mut store = lay_out(&list, 9, |_, _, _| 0);
        let answer = delete(&mut store, 2, &[8 * 1000 + face as u32]);
        assert_eq!(answer, Answer::Changed { n: 4, words: 1 });
        assert_eq!(store, lay_out(&[11, 12, 14, 15], m_after, |_, _, _| 0));
    }
    // M 7 is kept.
    let mut store = lay_out(&list, 7, |_, _, _| 0);
    assert_eq!(
        delete(&mut store, 4, &[]),
        Answer::Changed { n: 4, words: 0 }
    );
    assert_eq!(store, lay_out(&[11, 12, 13, 14], 7, |_, _, _| 0));
}

/// 02, F-2: "in the printed case of document 01 the second entry moves to the
/// last slot."
#[test]
fn the_sheet_printed_in_the_paper() {
    let input = [
        "010000000000000000000A",
        "0400000001",
        "010001000000000000000B",
        "05",
    ];
    let output = "81000001\n84000001\n81000002\n85000002\n9000030002\n\
                  9100000002000000000000000A0000000000000000000000000000000B\n";
    let mut program = Program::new();
    let mut out = Vec::new();
    for line in input {
        program.step(line.as_bytes(), &mut out);
    }
    assert_eq!(String::from_utf8(out).unwrap(), output);
    assert!(program.waiting().is_empty());
}

#[test]
fn insert_into_a_full_sheet() {
    let mut store = sheet_of(1024, &mut SplitMix64::new(2));
    let before = store.clone();
    let full = Answer::Refused(Cause::Full);
    assert_eq!(insert(&mut store, 1024, 9, &[0; 300]), full);
    assert_eq!(insert(&mut store, 0, 9, &[]), full);
    let rank = Answer::Refused(Cause::Rank);
    assert_eq!(insert(&mut store, 1025, 9, &[0; 300]), rank);
    assert_eq!(store, before);
}

#[test]
fn first_entries_and_back_to_nothing() {
    let mut store = Store::cleared();
    assert_eq!(
        insert(&mut store, 0, 7, &[]),
        Answer::Changed { n: 1, words: 0 }
    );
    assert_eq!(m(&store), 1);
    // M = N = 1: M becomes 2 + a draw among 2.
    assert_eq!(
        insert(&mut store, 0, 7, &[4]),
        Answer::Changed { n: 2, words: 1 }
    );
    assert_eq!(m(&store), 2);
    // N = 2: any M ≥ 2 draws among 2, and M becomes 1 whatever the face.
    assert_eq!(delete(&mut store, 1, &[]), Answer::Refused(Cause::TapeEnds));
    assert_eq!(
        delete(&mut store, 1, &[9]),
        Answer::Changed { n: 1, words: 1 }
    );
    assert_eq!(m(&store), 1);
    // N = 1: everything zero, no draw.
    assert_eq!(
        delete(&mut store, 0, &[]),
        Answer::Changed { n: 0, words: 0 }
    );
    assert_eq!(store, Store::cleared());
}
