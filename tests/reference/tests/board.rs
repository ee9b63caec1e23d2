//! The notice board (02, F-9) on a plain and on a timed sheet of one list: every rank
//! as it is read alone, causes 16, 4 and 6 and their places among the others, and
//! that a refused board leaves the output.

mod common;

use common::*;
use reference::calls::{self, Answer, Cause};
use reference::places::{RETIRED, TIED};
use reference::random::SplitMix64;
use reference::timed;
use reference::timed_shares::Store;

/// What stands in an output before a board: no entry of a sheet here.
const HELD: u64 = 0x55;

/// A timed sheet of n boats, of a random size and with random balance entries.
fn sheet_of_boats(n: u64, random: &mut SplitMix64) -> Store {
    let m = n as usize + random.below((n as usize).max(1));
    lay_out_timed(&boats(n), m, |_, _, c| random.below(c))
}

/// Such sheets of some lengths, each with its N; the first one is empty.
fn sheets(seed: u64) -> impl Iterator<Item = (Store, u64)> {
    let mut random = SplitMix64::new(seed);
    let lengths = [0, 1, 2, 33, 63, 64, 65, 100, 200, 1024];
    lengths
        .into_iter()
        .map(move |n| (sheet_of_boats(n, &mut random), n))
}

/// A board with an output of this length, which is the same on the plain sheet and
/// on the timed one: the answer, and the output.
fn both(store: &Store, ranks: &[u64], room: usize) -> (Answer, Vec<u64>) {
    let (mut output, mut timed_output) = (vec![HELD; room], vec![HELD; room]);
    let answer = board(&store.plain, ranks, &mut output);
    assert_eq!(timed_board(store, ranks, &mut timed_output), answer);
    assert_eq!(timed_output, output);
    (answer, output)
}

/// The board is accepted and puts these entries; outputs of just their number, one
/// more and many more keep their rest.
fn puts(store: &Store, ranks: &[u64], entries: &[u64]) {
    for rest in [0, 1, 70] {
        let (answer, output) = both(store, ranks, entries.len() + rest);
        let values = [entries.len(), 0, 0];
        assert_eq!((answer.number(), answer.values()), (0, values), "{ranks:?}");
        assert_eq!(output[..entries.len()], *entries, "{ranks:?}");
        assert_eq!(output[entries.len()..], vec![HELD; rest], "{ranks:?}");
    }
}

/// The board is refused by this cause with an output of this length, which stays.
fn refuses(store: &Store, ranks: &[u64], room: usize, cause: Cause) {
    let (answer, output) = both(store, ranks, room);
    assert_eq!(answer, Answer::Refused(cause), "{ranks:?}");
    assert_eq!(answer.values(), [0, 0, 0]);
    assert_eq!(output, vec![HELD; room], "{ranks:?}");
}

/// The entry that a read of this rank alone puts.
fn read_alone(store: &Store, rank: u64) -> u64 {
    let (rank, mut output) = (rank as usize, [HELD]);
    let answer = read(&store.plain, rank, rank, &mut output);
    assert_eq!(answer, Answer::Read { entries: 1 });
    output[0]
}

/// The board of a sheet of boats puts what is read of each rank alone, which is the
/// boat at that rank of the list.
fn as_read_alone(store: &Store, ranks: &[u64]) {
    let list = boats(n(&store.plain) as u64);
    let entries: Vec<u64> = ranks.iter().map(|&rank| list[rank as usize]).collect();
    let alone: Vec<u64> = ranks.iter().map(|&rank| read_alone(store, rank)).collect();
    assert_eq!(alone, entries);
    puts(store, ranks, &entries);
}

#[test]
fn a_small_board() {
    let list = [10, 20 | TIED, 30 | RETIRED, 40 | RETIRED | TIED];
    let store = lay_out_timed(&list, 6, |_, _, _| 0);
    puts(&store, &[2], &[30 | RETIRED]);
    puts(&store, &[0, 1, 2, 3], &list);
    let [a, b, c, d] = list;
    puts(&store, &[1, 1, 3, 3, 3], &[b, b, d, d, d]);
    puts(&store, &[0, 0, 0, 2, 2, 3], &[a, a, a, c, c, d]);
}

/// Random ranks in rising order, among few ranks, so that many are repeated, and
/// among all.
#[test]
fn each_rank_as_it_is_read_alone() {
    let mut random = SplitMix64::new(90);
    for (store, n) in sheets(90).skip(1) {
        for width in [2, 7, n, n, n] {
            let first = random.below(n as usize) as u64;
            let width = width.min(n - first) as usize;
            let number = 1 + random.below(64);
            let mut ranks: Vec<u64> = (0..number)
                .map(|_| first + random.below(width) as u64)
                .collect();
            ranks.sort_unstable();
            as_read_alone(&store, &ranks);
        }
    }
}

/// The first 64 ranks and the last 64, or all of a shorter sheet; 64 from one end to
/// the other; and 64 times the same.
#[test]
fn boards_of_64_ranks() {
    for (store, n) in sheets(91).skip(1) {
        let number = n.min(64);
        as_read_alone(&store, &(0..number).collect::<Vec<u64>>());
        as_read_alone(&store, &(n - number..n).collect::<Vec<u64>>());
        let from_end_to_end: Vec<u64> = (0..64).map(|k| k * (n - 1) / 63).collect();
        as_read_alone(&store, &from_end_to_end);
        for rank in [0, n / 2, n - 1] {
            as_read_alone(&store, &[rank; 64]);
        }
    }
}

/// With room for them and without; ranks that are too large as well.
#[test]
fn cause_16_for_more_than_64_ranks() {
    for (store, n) in sheets(92) {
        for number in [65, 66, 1000] {
            let rising = (0..number as u64).collect();
            for ranks in [rising, vec![0; number], vec![n; number]] {
                for room in [0, 64, 65, 1000] {
                    refuses(&store, &ranks, room, Cause::Board);
                }
            }
        }
    }
}

/// Nothing is put, whatever the output.
#[test]
fn no_ranks() {
    for (store, _) in sheets(93) {
        puts(&store, &[], &[]);
    }
}

/// A fall by one and by more at every place of a board, the last one among them;
/// with two equal ranks there instead, the board is accepted.
#[test]
fn cause_16_where_the_ranks_fall() {
    let store = sheet_of_boats(100, &mut SplitMix64::new(94));
    for number in [2, 3, 10, 64] {
        for at in 1..number {
            let mut ranks: Vec<u64> = (20..20 + number as u64).collect();
            for below in [ranks[at - 1] - 1, 0] {
                ranks[at] = below;
                refuses(&store, &ranks, 70, Cause::Board);
            }
            ranks[at] = ranks[at - 1];
            as_read_alone(&store, &ranks);
        }
    }
}

/// A rank before the fall is N or more, so that 4 would refuse the board as well.
#[test]
fn cause_16_before_4() {
    for (store, n) in sheets(95).skip(1) {
        for room in [0, 2, 70] {
            for too_large in [n, n + 1, 1 << 32, u64::MAX] {
                refuses(&store, &[too_large, 0], room, Cause::Board);
                refuses(&store, &[too_large, too_large - 1], room, Cause::Board);
                refuses(&store, &[0, too_large, n - 1], room, Cause::Board);
            }
        }
    }
    refuses(&Store::cleared(), &[1, 0], 70, Cause::Board);
}

/// Ranks too large at the end of a board, one or more, behind ranks of the sheet or
/// behind none, also where the output is too short. By their lower 16 or 32 bits some
/// of them would be 0 or 1.
#[test]
fn cause_4_for_any_rank() {
    let huge = [1 << 16, 1 << 32, (1 << 32) + 1, 1 << 63, u64::MAX];
    for (store, n) in sheets(96) {
        for too_large in [n, n + 1].into_iter().chain(huge) {
            for good in [0, 1, 2, 63] {
                let mut ranks = vec![n.saturating_sub(1); good];
                ranks.resize(64, too_large);
                for ranks in [&ranks[..], &ranks[..good + 1]] {
                    for room in [0, good, 64, 70] {
                        refuses(&store, ranks, room, Cause::Rank);
                    }
                }
            }
        }
    }
}

/// Every output that is too short.
#[test]
fn cause_6_for_a_short_output() {
    for (store, n) in sheets(97).skip(1) {
        for number in [1, 2, 63, 64] {
            let ranks: Vec<u64> = (0..number).map(|k| k * (n - 1) / 63).collect();
            for room in 0..number as usize {
                refuses(&store, &ranks, room, Cause::Output);
            }
        }
    }
}

/// The order 1, 2, 11, 16, 4, 6: from a board that all of them refuse, one after
/// the other is put right. A plain sheet cannot meet 11.
#[test]
fn order_of_the_causes() {
    let sound = sheet_of_boats(100, &mut SplitMix64::new(98));
    let mut store = sound.clone();
    store.plain.counts[255] = 1;
    store.balance[255] = 1;
    let mut output = [HELD; 2];
    let mut numbers = |store: &Store, from_slot: usize, ranks: &[u64]| {
        let Store { plain, balance } = store;
        let (slots, counts) = (&plain.slots[from_slot..], &plain.counts[..]);
        let (tallies, balance) = (&plain.tallies[..], &balance[..]);
        let answer = calls::board(slots, counts, tallies, ranks, &mut output);
        let timed = timed::board(slots, counts, tallies, balance, ranks, &mut output);
        assert_eq!(output, [HELD; 2]);
        [answer, timed].map(Answer::number)
    };
    let falls = [0, 100, 0];
    assert_eq!(numbers(&store, 1, &falls), [1, 1]);
    assert_eq!(numbers(&store, 0, &falls), [2, 2]);
    store.plain.counts[255] = 0;
    assert_eq!(numbers(&store, 0, &falls), [16, 11]);
    assert_eq!(numbers(&sound, 0, &falls), [16, 16]);
    assert_eq!(numbers(&sound, 0, &[0, 100, 100]), [4, 4]);
    assert_eq!(numbers(&sound, 0, &[0, 99, 99]), [6, 6]);
}

/// Entries that only a plain sheet can hold: equal ones, and the bits alone.
#[test]
fn entries_of_plain_sheets() {
    let list = [7, 7, TIED, RETIRED, TIED | RETIRED, u64::MAX, 3];
    let store = lay_out(&list, 12, |_, _, _| 0);
    let mut output = [HELD; 10];
    let answer = board(&store, &[0, 1, 2, 2, 3, 4, 5, 5, 6], &mut output);
    assert_eq!(answer, Answer::Read { entries: 9 });
    let [a, b, c, d, e, f, g] = list;
    assert_eq!(output, [a, b, c, c, d, e, f, f, g, HELD]);
}
