//! The notice board (document 02, F-9) on both, on a plain and on a timed sheet of the
//! same list: each word of the output is what a read of that rank alone puts; the
//! causes 16, 4 and 6 and their places among the others; and outputs that stay.

use agreement::boards::board;
use agreement::histories::Bits;
use agreement::sheets::Sheets;
use agreement::stores::rising;
use agreement::{say, timed, Both, Call};
use reference::random::SplitMix64;

/// What stands in an output before a call: no entry of a sheet here.
const HELD: u64 = 5;

/// Sheets of some lengths and of three sizes each, with their N.
fn sheets(seed: u64) -> Vec<(Sheets, u64)> {
    let mut random = SplitMix64::new(seed);
    let mut made = Vec::new();
    for n in [0, 1, 33, 64, 65, 200, 1024] {
        for m in [n, n + random.below(n.max(1)), (2 * n).max(1) - 1] {
            let list = rising(n, Bits::SOME, &mut random);
            made.push((Sheets::new(seed, &list, m, &mut random), n as u64));
        }
    }
    made
}

/// Those that are not empty.
fn with_boats(seed: u64) -> impl Iterator<Item = (Sheets, u64)> {
    sheets(seed).into_iter().filter(|(_, n)| *n > 0)
}

/// What reads of these ranks, each alone, put.
fn alone(sheets: &mut Sheets, ranks: &[u64]) -> Vec<u64> {
    let read = |rank: &u64| {
        let (returned, output) = sheets.read(*rank as usize, &[HELD]);
        assert_eq!(returned, [0, 1, 0, 0]);
        output[0]
    };
    ranks.iter().map(read).collect()
}

/// The board is accepted with each output that has room, and puts what reads put.
fn as_read_alone(sheets: &mut Sheets, ranks: impl IntoIterator<Item = u64>) {
    let ranks: Vec<u64> = ranks.into_iter().collect();
    let entries = alone(sheets, &ranks);
    for rest in [0, 1, 70] {
        let (returned, output) = sheets.board(&ranks, &vec![HELD; ranks.len() + rest]);
        assert_eq!(returned, [0, ranks.len() as u64, 0, 0], "{ranks:?}");
        assert_eq!(output, [&entries[..], &vec![HELD; rest]].concat(), "{ranks:?}");
    }
}

/// The board is refused by this cause, and the output stays.
fn refused(sheets: &mut Sheets, ranks: &[u64], room: usize, cause: u64) {
    let (returned, output) = sheets.board(ranks, &vec![HELD; room]);
    assert_eq!(returned, [cause, 0, 0, 0], "{ranks:?}, {room} places");
    assert_eq!(output, vec![HELD; room], "{ranks:?}");
}

/// The number of a board by the words of F-9, on a sheet of n entries.
fn number_by_words(ranks: &[u64], room: usize, n: u64) -> u64 {
    let falls = (1..ranks.len()).any(|k| ranks[k] < ranks[k - 1]);
    match () {
        _ if falls || ranks.len() > 64 => 16,
        _ if ranks.iter().any(|rank| *rank >= n) => 4,
        _ if room < ranks.len() => 6,
        _ => 0,
    }
}

#[test]
fn random_boards() {
    let mut random = SplitMix64::new(7200);
    let (mut met, mut made) = ([0; 17], 0);
    for (mut sheets, n) in sheets(7200) {
        for _ in 0..150 {
            let (ranks, output) = board(&mut random, n as usize);
            let number = number_by_words(&ranks, output.len(), n);
            met[number as usize] += 1;
            match number {
                0 => as_read_alone(&mut sheets, ranks),
                cause => refused(&mut sheets, &ranks, output.len(), cause),
            }
        }
        made += sheets.made();
    }
    assert!([0, 4, 6, 16].iter().all(|number| met[*number] > 100), "{met:?}");
    say(&format!("{made} calls"));
}

/// Every rank of the sheet by itself, and every rank together with the next one.
#[test]
fn every_rank() {
    for (mut sheets, n) in with_boats(7201) {
        for rank in 0..n {
            as_read_alone(&mut sheets, [rank]);
            as_read_alone(&mut sheets, [rank, (rank + 1).min(n - 1)]);
        }
    }
}

/// The ranks 0 to 63 and the last 64, or all of a shorter sheet; 64 from one end to
/// the other; and 64 times the same.
#[test]
fn boards_of_64_ranks() {
    for (mut sheets, n) in with_boats(7202) {
        as_read_alone(&mut sheets, 0..n.min(64));
        as_read_alone(&mut sheets, n.saturating_sub(64)..n);
        as_read_alone(&mut sheets, (0..64).map(|k| k * (n - 1) / 63));
        for rank in [0, n / 2, n - 1] {
            as_read_alone(&mut sheets, [rank; 64]);
        }
    }
}

/// Accepted on every sheet, the empty one too, with every output.
#[test]
fn no_ranks() {
    for (mut sheets, _) in sheets(7203) {
        as_read_alone(&mut sheets, []);
    }
}

/// Rising ranks, ranks all equal and ranks too large, with room and without it.
#[test]
fn more_than_64_ranks() {
    for (mut sheets, n) in sheets(7204) {
        for number in [65, 66, 1000] {
            let rising = (0..number as u64).collect();
            for ranks in [rising, vec![0; number], vec![n; number]] {
                for room in [0, 64, 65, 1000] {
                    refused(&mut sheets, &ranks, room, 16);
                }
            }
        }
    }
}

/// A fall at every place of a board of 64, the last one among them.
#[test]
fn ranks_that_fall() {
    for (mut sheets, n) in with_boats(7205).filter(|(_, n)| *n > 1) {
        for at in 1..64 {
            let mut ranks: Vec<u64> = (0..64).map(|k| if k < at { n / 2 } else { n - 1 }).collect();
            for below in [n / 2 - 1, 0] {
                ranks[at] = below;
                refused(&mut sheets, &ranks, 64, 16);
            }
        }
    }
}

/// N or more, followed by a rank below it: 16, not 4.
#[test]
fn falls_from_ranks_too_large() {
    for (mut sheets, n) in with_boats(7206) {
        for too_large in [n, n + 1, 1 << 32, u64::MAX] {
            for room in [0, 1, 3, 70] {
                refused(&mut sheets, &[too_large, 0], room, 16);
                refused(&mut sheets, &[too_large, too_large - 1], room, 16);
                refused(&mut sheets, &[0, too_large, n - 1], room, 16);
            }
        }
    }
}

/// N or more at the end, behind none, one, two and 63 ranks of the sheet: no entry is
/// put. Of some of these ranks the lower 16 or 32 bits are those of 0 or 1.
#[test]
fn ranks_too_large() {
    let huge = [1 << 16, 1 << 32, (1 << 32) + 1, 1 << 63, u64::MAX];
    for (mut sheets, n) in sheets(7207) {
        for too_large in [n, n + 1].into_iter().chain(huge) {
            for before in [0, 1, 2, 63] {
                let mut ranks = vec![n.saturating_sub(1); before];
                ranks.push(too_large);
                for room in [0, before, 64, 70] {
                    refused(&mut sheets, &ranks, room, 4);
                }
            }
        }
    }
}

/// Every output that is too short.
#[test]
fn short_outputs() {
    for (mut sheets, n) in with_boats(7208) {
        for number in [1, 2, 63, 64] {
            let ranks: Vec<u64> = (0..number).map(|k| k * (n - 1) / 63).collect();
            for room in 0..number as usize {
                refused(&mut sheets, &ranks, room, 6);
            }
        }
    }
}

/// The order 1, 2, 11, 16, 4, 6: from a board that all of them refuse, one after the
/// other is put right. The plain store, which cannot meet 11, beside the timed one.
#[test]
fn order_of_the_causes() {
    let mut random = SplitMix64::new(7209);
    let list = rising(100, Bits::SOME, &mut random);
    let sound = timed::Store::of_size(&list, 150, &mut random);
    let numbers = |store: timed::Store, ranks: [u64; 3]| {
        let (ranks, output) = (ranks.to_vec(), vec![HELD; 2]);
        let mut plain = Both::new(7209, store.plain());
        let plain = plain.call_with_output(Call::Board { ranks: ranks.clone(), output: output.clone() });
        let timed = Both::new(7209, store).call_with_output(timed::Call::Board { ranks, output });
        assert_eq!([plain.1, timed.1], [[HELD; 2]; 2]);
        [plain.0[0], timed.0[0]]
    };
    let falls = [0, 100, 0];
    let mut store = sound.clone();
    store.counts[255] = 1;
    store.balance[255] = 1;
    store.slots.pop();
    assert_eq!(numbers(store.clone(), falls), [1, 1]);
    store.slots.push(0);
    assert_eq!(numbers(store.clone(), falls), [2, 2]);
    store.counts[255] = 0;
    assert_eq!(numbers(store.clone(), falls), [16, 11]);
    assert_eq!(numbers(sound.clone(), falls), [16, 16]);
    assert_eq!(numbers(sound.clone(), [0, 100, 100]), [4, 4]);
    assert_eq!(numbers(sound, [0, 99, 99]), [6, 6]);
}
