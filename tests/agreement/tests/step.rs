//! One step on a line, by both: answers, store and waiting tape after every
//! line of random histories, places of tied and retired boats, stores that are no
//! sheets, and lent slices that do not fit.

use agreement::histories::{Bits, BORDER, FULL, SHORT};
use agreement::program::lines_of;
use agreement::stores::{other_tallies, rising, sheet_of_size};
use agreement::{lines, proved, Store};
use reference::frames::{self, Program, Waiting, WAITING_WORDS};
use reference::layout::{COUNTS, SLOTS, TALLIES};
use reference::random::SplitMix64;
use reference::conversions;

/// The length of the longest answer.
const LONGEST: usize = 69_012;

/// Every line of a history through both steps.
fn history(seed: u64, number: u64, targets: &[usize]) {
    let input = lines::history(seed, number, targets);
    let mut program = Program::new();
    let mut store = Store::cleared();
    let (mut tape, mut waiting, untouched) = (vec![0; WAITING_WORDS], [0], vec![0xEE; LONGEST]);
    let mut output = untouched.clone();
    let mut expected = Vec::new();
    for (k, line) in lines_of(&input).into_iter().enumerate() {
        expected.clear();
        program.step(line, &mut expected);
        let bytes = proved::step(line, &mut store, &mut tape, &mut waiting, &mut output);
        let place = format!("seed {seed}, line {}: {}", k + 1, line.escape_ascii());
        assert_eq!(output[..bytes].escape_ascii().to_string(), expected.escape_ascii().to_string(), "{place}");
        assert!(output[bytes..] == untouched[bytes..], "behind the answer, {place}");
        assert_eq!(store.slots, &program.slots()[..], "slots, {place}");
        assert_eq!(store.counts, &program.counts()[..], "counts, {place}");
        assert_eq!(store.tallies, &program.tallies()[..], "tallies, {place}");
        let (words, rest) = tape.split_at(waiting[0] as usize);
        assert_eq!(words, program.waiting(), "waiting words, {place}");
        assert!(rest.iter().all(|word| *word == 0), "words behind those that wait, {place}");
        output[..bytes].fill(0xEE);
    }
}

#[test]
fn histories_of_lines() {
    history(2000, 20_000, SHORT);
    history(2001, 20_000, BORDER);
    history(2002, 30_000, FULL);
}

/// The step by the second implementation, with no words that wait: its answer.
fn by_reference(line: &[u8], store: &mut Store) -> Vec<u8> {
    let (mut answer, mut none) = (Vec::new(), Waiting::new());
    frames::step(line, &mut store.slots, &mut store.counts, &mut store.tallies, &mut none, &mut answer);
    answer
}

/// Frame 07 for every rank, and one too high, of sheets with ties and retired boats.
#[test]
fn places() {
    let mut random = SplitMix64::new(2050);
    for n in [0, 1, 5, 64, 70, 300, 1024] {
        for bits in [Bits::NONE, Bits::SOME, Bits::new(15, 8), Bits::new(16, 4), Bits::new(16, 16)] {
            let list = rising(n, bits, &mut random);
            let mut store = sheet_of_size(&list, n + random.below(n.max(1)), &mut random);
            let sheet = store.clone();
            let (mut tape, mut waiting, mut output) = (vec![0; WAITING_WORDS], [0], vec![0; LONGEST]);
            for rank in 0..=n {
                let line = format!("07{rank:04X}");
                let expected = by_reference(line.as_bytes(), &mut store);
                let bytes = proved::step(line.as_bytes(), &mut store, &mut tape, &mut waiting, &mut output);
                assert_eq!(output[..bytes].escape_ascii().to_string(), expected.escape_ascii().to_string(), "N {n}, {line}");
            }
            assert!(store == sheet, "N {n}");
        }
    }
}

/// Stores of any contents and of other lengths: the answers and the stores are the same.
#[test]
fn no_sheets() {
    let mut random = SplitMix64::new(2100);
    let frames_ = ["010000000000000000000A", "020000", "0300000001", "0400000001", "05", "06", "070000", "", "0a"];
    for turn in 0..2_000 {
        let mut store = Store::cleared();
        match random.below(6) {
            0 => store.slots.truncate(random.below(SLOTS)),
            1 => store.counts.truncate(random.below(4)),
            2 => store.counts[random.below(COUNTS)] = random.next_u32() as u16,
            3 => store.tallies.resize([0, 1, TALLIES - 1, TALLIES + 1][random.below(4)], 0),
            4 => store.tallies[random.below(TALLIES)] = random.next_u32() as u16,
            _ => store.slots[random.below(SLOTS)] = 1 + u64::from(random.next_u32()),
        }
        let mut other = store.clone();
        let line = frames_[random.below(frames_.len())].as_bytes();
        let expected = by_reference(line, &mut other);
        let (mut tape, mut waiting, mut output) = (vec![0; WAITING_WORDS], [0], vec![0; LONGEST]);
        let bytes = proved::step(line, &mut store, &mut tape, &mut waiting, &mut output);
        assert_eq!(output[..bytes], expected[..], "turn {turn}, {}", line.escape_ascii());
        assert!(store == other, "turn {turn}");
    }
}

/// Frames on a store that is no sheet: those that test it are refused by cause 2, its
/// tape frame is answered, and clear makes it the empty sheet.
fn refused(no_sheet: &Store) {
    for (line, cause) in [("010000000000000000000A", 2), ("020000", 2), ("0300000001", 2), ("05", 2), ("070000", 2), ("0400000001", 0), ("06", 0)] {
        let (mut store, mut other) = (no_sheet.clone(), no_sheet.clone());
        let expected = by_reference(line.as_bytes(), &mut other);
        assert_eq!(&expected[2..4], format!("{cause:02}").as_bytes(), "{line}");
        let (mut tape, mut waiting, mut output) = (vec![0; WAITING_WORDS], [0], vec![0; LONGEST]);
        let bytes = proved::step(line.as_bytes(), &mut store, &mut tape, &mut waiting, &mut output);
        assert_eq!(output[..bytes].escape_ascii().to_string(), expected.escape_ascii().to_string(), "{line}");
        assert!(store == other, "{line}");
        let after = if line == "06" { Store::cleared() } else { no_sheet.clone() };
        assert!(store == after, "{line}");
    }
}

/// A sheet of 100 entries, some boats of which have retired.
fn sheet_of_100(seed: u64) -> Store {
    let mut random = SplitMix64::new(seed);
    let list = rising(100, Bits::SOME, &mut random);
    sheet_of_size(&list, 150, &mut random)
}

/// A store left in number order.
#[test]
fn number_order() {
    let mut sheet = sheet_of_100(2200);
    conversions::to_number_order(&mut sheet.counts);
    refused(&sheet);
}

/// A store whose tallies alone are wrong.
#[test]
fn wrong_tallies() {
    let sheet = sheet_of_100(2201);
    for (_, tallies) in other_tallies(&sheet, &mut SplitMix64::new(2202)) {
        refused(&Store { tallies, ..sheet.clone() });
    }
    for k in 0..TALLIES {
        let mut store = sheet.clone();
        store.tallies[k] ^= 1;
        refused(&store);
    }
}

/// An output, a tape or a number of waiting words that does not fit: no answer, and nothing changes.
#[test]
fn unfit_slices() {
    let line = b"0400000001";
    for (words, waits, room, numbers, fits) in [
        (WAITING_WORDS, 0, LONGEST, 1, true),
        (WAITING_WORDS, WAITING_WORDS as u64, LONGEST, 1, true),
        (WAITING_WORDS, 0, LONGEST - 1, 1, false),
        (WAITING_WORDS - 1, 0, LONGEST, 1, false),
        (WAITING_WORDS + 1, 0, LONGEST, 1, false),
        (WAITING_WORDS, WAITING_WORDS as u64 + 1, LONGEST, 1, false),
        (WAITING_WORDS, u64::MAX, LONGEST, 1, false),
        (WAITING_WORDS, 0, LONGEST, 0, false),
    ] {
        let mut store = Store::unused();
        let (mut tape, mut waiting, mut output) = (vec![5; words], vec![waits; numbers], vec![0xEE; room]);
        let bytes = proved::step(line, &mut store, &mut tape, &mut waiting, &mut output);
        assert_eq!(bytes > 0, fits, "{words} words, {waits} wait, output of {room}, {numbers} numbers");
        if !fits {
            let same = store == Store::unused()
                && tape == vec![5; words]
                && waiting == vec![waits; numbers]
                && output == vec![0xEE; room];
            assert!(same, "{words} words, {waits} wait, output of {room}, {numbers} numbers");
        }
    }
}
