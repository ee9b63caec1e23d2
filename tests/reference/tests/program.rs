//! The program (01, "Frames"; 02, F-3, F-11), by steps and as it runs.

mod common;

use common::*;
use reference::frames::{frame_kind, run, Program, NO_FRAME};
use reference::places::{RETIRED, TIED};
use reference::random::SplitMix64;
use reference::shares::Store;
use std::io::{BufReader, Write};
use std::process::{Command, Stdio};

/// The case printed in 01, by the leaf rule of 02, F-2.
const INPUT: &str = "010000000000000000000A\n0400000001\n010001000000000000000B\n05\n";
const OUTPUT: &str = "81000001\n84000001\n81000002\n85000002\n9000030002\n\
                      9100000002000000000000000A0000000000000000000000000000000B\n";

/// All that the program answers to this input.
fn answers(input: impl AsRef<[u8]>) -> String {
    let mut output = Vec::new();
    run(input.as_ref(), &mut output).unwrap();
    String::from_utf8(output).unwrap()
}

/// One step: the answer with its LF.
fn step(program: &mut Program, line: impl AsRef<[u8]>) -> String {
    let mut out = Vec::new();
    program.step(line.as_ref(), &mut out);
    String::from_utf8(out).unwrap()
}

fn tape_line(words: &[u32]) -> String {
    let words: Vec<String> = words.iter().map(|word| format!("{word:08X}")).collect();
    format!("04{}", words.concat())
}

#[test]
fn worked_example() {
    assert_eq!(answers(INPUT), OUTPUT);
    assert_eq!(answers(&INPUT[..INPUT.len() - 1]), OUTPUT);
}

#[test]
fn worked_example_as_a_process() {
    let mut child = Command::new(env!("CARGO_BIN_EXE_reference_sheet"))
        .stdin(Stdio::piped())
        .stdout(Stdio::piped())
        .spawn()
        .unwrap();
    let mut stdin = child.stdin.take().unwrap();
    stdin.write_all(INPUT.as_bytes()).unwrap();
    drop(stdin);
    let output = child.wait_with_output().unwrap();
    assert!(output.status.success());
    assert_eq!(output.stdout, OUTPUT.as_bytes());
}

#[test]
fn input_in_pieces_of_any_length() {
    let input = format!("{INPUT}\n05\r\n06\n{}\n05", "0".repeat(1000));
    let expected = answers(&input);
    for capacity in [1, 2, 3, 7, 64, 131, 1000] {
        let mut output = Vec::new();
        run(
            BufReader::with_capacity(capacity, input.as_bytes()),
            &mut output,
        )
        .unwrap();
        assert_eq!(output, expected.as_bytes());
    }
}

#[test]
fn empty_input_and_last_lines() {
    assert_eq!(answers(""), "");
    assert_eq!(answers("\n"), "FF080000\n");
    assert_eq!(answers("\n\n"), "FF080000\nFF080000\n");
    assert_eq!(answers("06"), "86000000\n");
    assert_eq!(answers("06\n"), "86000000\n");
    assert_eq!(answers("06\n\n"), "86000000\nFF080000\n");
    // Any byte is a character of a last line.
    for last in [" ", "\r", "\0", "0", "\u{e9}"] {
        assert_eq!(answers(format!("06\n{last}")), "86000000\nFF080000\n");
    }
    assert_eq!(answers(b"\xFF"), "FF080000\n");
}

#[test]
fn lines_of_any_length_have_one_answer() {
    for length in [129, 130, 131, 132, 200, 8191, 8192, 8193, 100_000] {
        for character in ["0", "5", "A", " ", "\r"] {
            let line = character.repeat(length);
            assert_eq!(frame_kind(line.as_bytes()), NO_FRAME);
            let input = format!("{line}\n06\n{line}");
            assert_eq!(answers(input), "FF080000\n86000000\nFF080000\n");
        }
    }
    // A full tape line is a frame, and nothing longer that begins like one.
    let full = tape_line(&[0; 16]);
    assert_eq!(answers(&full), "84000000\n");
    assert_eq!(answers(full.clone() + "0"), "FF080000\n");
    assert_eq!(answers(full.clone() + "00000000"), "FF080000\n");
    assert_eq!(answers(full + "\r"), "FF080000\n");
}

#[test]
fn cause_8_keeps_sheet_and_tape() {
    let mut program = Program::new();
    step(&mut program, "010000000000000000000A");
    step(&mut program, "0400000001");
    let before = program.clone();
    let lines = [
        "",
        "5",
        "05 ",
        " 05",
        "05\r",
        "0a",
        "00",
        "08",
        "FF",
        "0500",
        "04",
        "040000000",
    ];
    for line in lines {
        assert_eq!(step(&mut program, line), "FF080001\n", "{line:?}");
    }
    // 17 words are no frame, even where they would also pass 1,024.
    assert_eq!(step(&mut program, tape_line(&[1; 17])), "FF080001\n");
    assert_eq!(program.slots(), before.slots());
    assert_eq!(program.counts(), before.counts());
    assert_eq!(program.tallies(), before.tallies());
    assert_eq!(program.waiting(), before.waiting());
}

#[test]
fn cause_9_keeps_sheet_and_tape() {
    let mut program = Program::new();
    step(&mut program, "010000000000000000000A");
    for _ in 0..63 {
        assert_eq!(step(&mut program, tape_line(&[1; 16])), "84000001\n");
    }
    assert_eq!(step(&mut program, tape_line(&[1; 15])), "84000001\n");
    assert_eq!(program.waiting().len(), 1023);
    assert_eq!(step(&mut program, tape_line(&[2; 2])), "84090001\n");
    assert_eq!(program.waiting(), [1; 1023]);
    // Exactly 1,024 words may wait.
    assert_eq!(step(&mut program, tape_line(&[3])), "84000001\n");
    assert_eq!(program.waiting().len(), 1024);
    assert_eq!(step(&mut program, tape_line(&[4])), "84090001\n");
    assert_eq!(step(&mut program, tape_line(&[4; 16])), "84090001\n");
    assert_eq!(step(&mut program, tape_line(&[4; 17])), "FF080001\n");
    // An insert reads one word: one more may wait again.
    assert_eq!(step(&mut program, "010000000000000000000B"), "81000002\n");
    assert_eq!(program.waiting().len(), 1023);
    assert_eq!(step(&mut program, tape_line(&[4])), "84000002\n");
}

#[test]
fn causes_of_the_calls() {
    let mut program = Program::new();
    assert_eq!(step(&mut program, "0100000000000000000000"), "81030000\n");
    assert_eq!(step(&mut program, "0100010000000000000000"), "81030000\n");
    assert_eq!(step(&mut program, "0100010000000000000001"), "81040000\n");
    assert_eq!(step(&mut program, "020000"), "82040000\n");
    assert_eq!(step(&mut program, "0300000000"), "83040000\n");
    assert_eq!(step(&mut program, "070000"), "87040000\n");
    assert_eq!(step(&mut program, "010000000000000000000A"), "81000001\n");
    assert_eq!(step(&mut program, "010000000000000000000B"), "81070001\n");
    assert_eq!(
        step(&mut program, "0300000000"),
        "83000001000000000000000A\n"
    );
    assert_eq!(step(&mut program, "0300010000"), "83040001\n");
    assert_eq!(step(&mut program, "070000"), "870000010001000000010001\n");
    assert_eq!(step(&mut program, "070001"), "87040001\n");
    assert_eq!(step(&mut program, "020000"), "82000000\n");
    assert_eq!(step(&mut program, "05"), "85000000\n9000000000\n");
}

#[test]
fn clear_keeps_the_waiting_tape() {
    let mut program = Program::new();
    step(&mut program, "0400000001FFFFFFFF");
    step(&mut program, "010000000000000000000A");
    assert_eq!(step(&mut program, "06"), "86000000\n");
    assert_eq!(program.waiting(), [1, 0xFFFF_FFFF]);
    step(&mut program, "010000000000000000000A");
    assert_eq!(step(&mut program, "010000000000000000000B"), "81000002\n");
    assert_eq!(program.waiting(), [0xFFFF_FFFF]);
}

#[test]
fn refused_calls_read_no_words() {
    let mut program = Program::new();
    step(&mut program, "010000000000000000000A");
    step(&mut program, "0400000000");
    assert_eq!(step(&mut program, "010000000000000000000B"), "81000002\n");
    assert_eq!(program.waiting(), []);
    // N 2, M 2: the size draw is among 2, and a rank too large comes before it.
    step(&mut program, "0400000000");
    assert_eq!(step(&mut program, "0100090000000000000001"), "81040002\n");
    assert_eq!(program.waiting(), [0]);
    // N 3, M 4: a draw among 4 gives 0, and the draw among 2 finds no word.
    assert_eq!(step(&mut program, "010002000000000000000C"), "81000003\n");
    step(&mut program, "0400000000");
    assert_eq!(step(&mut program, "010002000000000000000D"), "81070003\n");
    assert_eq!(program.waiting(), [0]);
}

/// A program that holds the list 1 to `n`, each entry with these bits or none.
fn program_of(n: u64, bits: u64) -> Program {
    let mut program = Program::new();
    for entry in 1..=n {
        let rank = entry - 1;
        loop {
            let answer = step(&mut program, format!("01{rank:04X}{:016X}", entry | bits));
            if answer == format!("8100{entry:04X}\n") {
                break;
            }
            assert_eq!(answer, format!("8107{rank:04X}\n"));
            step(&mut program, tape_line(&[12345; 16]));
        }
    }
    program
}

#[test]
fn reads_of_more_than_64_entries() {
    let mut program = program_of(100, 0);
    let entries: String = (1..=64).map(|entry| format!("{entry:016X}")).collect();
    assert_eq!(
        step(&mut program, "030000003F"),
        format!("83000064{entries}\n")
    );
    assert_eq!(step(&mut program, "0300000040"), "83060064\n");
    assert_eq!(step(&mut program, "0300000063"), "83060064\n");
    // Cause 4 comes before.
    assert_eq!(step(&mut program, "0300000064"), "83040064\n");
    assert_eq!(step(&mut program, "030000FFFF"), "83040064\n");
    assert_eq!(step(&mut program, "030063FFFF"), "83040064\n");
    assert_eq!(step(&mut program, "0300630000"), "83040064\n");
}

/// The answers to 07 for each rank of the program's list.
fn places(program: &mut Program, n: usize) -> Vec<String> {
    let lines = (0..n).map(|rank| format!("07{rank:04X}"));
    lines.map(|line| step(program, line)).collect()
}

/// 02, F-3: "Frame 87 carries place (2 bytes), sum (4) and t (2)." B and C tied
/// with A, E with D; at rank 0 the bit has no effect.
#[test]
fn places_of_tied_boats() {
    let mut program = Program::new();
    step(&mut program, tape_line(&[12345; 16]));
    let entries = [TIED + 0xA, TIED + 0xB, TIED + 0xC, 0xD, TIED + 0xE];
    for (rank, entry) in entries.into_iter().enumerate() {
        let answer = step(&mut program, format!("01{rank:04X}{entry:016X}"));
        assert_eq!(answer, format!("8100{:04X}\n", rank + 1));
    }
    let first = "870000050001000000060003\n";
    let second = "870000050004000000090002\n";
    let expected = [first, first, first, second, second];
    assert_eq!(places(&mut program, 5), expected);
    assert_eq!(step(&mut program, "070005"), "87040005\n");
}

/// 02, F-11: B has retired and bears bit 63, so that C ties with A; D has retired
/// without it, so that E does not tie with C.
#[test]
fn places_of_retired_boats() {
    let mut program = Program::new();
    step(&mut program, tape_line(&[12345; 16]));
    let (b, d) = (RETIRED + TIED + 0xB, RETIRED + 0xD);
    for (rank, entry) in [0xA, b, TIED + 0xC, d, TIED + 0xE].into_iter().enumerate() {
        let answer = step(&mut program, format!("01{rank:04X}{entry:016X}"));
        assert_eq!(answer, format!("8100{:04X}\n", rank + 1));
    }
    let (first, retired) = ("870000050001000000030002\n", "870000050000000000000001\n");
    let last = "870000050003000000030001\n";
    assert_eq!(
        places(&mut program, 5),
        [first, retired, first, retired, last]
    );
    // Read and print give the entries as they stand.
    let entries = "C00000000000000B800000000000000C400000000000000D";
    let answer = step(&mut program, "0300010003");
    assert_eq!(answer, format!("83000005{entries}\n"));
    // Bit 62 alone is an entry.
    let answer = step(&mut program, "0100004000000000000000");
    assert_eq!(answer, "81000006\n");
    assert_eq!(step(&mut program, "070000"), "870000060000000000000001\n");
    assert_eq!(step(&mut program, "070001"), "870000060001000000030002\n");
}

/// All 1,024 boats have retired, with bit 63 or without it.
#[test]
fn places_of_1024_retired_boats() {
    for bits in [RETIRED, RETIRED | TIED] {
        let mut program = program_of(1024, bits);
        let expected = "870004000000000000000001\n";
        let places = places(&mut program, 1024);
        assert!(places.iter().all(|answer| answer == expected));
    }
}

/// The sum 524,800 takes more than 2 bytes, and t = 1,024 more than one.
#[test]
fn places_of_1024_tied_boats() {
    let mut program = program_of(1024, TIED);
    let expected = "870004000001000802000400\n";
    assert!(places(&mut program, 1024)
        .iter()
        .all(|answer| answer == expected));
}

/// The printed lines tell the whole sheet.
#[test]
fn print_tells_every_leaf() {
    for n in [1, 2, 20, 64, 65, 100, 400] {
        let mut program = program_of(n, 0);
        let printed = step(&mut program, "05");
        let mut lines = printed.lines();
        assert_eq!(lines.next(), Some(format!("8500{n:04X}").as_str()));
        let m = usize::from(program.counts()[0]);
        assert_eq!(lines.next(), Some(format!("90{m:04X}{n:04X}").as_str()));
        let leaves = 1 << height(m);
        let leaf_slots = reference::sizes::Size::new(m).leaf_slots();
        for leaf in 0..leaves {
            let slots = &program.slots()[leaf * leaf_slots..(leaf + 1) * leaf_slots];
            let slots: String = slots.iter().map(|slot| format!("{slot:016X}")).collect();
            let count = program.counts()[Order::Tree.place(leaves + leaf, m)];
            assert_eq!(
                lines.next(),
                Some(format!("91{leaf:04X}{count:04X}{slots}").as_str())
            );
        }
        assert_eq!(lines.next(), None);
        assert_eq!(printed.bytes().filter(|&b| b == b'\n').count(), leaves + 2);
    }
}

/// Random lines: the program holds the same sheet as the calls made by hand.
#[test]
fn random_lines_and_calls_agree() {
    let mut random = SplitMix64::new(20);
    let mut program = Program::new();
    let mut store = Store::cleared();
    let mut waiting: Vec<u32> = Vec::new();
    for _ in 0..6000 {
        let n = n(&store);
        match random.below(9) {
            0..=2 => {
                let rank = random.below(n + 2);
                let entry = random.next_u64() % 50 | random.next_u64() << 62;
                let answer = insert(&mut store, rank, entry, &waiting);
                let line = format!("01{rank:04X}{entry:016X}");
                agree(&mut program, &line, answer, &store, &mut waiting);
            }
            3..=4 => {
                let rank = random.below(n + 1);
                let answer = delete(&mut store, rank, &waiting);
                agree(
                    &mut program,
                    &format!("02{rank:04X}"),
                    answer,
                    &store,
                    &mut waiting,
                );
            }
            5 if random.below(200) == 0 => {
                store = Store::cleared();
                assert_eq!(step(&mut program, "06"), "86000000\n");
            }
            5 => assert_eq!(step(&mut program, "0"), format!("FF08{n:04X}\n")),
            _ => {
                let number = 1 + random.below(16);
                let words = words(&mut random, number);
                let fits = waiting.len() + words.len() <= 1024;
                let cause = if fits { 0 } else { 9 };
                let answer = step(&mut program, tape_line(&words));
                assert_eq!(answer, format!("84{cause:02X}{n:04X}\n"));
                if fits {
                    waiting.extend(words);
                }
            }
        }
        assert_eq!(program.waiting(), waiting);
        assert_eq!(program.slots(), &*store.slots);
        assert_eq!(program.counts(), &*store.counts);
        assert_eq!(program.tallies(), &*store.tallies);
    }
}

fn agree(
    program: &mut Program,
    line: &str,
    answer: reference::calls::Answer,
    store: &Store,
    waiting: &mut Vec<u32>,
) {
    let kind = 0x80 + frame_kind(line.as_bytes());
    let number = answer.number();
    let expected = format!("{kind:02X}{number:02X}{:04X}\n", n(store));
    assert_eq!(step(program, line), expected);
    waiting.drain(..answer.values()[1]);
}
