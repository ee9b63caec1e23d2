//! The proved program on lines: document 01's cases with the answers that it and
//! document 02 state, and long random histories beside the second implementation.

use agreement::histories::{BORDER, FULL, SHORT};
use agreement::lines;
use agreement::program::{agrees, expected_for, lines_of, same, written_for, Met};
use agreement::say;
use reference::frames::frame_kind;
use reference::places::{RETIRED, TIED};
use reference::random::SplitMix64;
use std::io::Write;
use std::ops::Range;
use std::thread;
use std::time::Duration;

/// What the program writes for these lines, each ended by LF.
fn answers(input: &[String]) -> Vec<String> {
    let input = input.iter().map(|line| format!("{line}\n")).collect::<String>();
    let written = written_for(|to| to.write_all(input.as_bytes()));
    same(0, input.as_bytes(), &written);
    String::from_utf8(written).unwrap().lines().map(str::to_string).collect()
}

fn strings(lines: &[&str]) -> Vec<String> {
    lines.iter().map(|line| line.to_string()).collect()
}

fn tape_line(words: usize) -> String {
    format!("04{}", "00000001".repeat(words))
}

/// Lines that make a sheet of n entries, 1, 2, …, each with these bits or none, and
/// leave few words waiting.
fn entries(n: usize, bits: u64) -> Vec<String> {
    let mut random = SplitMix64::new(3);
    let mut program = reference::frames::Program::new();
    let mut lines = Vec::new();
    let mut answers = Vec::new();
    let mut length = 0;
    while length < n as u64 {
        while program.waiting().len() < 300 {
            let line = format!("04{:08X}", random.next_u32());
            program.step(line.as_bytes(), &mut answers);
            lines.push(line);
        }
        length += 1;
        let line = format!("01{:04X}{:016X}", random.below(length as usize), length | bits);
        program.step(line.as_bytes(), &mut answers);
        lines.push(line);
    }
    lines
}

/// "Input" and "Output" of document 01, where by document 02, F-2, the second
/// entry moves to the last slot.
#[test]
fn worked_example() {
    let input = strings(&["010000000000000000000A", "0400000001", "010001000000000000000B", "05"]);
    let output = [
        "81000001",
        "84000001",
        "81000002",
        "85000002",
        "9000030002",
        "9100000002000000000000000A0000000000000000000000000000000B",
    ];
    assert_eq!(answers(&input), output);
}

/// Document 01: N 1,024, insert at rank 1,024 gives 5, at rank 1,025 gives 4.
#[test]
fn marks_of_a_full_sheet() {
    let mut input = entries(1024, 0);
    let made = input.len();
    input.extend(strings(&[
        "0104000000000000000001",
        "0104010000000000000001",
        "0104010000000000000000",
        "0703FF",
        "070400",
        "020400",
        "05",
    ]));
    let written = answers(&input);
    assert_eq!(
        written[made..made + 7],
        ["81050400", "81040400", "81030400", "870004000400000004000001", "87040400", "82040400", "85000400"]
    );
}

/// Document 02, F-3: B ties with A, which bears the bit at rank 0 without effect;
/// D and E tie with C. With C struck out they tie with B.
#[test]
fn dead_heats() {
    let boats = ["800000000000000A", "800000000000000B", "000000000000000C", "800000000000000D", "800000000000000E"];
    let mut input = vec![tape_line(16)];
    input.extend(boats.iter().enumerate().map(|(rank, boat)| format!("01{rank:04X}{boat}")));
    input.extend(strings(&["070000", "070001", "070002", "070003", "070004", "070005"]));
    input.extend(strings(&["020002", "070000", "070003"]));
    let output = [
        "870000050001000000030002",
        "870000050001000000030002",
        "8700000500030000000C0003",
        "8700000500030000000C0003",
        "8700000500030000000C0003",
        "87040005",
        "82000004",
        "8700000400010000000A0004",
        "8700000400010000000A0004",
    ];
    assert_eq!(answers(&input)[6..], output);
}

/// Document 02, F-11: B has retired and bears bit 63, so that C ties with A; D has
/// retired without it, so that E does not tie with C. E goes out and comes in again
/// retired, then D scores.
#[test]
fn retired_boats() {
    let boats = ["000000000000000A", "C00000000000000B", "800000000000000C", "400000000000000D", "800000000000000E"];
    let mut input = vec![tape_line(16)];
    input.extend(boats.iter().enumerate().map(|(rank, boat)| format!("01{rank:04X}{boat}")));
    input.extend(strings(&["070000", "070001", "070002", "070003", "070004", "0300010003"]));
    input.extend(strings(&["020004", "010004C00000000000000E", "070004", "020003", "010003800000000000000D", "070003", "070000"]));
    let output = [
        "870000050001000000030002",
        "870000050000000000000001",
        "870000050001000000030002",
        "870000050000000000000001",
        "870000050003000000030001",
        "83000005C00000000000000B800000000000000C400000000000000D",
        "82000004",
        "81000005",
        "870000050000000000000001",
        "82000004",
        "81000005",
        "870000050001000000060003",
        "870000050001000000060003",
    ];
    assert_eq!(answers(&input)[6..], output);
}

/// 1,024 boats that tie and have retired have no place.
#[test]
fn a_full_sheet_of_retired_boats() {
    let mut input = entries(1024, RETIRED | TIED);
    let made = input.len();
    input.extend((0..1024).map(|rank| format!("07{rank:04X}")));
    let written = answers(&input);
    assert!(written[made..].iter().all(|answer| answer == "870004000000000000000001"));
}

/// 1,024 boats that tie have place 1; the sum of the places, 524,800, takes three
/// of its 4 bytes.
#[test]
fn dead_heat_of_a_full_sheet() {
    let mut input = entries(1024, TIED);
    let made = input.len();
    input.extend((0..1024).map(|rank| format!("07{rank:04X}")));
    let written = answers(&input);
    assert!(written[made..].iter().all(|answer| answer == "870004000001000802000400"));
}

/// 1,024 words wait; one more is refused with 9, whole lines at a time.
#[test]
fn waiting_words() {
    let mut input = vec![tape_line(16); 63];
    input.extend([tape_line(15), tape_line(2), tape_line(1), tape_line(1), tape_line(16)]);
    // The second insert reads one word.
    input.extend(strings(&["010000000000000000000A", "010000000000000000000B"]));
    input.extend([tape_line(2), tape_line(1), tape_line(1)]);
    let written = answers(&input);
    assert!(written[..63].iter().all(|answer| answer == "84000000"));
    assert_eq!(
        written[63..],
        ["84000000", "84090000", "84000000", "84090000", "84090000", "81000001", "81000002", "84090002", "84000002", "84090002"]
    );
    let mut input = vec![tape_line(16); 64];
    input.push(tape_line(1));
    let written = answers(&input);
    assert!(written[..64].iter().all(|answer| answer == "84000000"));
    assert_eq!(written[64..], ["84090000"]);
}

/// 64 entries are read, 65 give 6; a rank past N gives 4 before that.
#[test]
fn long_reads() {
    let mut input = entries(100, 0);
    let made = input.len();
    for ranks in ["0000003F", "00000040", "0000FFFF", "00240063", "00230063", "00240064", "00010000", "00640064", "00630063"] {
        input.push(format!("03{ranks}"));
    }
    let written = answers(&input);
    let heads: Vec<&str> = written[made..].iter().map(|answer| &answer[..8]).collect();
    assert_eq!(
        heads,
        ["83000064", "83060064", "83040064", "83000064", "83060064", "83040064", "83040064", "83040064", "83000064"]
    );
    let lengths: Vec<usize> = written[made..].iter().map(|answer| (answer.len() - 8) / 16).collect();
    assert_eq!(lengths, [64, 0, 0, 64, 0, 0, 0, 0, 1]);
}

/// Clear empties the sheet; the words that wait stay.
#[test]
fn clear_keeps_the_waiting_tape() {
    let input = strings(&[
        "0400000001",
        "010000000000000000000C",
        "06",
        "05",
        "010000000000000000000A",
        "010001000000000000000B",
        "05",
        "010001000000000000000B",
    ]);
    let output = [
        "84000000",
        "81000001",
        "86000000",
        "85000000",
        "9000000000",
        "81000001",
        "81000002",
        "85000002",
        "9000030002",
        "9100000002000000000000000A0000000000000000000000000000000B",
        "81070002",
    ];
    assert_eq!(answers(&input), output);
    let mut input = vec![tape_line(16); 64];
    input.extend(["06".to_string(), tape_line(1)]);
    assert_eq!(answers(&input)[64..], ["86000000", "84090000"]);
}

/// The end of the input ends the program, and a last line without LF counts
/// if it holds a character.
#[test]
fn ends_of_input() {
    for (input, output) in [
        ("", ""),
        ("\n", "FF080000\n"),
        ("\n\n", "FF080000\nFF080000\n"),
        ("06", "86000000\n"),
        ("06\n", "86000000\n"),
        ("06\n0", "86000000\nFF080000\n"),
        ("06\n\n07", "86000000\nFF080000\nFF080000\n"),
        ("06\r", "FF080000\n"),
    ] {
        let written = written_for(|to| to.write_all(input.as_bytes()));
        assert_eq!(String::from_utf8(written).unwrap(), output, "{input:?}");
        assert_eq!(expected_for(input.as_bytes()), output.as_bytes());
    }
}

/// Lines with each kind of damage: FF, 08, N, and sheet and tape stay.
#[test]
fn damaged_lines() {
    let mut random = SplitMix64::new(61);
    let mut input = entries(70, 0).join("\n").into_bytes();
    let made = lines_of(&input).len();
    input.extend_from_slice(b"\n05\n");
    let frames = ["01000A000000000000000B", "02000A", "0300000001", "0400ABCDEF", "05", "06", "07000A"];
    let mut damaged = 0;
    for damage in 0..lines::DAMAGES {
        for frame in frames {
            let line = lines::damaged(damage, frame.to_string(), &mut random);
            if frame_kind(&line) == 255 {
                input.extend_from_slice(&line);
                input.push(b'\n');
                damaged += 1;
            }
        }
    }
    input.extend_from_slice(b"05\n01000A000000000000000B\n05\n");
    assert!(damaged > 100);
    let written = written_for(|to| to.write_all(&input));
    same(61, &input, &written);
    let written = lines_of(&written);
    let no_frame: &[u8] = b"FF080046";
    let first = written.iter().position(|answer| *answer == no_frame).unwrap();
    assert!(written[first..first + damaged].iter().all(|answer| *answer == no_frame));
    let printed = first - made;
    assert_eq!(written[made..first], written[first + damaged..first + damaged + printed], "the sheet stays");
}

/// Histories of `lines` lines each, and what they met.
fn histories(seeds: Range<u64>, lines: u64, targets: &[usize]) -> Met {
    let mut met = Met::default();
    for seed in seeds {
        met.add(agrees(seed, &lines::history(seed, lines, targets)));
    }
    say(&format!("{} lines", met.lines));
    met
}

/// The answers, each by kind and cause, were given, lists were so long, and boats
/// tied and retired.
fn assert_met(met: &Met, answers: &[&str], lengths: &[usize]) {
    assert!(met.tied > 0 && met.retired > 0, "{met:?}");
    for answer in answers {
        assert!(met.answers.contains_key(*answer), "{answer} in {:?}", met.answers);
    }
    for length in lengths {
        assert!(met.lengths.contains(length), "{length} entries");
    }
}

/// What every long history meets.
const OFTEN: &[&str] = &[
    "8100", "8103", "8104", "8107", "8200", "8204", "8207", "8300", "8304", "8400", "8409", "8500", "8600", "8700", "8704", "FF08",
];

#[test]
fn short_lists() {
    let met = histories(1000..1010, 10_000, SHORT);
    assert_met(&met, OFTEN, &[0, 1, 2, 40]);
}

#[test]
fn from_one_range_to_many() {
    let met = histories(1100..1110, 10_000, BORDER);
    assert_met(&met, OFTEN, &[30, 64, 65, 66, 130]);
    assert_met(&met, &["8306"], &[]);
}

#[test]
fn full_and_back() {
    let met = histories(1200..1204, 30_000, FULL);
    assert_met(&met, OFTEN, &[0, 64, 65, 1024]);
    assert_met(&met, &["8105", "8306"], &[]);
}

/// The input in pieces of odd sizes, with pauses between them.
#[test]
fn input_in_pieces() {
    for (seed, targets) in [(1300, BORDER), (1301, FULL)] {
        let input = lines::history(seed, 10_000, targets);
        let written = written_for(|to| {
            let mut random = SplitMix64::new(seed);
            let mut rest = &input[..];
            while !rest.is_empty() {
                let size = [1, 2, 3, 7, 45, 129, 131, 255, 1023, 4097][random.below(10)];
                let (piece, left) = rest.split_at(size.min(rest.len()));
                to.write_all(piece)?;
                if random.below(4) == 0 {
                    thread::sleep(Duration::from_micros(500));
                }
                rest = left;
            }
            Ok(())
        });
        same(seed, &input, &written);
        say(&format!("{} lines", lines_of(&input).len()));
    }
}
