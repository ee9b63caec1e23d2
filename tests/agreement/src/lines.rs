//! Random histories of lines for the program: frames of the seven kinds, some
//! of them refused, and damaged lines among them.

use crate::histories::{entry, Bits};
use reference::frames::Program;
use reference::random::SplitMix64;

/// The kinds of damage that [`damaged`] knows.
pub const DAMAGES: usize = 17;

/// A history of so many lines, by way of each of the targets; it stays about a
/// target for some lines and then prints. The last line may be unended.
pub fn history(seed: u64, lines: u64, targets: &[usize]) -> Vec<u8> {
    let mut random = SplitMix64::new(seed);
    let mut program = Program::new();
    let mut input = Vec::new();
    let mut answers = Vec::new();
    let mut target = targets[random.below(targets.len())];
    let mut supply = 200;
    for _ in 0..lines {
        let n = usize::from(program.counts()[1]);
        let is_over = n == target && random.below(20) == 0;
        let line = if is_over {
            b"05".to_vec()
        } else {
            some_line(&mut random, n, target, program.waiting().len(), supply, Bits::of_seed(seed))
        };
        if is_over || random.below(3000) == 0 {
            target = targets[random.below(targets.len())];
        }
        if random.below(300) == 0 {
            supply = [0, 20, 200, 200, 200, 200, 200, 1010][random.below(8)];
        }
        answers.clear();
        program.step(&line, &mut answers);
        input.extend_from_slice(&line);
        input.push(b'\n');
    }
    if random.below(2) == 0 {
        input.pop();
    }
    input
}

/// A line that as a rule brings the number of entries nearer to `target`, or
/// the number of waiting words to `supply`.
fn some_line(random: &mut SplitMix64, n: usize, target: usize, waiting: usize, supply: usize, bits: Bits) -> Vec<u8> {
    let line = if waiting < supply && random.below(4) != 0 {
        tape_line(random)
    } else {
        match random.below(40) {
            0..=3 => read_line(random, n),
            4..=7 => format!("07{:04X}", rank(random, n)),
            8 if supply > 0 => tape_line(random),
            9 if random.below(10) == 0 => "05".to_string(),
            9 if random.below(200) == 0 => "06".to_string(),
            _ if (n < target) == (random.below(8) != 0) => format!("01{:04X}{:016X}", rank(random, n), entry(random, bits)),
            _ => format!("02{:04X}", rank(random, n)),
        }
    };
    match random.below(10) {
        0 => damaged(random.below(DAMAGES), line, random),
        _ => line.into_bytes(),
    }
}

/// A rank, at times past the end.
fn rank(random: &mut SplitMix64, n: usize) -> usize {
    match random.below(30) {
        0 => n + random.below(3),
        1 => 0xFFFF,
        _ => random.below(n + 1),
    }
}

/// A read of 1 to 66 entries, at times of any ranks.
fn read_line(random: &mut SplitMix64, n: usize) -> String {
    let entries = match random.below(4) {
        0 => 62 + random.below(5),
        _ => 1 + random.below(66),
    };
    let first = match random.below(12) {
        0 => rank(random, n),
        _ => random.below(n.saturating_sub(entries) + 1),
    };
    let last = match random.below(12) {
        0 => rank(random, n),
        _ => (first + entries - 1).min(0xFFFF),
    };
    format!("03{first:04X}{last:04X}")
}

/// 1 to 16 words, some of which most draws pass over, some zero.
fn tape_line(random: &mut SplitMix64) -> String {
    let words = 1 + random.below(16);
    words_line(random, words)
}

fn words_line(random: &mut SplitMix64, words: usize) -> String {
    let mut line = "04".to_string();
    for _ in 0..words {
        let word = match random.below(20) {
            0..=2 => u32::MAX - random.below(2) as u32,
            3 => 0,
            _ => random.next_u32(),
        };
        line.push_str(&format!("{word:08X}"));
    }
    line
}

/// The line with one kind of damage, which may leave it a frame.
pub fn damaged(damage: usize, line: String, random: &mut SplitMix64) -> Vec<u8> {
    let mut line = line.into_bytes();
    let at = random.below(line.len());
    match damage {
        0 => line.make_ascii_lowercase(),
        1 => drop(line.pop()),
        2 => line.push(b'0'),
        3 => line.truncate(line.len() - 2),
        4 => line.extend_from_slice(b"00"),
        5 => line.push(b'\r'),
        6 => line.insert([0, at, line.len()][random.below(3)], b" \t"[random.below(2)]),
        7 => line[at] = 0,
        8 => line[at] = 128 + random.below(128) as u8,
        9 => line.clear(),
        10 => line = words_line(random, 17).into_bytes(),
        11 => line.resize(129 + random.below(140), b'0'),
        12 => line = line.repeat(2),
        13 => line[at] = b"G:@/`gxX+-"[random.below(10)],
        14 => line[..2].copy_from_slice(format!("{:02X}", random.below(256)).as_bytes()),
        15 => line = (0..random.below(400)).map(|_| random.below(256) as u8).filter(|byte| *byte != b'\n').collect(),
        _ if random.below(10) == 0 => line.resize(60_000 + random.below(10_000), b'F'),
        _ => line.insert(0, b'0'),
    }
    line
}
